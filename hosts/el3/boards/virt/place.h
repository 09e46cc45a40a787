/* What stands where on this board, of its `board`, by hosts/el3/boards.py. */
#define IMAGE 0x0
#define DATA 0xe000000
#define STACKS 0xe200000
#define STACK 0x4000
#define STACKS_END 0xe400000
#define GUARD 0x1000
#define RECORD_START 0xe400000
#define RECORD_END 0xf000000
#define DEVICE_TREE 0x47000000
#define UART 0x9040000
#define FREQUENCY 0x3b9aca0
#define TCR 0x80803520
#define GICD 0x8000000
#define GICC 0x8010000
#define GICR 0x80a0000
#define PINS 0x90b0000

#ifdef MAP
        .balign 4096
map:
        .quad   map_1 + 3
        entries 1, 0x40000000, 0x40000000, 0x40000000000761
        .zero   16
        .balign 4096
map_1:
        entries 64, 0x0, 0x200000, 0x7c1
        entries 48, 0x8000000, 0x200000, 0x40000000000445
        entries 1, 0xe000000, 0x200000, 0x40000000000741
        .quad   map_2 + 3
        entries 6, 0xe400000, 0x200000, 0x40000000000741
        .zero   3136
        .balign 4096
map_2:
        guarded 128, 0xe201000, 3, 0x40000000000743
#endif
