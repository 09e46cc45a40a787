/* What stands where on this board, of its `board`, by hosts/el3/boards.py. */
#define IMAGE 0x70000000
#define DATA 0x70200000
#define STACKS 0x70800000
#define STACK 0x4000
#define STACKS_END 0x70a00000
#define GUARD 0x1000
#define RECORD_START 0x71000000
#define RECORD_END 0x78000000
#define DEVICE_TREE 0x10000000
#define UART 0xff010000
#define FREQUENCY 0x3b9aca0
#define TCR 0x80803520
#define GICD 0xf9000000
#define GICR 0xf9080000

#ifdef MAP
        .balign 4096
map:
        entries 1, 0x0, 0x40000000, 0x40000000000761
        .quad   map_1 + 3
        .zero   8
        .quad   map_3 + 3
        .balign 4096
map_1:
        entries 256, 0x40000000, 0x200000, 0x40000000000761
        .zero   1024
        entries 1, 0x70000000, 0x200000, 0x7c1
        entries 3, 0x70200000, 0x200000, 0x40000000000741
        .quad   map_2 + 3
        entries 59, 0x70a00000, 0x200000, 0x40000000000741
        .zero   512
        .balign 4096
map_2:
        guarded 128, 0x70801000, 3, 0x40000000000743
        .balign 4096
map_3:
        .zero   3072
        entries 128, 0xf0000000, 0x200000, 0x40000000000445
#endif
