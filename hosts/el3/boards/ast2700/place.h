/* What stands where on this board, of its `board`, by hosts/el3/boards.py. */
#define IMAGE 0x430000000
#define DATA 0x430200000
#define STACKS 0x430800000
#define STACK 0x4000
#define STACKS_END 0x430a00000
#define GUARD 0x1000
#define RECORD_START 0x431000000
#define RECORD_END 0x438000000
#define DEVICE_TREE 0x408000000
#define UART 0x14c33000
#define FREQUENCY 0x430e2340
#define TCR 0x8081351c
#define GICD 0x12200000
#define GICR 0x12280000
#define WDT 0x14c37000

#ifdef MAP
        .balign 4096
map:
        .quad   map_1 + 3
        .zero   120
        .quad   map_2 + 3
        .zero   376
        .balign 4096
map_1:
        .zero   1024
        entries 128, 0x10000000, 0x200000, 0x40000000000445
        .zero   2048
        .balign 4096
map_2:
        entries 384, 0x400000000, 0x200000, 0x40000000000761
        entries 1, 0x430000000, 0x200000, 0x7c1
        entries 3, 0x430200000, 0x200000, 0x40000000000741
        .quad   map_3 + 3
        entries 59, 0x430a00000, 0x200000, 0x40000000000741
        .zero   512
        .balign 4096
map_3:
        guarded 128, 0x430801000, 3, 0x40000000000743
#endif
