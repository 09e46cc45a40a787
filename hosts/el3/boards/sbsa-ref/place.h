/* What stands where on this board, of its `board`, by hosts/el3/boards.py. */
#define IMAGE 0x0
#define DATA 0x20000000
#define STACKS 0x20800000
#define STACK 0x4000
#define STACKS_END 0x20a00000
#define GUARD 0x1000
#define RECORD_START 0x21000000
#define RECORD_END 0x3f000000
#define DEVICE_TREE 0x10010000000
#define UART 0x60030000
#define FREQUENCY 0x3b9aca0
#define TCR 0x80853510
#define GICD 0x40060000
#define GICR 0x40080000
#define EC 0x50000000

#ifdef MAP
        .balign 4096
map:
        .quad   map_1 + 3
        .zero   8
        .quad   map_4 + 3
        .zero   4072
        .balign 4096
map_1:
        .quad   map_2 + 3
        entries 1, 0x40000000, 0x40000000, 0x40000000000445
        .zero   4080
        .balign 4096
map_2:
        entries 128, 0x0, 0x200000, 0x7c1
        .zero   1024
        entries 4, 0x20000000, 0x200000, 0x40000000000741
        .quad   map_3 + 3
        entries 251, 0x20a00000, 0x200000, 0x40000000000741
        .balign 4096
map_3:
        guarded 128, 0x20801000, 3, 0x40000000000743
        .balign 4096
map_4:
        entries 1, 0x10000000000, 0x40000000, 0x40000000000761
        .zero   4088
#endif
