/* What stands where on this board, of its `board`, by hosts/el3/boards.py. */
#define IMAGE 0x30000000
#define DATA 0x30200000
#define STACKS 0x30800000
#define STACK 0x4000
#define STACKS_END 0x30a00000
#define GUARD 0x1000
#define RECORD_START 0x31000000
#define RECORD_END 0x38000000
#define DEVICE_TREE 0x8000000
#define UART 0xfe215040
#define FREQUENCY 0x3b9aca0
#define TCR 0x80803520
#define GICD 0xff841000
#define GICC 0xff842000
#define AUX 0xfe215000
#define PM 0xfe100000

#ifdef MAP
        .balign 4096
map:
        .quad   map_1 + 3
        .zero   16
        .quad   map_3 + 3
        .balign 4096
map_1:
        entries 384, 0x0, 0x200000, 0x40000000000761
        entries 1, 0x30000000, 0x200000, 0x7c1
        entries 3, 0x30200000, 0x200000, 0x40000000000741
        .quad   map_2 + 3
        entries 59, 0x30a00000, 0x200000, 0x40000000000741
        .zero   512
        .balign 4096
map_2:
        guarded 128, 0x30801000, 3, 0x40000000000743
        .balign 4096
map_3:
        .zero   3968
        entries 16, 0xfe000000, 0x200000, 0x40000000000445
#endif
