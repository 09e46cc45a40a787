/* What stands where on this board, of its `board`, by hosts/el3/boards.py. */
#define IMAGE 0xfffc0000
#define DATA 0xfffe0000
#define STACKS 0xffff4000
#define STACK 0x3000
#define STACKS_END 0x100000000
#define GUARD 0x1000
#define RECORD_START 0x70000000
#define RECORD_END 0x7ff00000
#define DEVICE_TREE 0x10000000
#define UART 0xff010000
#define FREQUENCY 0x3b9aca0
#define TCR 0x80803520
#define GICD 0xf9010000
#define GICC 0xf9020000
#define GUEST_UART 0xff000000
#define RST_FPD_APU 0xfd1a0104
#define RVBAR 0xfd5c0040
#define STAGED 0x60000000

#ifdef MAP
        .balign 4096
map:
        entries 2, 0x0, 0x40000000, 0x40000000000761
        .zero   8
        .quad   map_1 + 3
        .balign 4096
map_1:
        .zero   3584
        entries 63, 0xf8000000, 0x200000, 0x40000000000445
        .quad   map_2 + 3
        .balign 4096
map_2:
        entries 448, 0xffe00000, 0x1000, 0x40000000000447
        entries 32, 0xfffc0000, 0x1000, 0x7c3
        entries 20, 0xfffe0000, 0x1000, 0x40000000000743
        guarded 4, 0xffff5000, 2, 0x40000000000743
#endif
