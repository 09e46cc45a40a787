/* The lists of a machine's text, by hosts/el3/machine. */
#define CORES 16
#define LEVELS 4
#define BOOT 0x0
#define SCP_MPIDR 0x100
#define MPIDRS \
    0, 1, 2, 3, 4, 5, 6, 7, 8, 9, 0xa, 0xb, 0xc, 0xd, 0xe, 0xf

#ifndef __ASSEMBLER__
#define PATHS \
    {0, 0, 0, 0}, {1, 0, 0, 0}, {2, 0, 0, 0}, {3, 0, 0, 0}, {4, 1, 0, 0}, {5, 1, 0, 0}, {6, 1, \
        0, 0}, {7, 1, 0, 0}, {8, 2, 1, 0}, {9, 2, 1, 0}, {0xa, 2, 1, 0}, {0xb, 2, 1, 0}, {0xc, \
        3, 1, 0}, {0xd, 3, 1, 0}, {0xe, 3, 1, 0}, {0xf, 3, 1, 0}
#define BOARD \
    { \
    .height = 3, .format = PSCI_ORIGINAL_FORMAT, \
    .starts = 4294967295, .lives = 65535, .boot = 0x40200000, \
    .many_ranges = 1, .ranges = {{0x40000000, 0x60000000}}, \
    .levels = {{4, {4, 4, 4, 4}}, {2, {2, 2}}, {1, {2}}}, \
    }
#define MACHINE \
    { \
    .levels = 3, \
    .functions = PSCI_HAS_CPU_SUSPEND | PSCI_HAS_CPU_OFF | PSCI_HAS_CPU_ON | \
        PSCI_HAS_SYSTEM_OFF | PSCI_HAS_SYSTEM_RESET | PSCI_HAS_NODE_HW_STATE | \
        PSCI_HAS_SYSTEM_SUSPEND | PSCI_HAS_SYSTEM_RESET2, \
    .many_mpidrs = 16, .mpidrs = {MPIDRS}, \
    .standby = {1, 1, 1, 1}, \
    .retention = {1, 1, 1, 1}, \
    .system = {3, 3, 3, 3}, \
    .many_rows = 34, .rows = { \
    {0x00000001, 0xffffffff, {1, 0, 0, 0}}, \
    {0x01000011, 0xffffffff, {1, 1, 0, 0}}, \
    {0x02000111, 0xffffffff, {1, 1, 1, 0}}, \
    {0x03001111, 0xffffffff, {1, 1, 1, 1}}, \
    {0x00000002, 0xffffffff, {2, 0, 0, 0}}, \
    {0x01000012, 0xffffffff, {2, 1, 0, 0}}, \
    {0x02000112, 0xffffffff, {2, 1, 1, 0}}, \
    {0x03001112, 0xffffffff, {2, 1, 1, 1}}, \
    {0x01000022, 0xffffffff, {2, 2, 0, 0}}, \
    {0x02000122, 0xffffffff, {2, 2, 1, 0}}, \
    {0x03001122, 0xffffffff, {2, 2, 1, 1}}, \
    {0x02000222, 0xffffffff, {2, 2, 2, 0}}, \
    {0x03001222, 0xffffffff, {2, 2, 2, 1}}, \
    {0x03002222, 0xffffffff, {2, 2, 2, 2}}, \
    {0x00010003, 0xffffffff, {3, 0, 0, 0}}, \
    {0x01010013, 0xffffffff, {3, 1, 0, 0}}, \
    {0x02010113, 0xffffffff, {3, 1, 1, 0}}, \
    {0x03011113, 0xffffffff, {3, 1, 1, 1}}, \
    {0x01010023, 0xffffffff, {3, 2, 0, 0}}, \
    {0x02010123, 0xffffffff, {3, 2, 1, 0}}, \
    {0x03011123, 0xffffffff, {3, 2, 1, 1}}, \
    {0x02010223, 0xffffffff, {3, 2, 2, 0}}, \
    {0x03011223, 0xffffffff, {3, 2, 2, 1}}, \
    {0x03012223, 0xffffffff, {3, 2, 2, 2}}, \
    {0x01010033, 0xffffffff, {3, 3, 0, 0}}, \
    {0x02010133, 0xffffffff, {3, 3, 1, 0}}, \
    {0x03011133, 0xffffffff, {3, 3, 1, 1}}, \
    {0x02010233, 0xffffffff, {3, 3, 2, 0}}, \
    {0x03011233, 0xffffffff, {3, 3, 2, 1}}, \
    {0x03012233, 0xffffffff, {3, 3, 2, 2}}, \
    {0x02010333, 0xffffffff, {3, 3, 3, 0}}, \
    {0x03011333, 0xffffffff, {3, 3, 3, 1}}, \
    {0x03012333, 0xffffffff, {3, 3, 3, 2}}, \
    {0x03013333, 0xffffffff, {3, 3, 3, 3}}, \
    }, \
    }
#endif
