/* The lists of a machine's text, by hosts/el3/machine. */
#define CORES 4
#define LEVELS 3
#define BOOT 0x0
#define SCP_MPIDR 0x4
#define MPIDRS \
    0, 1, 2, 3

#ifndef __ASSEMBLER__
#define PATHS \
    {0, 0, 0}, {1, 0, 0}, {2, 1, 0}, {3, 1, 0}
#define BOARD \
    { \
    .height = 2, .format = PSCI_ORIGINAL_FORMAT, \
    .starts = 4294967295, .lives = 65535, .boot = 0x40200000, \
    .many_ranges = 1, .ranges = {{0x40000000, 0x60000000}}, \
    .levels = {{2, {2, 2}}, {1, {2}}}, \
    }
#define MACHINE \
    { \
    .levels = 2, \
    .functions = PSCI_HAS_CPU_SUSPEND | PSCI_HAS_CPU_OFF | PSCI_HAS_CPU_ON | \
        PSCI_HAS_SYSTEM_OFF | PSCI_HAS_SYSTEM_RESET | PSCI_HAS_NODE_HW_STATE | \
        PSCI_HAS_SYSTEM_SUSPEND | PSCI_HAS_SYSTEM_RESET2, \
    .many_mpidrs = 4, .mpidrs = {MPIDRS}, \
    .standby = {1, 1, 1, 0}, \
    .retention = {1, 1, 1, 0}, \
    .system = {3, 3, 3, 0}, \
    .many_rows = 19, .rows = { \
    {0x00000001, 0xffffffff, {1, 0, 0, 0}}, \
    {0x01000011, 0xffffffff, {1, 1, 0, 0}}, \
    {0x02000111, 0xffffffff, {1, 1, 1, 0}}, \
    {0x00000002, 0xffffffff, {2, 0, 0, 0}}, \
    {0x01000012, 0xffffffff, {2, 1, 0, 0}}, \
    {0x02000112, 0xffffffff, {2, 1, 1, 0}}, \
    {0x01000022, 0xffffffff, {2, 2, 0, 0}}, \
    {0x02000122, 0xffffffff, {2, 2, 1, 0}}, \
    {0x02000222, 0xffffffff, {2, 2, 2, 0}}, \
    {0x00010003, 0xffffffff, {3, 0, 0, 0}}, \
    {0x01010013, 0xffffffff, {3, 1, 0, 0}}, \
    {0x02010113, 0xffffffff, {3, 1, 1, 0}}, \
    {0x01010023, 0xffffffff, {3, 2, 0, 0}}, \
    {0x02010123, 0xffffffff, {3, 2, 1, 0}}, \
    {0x02010223, 0xffffffff, {3, 2, 2, 0}}, \
    {0x01010033, 0xffffffff, {3, 3, 0, 0}}, \
    {0x02010133, 0xffffffff, {3, 3, 1, 0}}, \
    {0x02010233, 0xffffffff, {3, 3, 2, 0}}, \
    {0x02010333, 0xffffffff, {3, 3, 3, 0}}, \
    }, \
    }
#endif
