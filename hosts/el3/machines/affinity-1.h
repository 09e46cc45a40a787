/* The lists of a machine's text, by hosts/el3/machine. */
#define CORES 4
#define LEVELS 3
#define BOOT 0x300
#define SCP_MPIDR 0x301
#define MPIDRS \
    0, 0x100, 0x200, 0x300

#ifndef __ASSEMBLER__
#define PATHS \
    {0, 0, 0}, {1, 0, 0}, {2, 1, 0}, {3, 1, 0}
#define BOARD \
    { \
    .height = 2, .format = PSCI_ORIGINAL_FORMAT, \
    .starts = 4294967295, .lives = 65535, .boot = 0x40200000, \
    .many_ranges = 1, .ranges = {{0x40000000, 0x60000000}}, \
    .levels = {{2, {2, 2}}, {1, {2}}}, \
    }
#define MACHINE \
    { \
    .levels = 2, \
    .functions = PSCI_HAS_CPU_SUSPEND | PSCI_HAS_CPU_OFF | PSCI_HAS_CPU_ON | \
        PSCI_HAS_SYSTEM_OFF | PSCI_HAS_SYSTEM_RESET | PSCI_HAS_SYSTEM_SUSPEND, \
    .many_mpidrs = 4, .mpidrs = {MPIDRS}, \
    .standby = {0, 0, 0, 0}, \
    .retention = {1, 1, 0, 0}, \
    .system = {2, 2, 1, 0}, \
    .many_rows = 5, .rows = { \
    {0x00000010, 0xffffffff, {1, 0, 0, 0}}, \
    {0x00010011, 0xffffffff, {2, 0, 0, 0}}, \
    {0x00010022, 0xffffffff, {2, 1, 0, 0}}, \
    {0x00010033, 0xffff00ff, {2, 2, 0, 0}}, \
    {0x02010044, 0xffffffff, {2, 2, 1, 0}}, \
    }, \
    }
#endif
