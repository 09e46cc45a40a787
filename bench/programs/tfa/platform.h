/* TF-A's lib/psci itself on this machine, its sources compiled as hosts/beside does it, and a platform below it. */
#include <stdint.h>

/* What the platform has of each core. */
extern struct core {
    entry_point_info_t entry;
    psci_power_state_t told;
    uint64_t address, context;
    void *back[5];
} __attribute__((__aligned__(128))) at[PLATFORM_CORE_COUNT];

/* The core of this thread calls, or enters. 1 where it stops, else 0, with its answer there. */
int call(uint32_t function, u_register_t x1, u_register_t x2, u_register_t x3, int64_t *answer);
void enter(void);
