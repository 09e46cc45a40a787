/* What stands once, under the lock. */
#include "link.h"

struct shared shared;
struct psci_place firmware;
struct psci_poller pollers[CORES];
struct psci_port_core sides[CORES];
uint32_t taken;
#ifdef CACHE_MODEL
volatile char marks[128];
#endif
