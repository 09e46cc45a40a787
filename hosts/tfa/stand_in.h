/* What gumdarts_firmware.c takes of TF-A, for a try of it on this machine (downs.c). */
#ifndef STAND_IN_H
#define STAND_IN_H

#include <stdbool.h>
#include <stddef.h>
#include <stdint.h>

#define PLATFORM_CORE_COUNT 4U
#define PLAT_MAX_PWR_LVL 1U
#define GUMDARTS_RECORD 1
#define USE_COHERENT_MEM 0
#define AFF_STATE_OFF 1U
#define PSCI_E_SUCCESS 0
#define PSCI_E_INTERN_FAIL (-6)
#define MPIDR_AFFINITY_MASK UINT64_C(0xff00ffffff)
#define __dead2 __attribute__((noreturn))
#define __aligned(many) __attribute__((aligned(many)))

typedef uint64_t u_register_t;
typedef uint8_t plat_local_state_t;
typedef struct { plat_local_state_t pwr_domain_state[PLAT_MAX_PWR_LVL + 1U]; } psci_power_state_t;
typedef struct { u_register_t pc; } entry_point_info_t;
typedef struct { volatile uint32_t lock; } spinlock_t;

extern unsigned int psci_plat_core_count;

void spin_lock(spinlock_t *);
void spin_unlock(spinlock_t *);
unsigned int plat_my_core_pos(void);
u_register_t read_mpidr(void);
void __dead2 panic(void);
void ERROR(const char *text, ...) __attribute__((format(printf, 1, 2)));
bool psci_is_last_on_cpu_safe(void);
int psci_secondaries_brought_up(void);

#endif
