/* The proved firmware in the place of TF-A's own PSCI decisions: what the files of this folder share.
 * The names that begin as TF-A's are those that the rest of BL31 calls. */
#ifndef GUMDARTS_ADAPTOR_H
#define GUMDARTS_ADAPTOR_H

#include <stdbool.h>
#include <stdint.h>

#include <lib/psci/psci.h>
#include <plat/common/platform.h>

#include "psci_ctl.h"
#include "psci_private.h"

#define SET_SUSPEND_MODE 0x8400000fU

/* What a core reads and writes with its caches off: on its way down, and before its caches are on. */
#if USE_COHERENT_MEM && GUMDARTS_TFA_MINOR > 8
#define SEEN_UNCACHED __section(".tzfw_coherent_mem")
#elif USE_COHERENT_MEM
#define SEEN_UNCACHED __section("tzfw_coherent_mem")
#else
#define SEEN_UNCACHED
#endif

/* A core and the power controller's work. Each word has one writer, the core itself. */
struct door {
    uint32_t number;           /* the start by which it entered last; 0 before its first one */
    volatile uint32_t stopped; /* last of all: it stands in its stop of this start */
    bool wakes;                /* a wake-up may end that stop */
    uint8_t level;             /* up to which level its domains may change with it */
    plat_local_state_t state;  /* how deep its hooks were told that it goes */
    u_register_t mpidr;        /* once it has entered */
};
extern struct door doors[PLATFORM_CORE_COUNT];

/* gumdarts_tree.c: TF-A's power domains, and the board of the firmware, whose cores are numbered alike --- */

extern struct psci_board board;
void tree_setup(void);
/* What the board calls the core that this MPIDR names, or the domain of this level; else a word of
 * no core. */
uint64_t board_word(u_register_t mpidr, uint32_t level);
/* The core of an MPIDR; -1 where there is none. */
int core_of(u_register_t mpidr);
/* The locks of the core's power domains up to this level, as lib/psci takes them around the platform's hooks;
 * and those that it has. */
void domains_lock(unsigned int core, unsigned int level);
void domains_unlock(unsigned int core);

/* gumdarts_states.c: power states of the platform, and depths of the firmware -------------------------- */

/* The word that the firmware reads, of the states that the platform read. */
uint64_t firmware_word(const psci_power_state_t *states, unsigned int type);
/* What the hooks are told of a stop, of what was asked: the depth is the firmware's. */
psci_power_state_t states_of(unsigned int core, const struct psci_stop *stop,
                             const psci_power_state_t *asked);
psci_power_state_t all_off(void);
void states_setup(void);
/* What the domains on the core's path were told last; that they are told so; that they run. Each as far as they
 * are locked: those above run. */
psci_power_state_t told_states(unsigned int core);
void tell_states(unsigned int core, const psci_power_state_t *told);
void tell_running(unsigned int core);

/* gumdarts_firmware.c: the library, its lock, and the power controller ---------------------------------- */

void firmware_open(void);
/* A call, with its message on its way; where it stops the core, how deep. */
void firmware_call(unsigned int core, const uint64_t *x, struct psci_answer *, struct psci_stop *);
/* The same of a call that suspends the core down to this level at most. Up to which its domains have to be
 * locked; where they are not, since the mode has changed, nothing is asked, and it is false. */
unsigned int firmware_level(unsigned int asked);
bool firmware_call_locked(unsigned int core, const uint64_t *x, unsigned int asked, struct psci_answer *,
                          struct psci_stop *);
/* The same where the target is not OFF; else nothing is asked, and it is false. */
bool firmware_call_unless_off(unsigned int core, const uint64_t *x, unsigned int target,
                              struct psci_answer *);
/* A core enters, by the start that it finds. */
void firmware_enter(unsigned int core, struct psci_answer *, struct psci_stop *);
/* AFFINITY_INFO of this core, without waiting for the lock. */
int32_t firmware_poll(unsigned int core, const uint64_t *x, unsigned int target);
/* Under the lock: 0 ON, 1 OFF, 2 ON_PENDING. */
uint32_t firmware_status(unsigned int core);

/* gumdarts_calls.c: what a caller's registers say. */
void entry_keep(unsigned int core);
u_register_t code_register(int32_t code, uint32_t function);
/* A call that returns, or ends the system. */
u_register_t plain_call(const uint64_t *x);

/* gumdarts_others.c: what the platform or the trusted OS answers, and the firmware does not know. */
bool is_others(uint32_t function);
u_register_t others_call(const uint64_t *x);
u_register_t system_reset2(const uint64_t *x);

/* gumdarts_stops.c: ways down. The domains of the core are locked. */
void __dead2 power_down(unsigned int core, const struct psci_stop *, const psci_power_state_t *asked);
void stand_by(unsigned int core, const struct psci_stop *, const psci_power_state_t *asked);
void __dead2 end_system(uint32_t function);
void __dead2 park(void);

/* gumdarts_entries.c: how a core goes on that stood by or came out of reset. */
extern entry_point_info_t entry_points[PLATFORM_CORE_COUNT];
extern spinlock_t start_locks[PLATFORM_CORE_COUNT];

/* gumdarts_lock.S: takes the lock if nobody has it. */
bool lock_if_free(spinlock_t *lock);

/* gumdarts_stack.S: calls a function on a larger stack, where a core's own is small. */
void on_opening_stack(void (*function)(void));

#endif
