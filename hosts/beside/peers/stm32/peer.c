/* The STM32MP1 around psci.c: the boot ROM that takes SGI0, resets, and the table of psci.S. */
#include <setjmp.h>
#include <string.h>

#include <asm/psci.h>

#include "fuzz.h"
#include "statics.h"

enum { CORES = 2, RESETS = STM32_RCC_BASE + 0x404, OPERATING = STM32_DDRCTRL_BASE + 4, BUSY = STM32_DDRCTRL_BASE + 0x3fc };
static u32 me, magic, asked[3], resumes_at;
static bool is_woken, has_entry;
static jmp_buf away;
static struct psci_beside_did out;
extern u8 psci_state[CORES];
#include "table.h"

/* The core executes nothing more: what has become of it. */
static void leave(uint32_t what) {
    out.what = what;
    longjmp(away, 1);
}

void wfi(void) { leave(PSCI_STOP); }
void hang(void) { leave(PSCI_BESIDE_NOTHING); }
void sleeps(void) { is_woken ? (void)0 : leave(PSCI_STOP); }
void psci_cpu_entry(void) {}
u32 psci_get_cpu_id(void) { return me; }

/* No DDR port is busy, and the DDR is in self-refresh until the system wakes up; all else is set. */
u32 readl(uintptr_t at) {
    return at == TAMP_BACKUP_MAGIC_NUMBER ? magic : at == BUSY ? 0 : at == OPERATING ? is_woken ? 1 : 0x23 : ~0u;
}

void writel(u32 value, uintptr_t at) {
    if (at == TAMP_BACKUP_MAGIC_NUMBER)
        magic = value;
    if ((at & 0xfff) == GICD_SGIR) /* the ROM of the core that is asked */
        magic = magic == 0xca7face0 || magic == 0xca7face1 ? magic : 0;
    if (at == RESETS && value & 1)
        leave(PSCI_BESIDE_RESETS);
    if (at == __secure_stack_end - (me << ARM_PSCI_STACK_SHIFT) - 8) { /* where the call goes back to */
        resumes_at = value;
        has_entry = true;
    }
}

static void stm_open(void *self, const struct psci_beside_board *board) { statics_fresh(); }

static void suspends(const u32 r[4]) {
    memcpy(asked, r, sizeof asked);
    psci_system_suspend(r[0], r[1], r[2]);
}

static void stm_call(void *self, uint32_t core, const uint64_t x[4], struct psci_beside_did *did) {
    u32 r[4] = {x[0], x[1], x[2], x[3]};
    me = core;
    out = (struct psci_beside_did){.what = PSCI_RETURN};
    if (!setjmp(away))
        out.x0 = (int64_t)dispatch(r);
    *did = out;
}

/* A system that wakes up goes on behind its wfi: the call is made again, and does not sleep this time. What r0 is then
 * nobody sets: 0 stands for it. */
static void wake(void) {
    has_entry = false;
    is_woken = true;
    psci_system_suspend(asked[0], asked[1], asked[2]);
    out.what = has_entry ? PSCI_ENTER : PSCI_RESUME;
    out.address = resumes_at;
}

static void stm_enter(void *self, uint32_t core, uint32_t cause, struct psci_beside_did *did) {
    me = core;
    out = (struct psci_beside_did){.what = PSCI_ENTER};
    if (cause != PSCI_CAUSE_WAKE) {
        psci_arch_cpu_entry();
        out.address = psci_get_target_pc(core);
        out.context = psci_get_context_id(core);
    } else if (!setjmp(away))
        wake();
    is_woken = false;
    *did = out;
}

static uint32_t stm_status(void *self, uint32_t core) { return psci_state[core]; }
const struct psci_beside_peer psci_beside_target = {.name = "stm32", .open = stm_open, .call = stm_call,
    .enter = stm_enter, .status = stm_status, .save = statics_save};
