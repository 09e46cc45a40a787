/* The i.MX7D around psci-mx7.c: which cores the reset controller enables and the power controller has on, their words for
 * each other, and a system that wakes up. */
#include <setjmp.h>
#include <asm/psci.h>
#include "fuzz.h"
#include "statics.h"
#define HAS_CPU_SUSPEND
#include "table.h"

enum { CORES = 2, CORE1_ENABLES = SRC_BASE_ADDR + 8, WORDS = SRC_BASE_ADDR + 0x78, UP = GPC_IPS_BASE_ADDR + 0xf0,
       DOWN = GPC_IPS_BASE_ADDR + 0xfc, POWER = SNVS_BASE_ADDR + 0x38, DDR = DDRC_IPS_BASE_ADDR + 4 };
static u32 me, enables, powered, words[CORES];
static bool is_woken;
static jmp_buf away;
static struct psci_beside_did out;
extern u8 psci_state[CORES];
void imx_system_resume(void);

/* The core executes nothing more, if nothing else has become of it. */
void wfi(void) {
    out.what = out.what == PSCI_RETURN ? PSCI_STOP : out.what;
    longjmp(away, 1);
}

/* Core 0 is enabled always. A core that asks for its own end goes on to its wfi. */
static bool executes(u32 core) { return powered >> core & 1 && (!core || enables >> 1 & 1); }

u32 psci_get_cpu_id(void) { return me; }
void psci_cpu_entry(void) {}
void psci_system_resume(void) {}
void writew(u32 value, void *at) { out.what = PSCI_BESIDE_RESETS; }

/* Which core has a word to the others here, or none. */
static int word_at(uintptr_t at) { return at == WORDS ? 0 : at == WORDS + 8 ? 1 : CORES; }

u32 readl(uintptr_t at) {
    int core = word_at(at);
    return core < CORES ? words[core] : at == CORE1_ENABLES ? enables : at == DDR && !is_woken ? 0x23 : 0;
}

void writel(u32 value, uintptr_t at) {
    if (word_at(at) < CORES)
        words[word_at(at)] = value;
    if (at == CORE1_ENABLES)
        enables = value;
    if (at == UP)
        powered |= value;
    if (at == DOWN)
        powered &= ~value;
    if (at == POWER)
        out.what = PSCI_BESIDE_ENDS;
}

static void mx7_open(void *self, const struct psci_beside_board *board) {
    statics_fresh();
    powered = 1;
}

static void suspends(const u32 r[4]) { psci_system_suspend(r[0], r[1], r[2]); }

static void mx7_call(void *self, uint32_t core, const uint64_t x[4], struct psci_beside_did *did) {
    u32 r[4] = {x[0], x[1], x[2], x[3]};
    me = core;
    out = (struct psci_beside_did){.what = executes(core) ? PSCI_RETURN : PSCI_BESIDE_NOTHING};
    if (executes(core) && !setjmp(away))
        out.x0 = (int64_t)dispatch(r);
    *did = out;
}

static void mx7_enter(void *self, uint32_t core, uint32_t cause, struct psci_beside_did *did) {
    me = core;
    is_woken = cause == PSCI_CAUSE_WAKE;
    if (is_woken)
        imx_system_resume();
    is_woken = false;
    *did = (struct psci_beside_did){.what = PSCI_BESIDE_NOTHING};
    if (!executes(core))
        return;
    psci_arch_cpu_entry();
    *did = (struct psci_beside_did){.what = PSCI_ENTER, .address = psci_get_target_pc(core), .context = psci_get_context_id(core)};
}

static uint32_t mx7_status(void *self, uint32_t core) { return psci_state[core]; }
const struct psci_beside_peer psci_beside_target = {.name = "mx7", .open = mx7_open, .call = mx7_call,
    .enter = mx7_enter, .status = mx7_status, .save = statics_save};
