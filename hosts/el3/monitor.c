/* The monitor: what EL3 does with a call, and with the bell. docs/port/PORTING.md is its contract. */
#include "console.h"
#include "gic.h"
#include "link.h"
#include "monitor.h"
#include "power.h"
#include "record.h"

enum { AFFINITY_INFO = 4, FEATURES = 10 };
#define SMC64 0x40000000u

/* The function of a word in the range of PSCI. */
static unsigned function_of(uint64_t word) { return word & 0x1f; }
static bool is_psci(uint64_t word) { return (word & 0xbfffffe0) == 0x84000000; }

/* AFFINITY_INFO of a core, which is asked in a row by who waits for it. */
static bool is_poll(const uint64_t *x) {
    return function_of(x[0]) == AFFINITY_INFO && (uint32_t)x[2] == 0;
}

/* Whether there is SMCCC_VERSION, which is a fact of the machine and not the firmware's to say. */
static bool asks_of_smccc(const uint64_t *x) {
    return function_of(x[0]) == FEATURES && (uint32_t)x[1] == SMCCC_VERSION && !(x[0] & SMC64);
}

/* What x1 names, of 32 or 64 bits. */
static uint64_t named_by(const uint64_t *x) { return x[0] & SMC64 ? x[1] : (uint32_t)x[1]; }

/* In standby and retention a core keeps its registers. A core that stops without a message has nothing
 * to come back to. */
static bool keeps_registers(const uint8_t *depths) {
    return depths[0] == PSCI_CTL_STANDBY || depths[0] == PSCI_CTL_RETENTION;
}

/* As deep as the core goes: what it alone has, or with its cluster all that leads to memory. */
static enum caches caches_of(const uint8_t *depths) {
    if (keeps_registers(depths))
        return NO_CACHES;
    return depths[1] == PSCI_CTL_POWER_DOWN ? ALL_CACHES : OWN_CACHES;
}

/* What a call orders; and of a stop, in which start each core was about to stop before. */
struct call {
    struct psci_port_orders orders;
    uint64_t before[CORES];
};

/* Who takes a cluster down stopped last in it, and cleans what it shares: once the others, which were on their way before,
 * have cleaned theirs into that. One that is on its way again has done so. */
static void await_neighbours(unsigned core, const uint64_t *before) {
    for (unsigned other = 0; other < CORES; other++)
        if (paths[other][1] == paths[core][1] && other != core)
            while (LOAD(shared.doors[other].leaves) == before[other] && clean_start(other) != before[other])
                relax();
}

/* What goes into x0 of a core that comes back with its registers. */
static uint64_t stop(unsigned core, const struct call *call) {
    const uint8_t *depths = call->orders.depths;
    enum caches caches = caches_of(depths);
    COUNT(stops);
    if (caches == ALL_CACHES)
        await_neighbours(core, call->before);
    wait_for_start(&sides[core], caches);
    if (!keeps_registers(depths))
        cold();
    return enter(&sides[core]);
}

static void refused(unsigned core, const struct psci_port_orders *orders) {
    COUNT(refused);
    say("# el3: a call of core %u was refused: %u\n", core, orders->next);
}

/* Under the lock. */
static void prepare_stop(unsigned core, struct call *call) {
    begin_stop(core);
    for (unsigned other = 0; other < CORES; other++)
        call->before[other] = shared.doors[other].leaves;
}

/* What the call orders, and its message stands in the mailbox. */
static void ask(unsigned core, const uint64_t *x, struct call *call) {
    lock();
    take_acks();
    psci_port_call(&firmware, &sides[core], x[0], x[1], x[2], x[3], &call->orders);
    if (call->orders.next == PSCI_PORT_STANDS)
        prepare_stop(core, call);
    record_call(x, &call->orders);
    post(&call->orders.message);
    unlock();
}

/* What goes into x0. */
static uint64_t on_call(unsigned core, const uint64_t *x) {
    struct call call;
    ask(core, x, &call);
    if (call.orders.next == PSCI_PORT_LEAVES)
        return call.orders.x0;
    if (call.orders.next == PSCI_PORT_STANDS)
        return stop(core, &call);
    refused(core, &call.orders);
    return ~0ull;
}

/* The code of a 64-bit function is sign-extended, that of a 32-bit one stands in the low half. */
static uint64_t register_of(int32_t code, uint64_t word) {
    return word & SMC64 ? (uint64_t)(int64_t)code : (uint32_t)code;
}

/* It is answered by one load, without the lock: who holds it is not waited for. */
static uint64_t on_poll(unsigned core, const uint64_t *x) {
    int32_t code = psci_poll(&pollers[core], named_by(x));
    record_poll(x, code);
    return register_of(code, x[0]);
}

/* What nobody can answer ends the core's work: after it the same instruction would come here again, for ever. */
_Noreturn void on_unexpected(uint64_t vector, uint64_t esr, uint64_t elr, uint64_t far) {
    COUNT(refused);
    say("# el3: core %x: exception %u, esr %x, elr %x, far %x\n", own_mpidr(), (unsigned)vector, esr,
        elr, far);
    for (;;)
        wait_for_interrupt();
}

/* The last thing of a call. */
static void leave(uint64_t *x, uint64_t x0) {
    record_leaves(x0);
    x[0] = x0;
}

void on_exception(struct context *context, uint64_t esr) {
    uint64_t *x = context->x;
    if (esr >> 26 != 0x17) /* no SMC of AArch64 */
        on_unexpected(8, esr, read_register("elr_el3"), read_register("far_el3"));
    else if (!is_psci(x[0]) || asks_of_smccc(x))
        x[0] = answer_beside(x);
    else
        leave(x, is_poll(x) ? on_poll(this_core(), x) : on_call(this_core(), x));
}

void on_fiq(void) {
    gic_answer();
    serve_link();
}
