/* What the boot core does after each reset of the machine. A core may have been anywhere: the firmware is made
 * anew. The power controller is made once, as the power comes on, and counts lives on. */
#include "console.h"
#include "gic.h"
#include "hooks.h"
#include "link.h"
#include "monitor.h"
#include "pool.h"
#include "power.h"
#include "record.h"
#include "string.h"

extern char data_start[], data_end[], data_load[], bss_start[], bss_end[], kept_start[], kept_end[];

struct kept kept __attribute__((section(".kept")));

/* The heaps, which the library asks as it opens and at no other time: of the firmware with its machine; of the power
 * controller. */
static unsigned char heap[POOL_SIZE(CORES) + POOL_MACHINE_SIZE(CORES)] __attribute__((aligned(16)));
static unsigned char kept_heap[POOL_SIZE(CORES)] __attribute__((aligned(16), section(".kept")));

static void check(const char *what, uint32_t opened) {
    if (opened == PSCI_OPENED)
        return;
    say("# el3: %s did not open: %u\n", what, opened);
    for (;;)
        wait_for_interrupt();
}

static void open_firmware(bool is_warm) {
    pool_give(heap, sizeof heap);
    check("the firmware", psci_open_machine(&firmware, &board, &described, BOOT));
    for (unsigned core = 0; core < CORES; core++) {
        check("a poller", psci_open_poller(&firmware, &pollers[core]));
        psci_port_new(&sides[core], core);
    }
    if (!is_warm)
        say("# el3: heap of the firmware: %u\n", (unsigned)pool_taken());
}

static void open_controller(void) {
    memset(kept_start, 0, kept_end - kept_start);
    pool_give(kept_heap, sizeof kept_heap);
    check("the power controller", psci_control_open_board(&kept.control, &board));
    say("# el3: heap of the power controller: %u\n", (unsigned)pool_taken());
    record_board();
}

/* A reset that the power controller has not ordered, by a button or a watchdog, finds READY in memory. It may have cut
 * the controller, too, so both sides begin in life 1, as when the power comes on. */
void start_machine(void) {
    bool is_warm = kept.boot == WARM, is_cut = kept.boot == READY;
    memcpy(data_start, data_load, data_end - data_start);
    memset(bss_start, 0, bss_end - bss_start);
    clean(bss_start, bss_end); /* what is written behind caches has no old line in one */
    board_begins();
    if (is_cut)
        say("\n# el3: a reset that nobody here has ordered\n");
    if (!is_warm)
        open_controller();
    STORE(kept.boot, READY);
    clean(&kept.boot, &kept.boot + 1); /* such a reset loses what caches alone have */
    open_firmware(is_warm);
#ifndef SCP_MPIDR
    open_door(0);
#endif
    gic_start();
}
