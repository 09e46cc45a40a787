/* What TF-A does within a call, and of a core that is reset by itself: stories 1, 3, 4 and 9 of docs/compare/PEERS.md, which
 * no list of calls shows. Each is played on TF-A's own code; a line says what was seen, and the status is 1 where
 * something was not. */
#define psci_power_down_wfi stops
#include "peer.c"
#undef psci_power_down_wfi
#include <stdio.h>

enum { CPU_OFF = 0x84000002, OFF = 1 };
#define CPU_ON 0xc4000003
#define SYSTEM_SUSPEND 0xc400000e
static void (*before_it_stops)(void);
static struct psci_beside_did asked;
static uint32_t status;
static int missed;

/* The last instruction of a core's way down. */
void psci_power_down_wfi(void) {
    void (*what)(void) = before_it_stops;
    before_it_stops = NULL;
    if (what)
        what();
    stops();
}

static struct psci_beside_did call(uint32_t core, uint64_t x0, uint64_t x1, uint64_t x2, uint64_t x3) {
    struct psci_beside_did did;
    tfa_call(NULL, core, (const uint64_t[4]){x0, x1, x2, x3}, &did);
    return did;
}

/* Core 1 was started by core 0, at this address. */
static void begin(uint64_t address) {
    struct psci_beside_did did;
    tfa_open(NULL, NULL);
    call(0, CPU_ON, 1, address, 7);
    tfa_enter(NULL, 1, PSCI_CAUSE_ON, &did);
}

static void look_at_core_1(void) { status = tfa_status(NULL, 1); }

static void suspend_the_system(void) {
    jmp_buf kept;
    memcpy(kept, away, sizeof kept);
    asked = call(0, SYSTEM_SUSPEND, 0x40200000, 0, 0);
    memcpy(away, kept, sizeof kept);
}

static void saw(int story, bool so, const char *what) {
    printf("%d: %s%s\n", story, so ? "" : "not seen: ", what);
    missed += !so;
}

int main(void) {
    struct psci_beside_did did;
    begin(0x40200400);
    before_it_stops = look_at_core_1;
    call(1, CPU_OFF, 0, 0, 0);
    saw(1, status == OFF, "core 1 is OFF while it still executes its CPU_OFF");
    begin(0x40200800);
    tfa_enter(NULL, 1, PSCI_CAUSE_RESET, &did);
    saw(3, did.what == PSCI_ENTER && did.address == 0x40200800, "core 1 runs, is reset, and enters at the address of its "
                                                               "CPU_ON once more");
    begin(0x40200400);
    tfa_enter(NULL, 3, PSCI_CAUSE_RESET, &did);
    saw(4, did.what == PSCI_BESIDE_NOTHING, "core 3, which nobody asked on, starts, and TF-A panics");
    begin(0x40200400);
    before_it_stops = suspend_the_system;
    call(1, CPU_OFF, 0, 0, 0);
    saw(9, asked.what == PSCI_STOP && asked.depths[2] == 3, "SYSTEM_SUSPEND takes the whole system down while core 1 "
                                                            "still executes");
    return missed != 0;
}
