/* Core 0 asks for core 3, as the tutorial's first script does: the firmware answers, its message goes to the power
 * controller, and core 3 enters where it was asked to. A port does the same with real cores between. */
#include "pool.h"
#include "psci_ctl.h"

#include <inttypes.h>
#include <stdio.h>
#include <string.h>

static const char board[] = "(2 2) exec 0x40000000-0x40100000 boot 0x40000000 starts 1000 lives 3";
static _Alignas(16) unsigned char memory[3 * POOL_SIZE(4)];
static struct psci_place firmware;
static struct psci_ctl_place controller;

static void enters(uint16_t core, const struct psci_ctl_start *start) {
    struct psci_answer answer;
    psci_enter(&firmware, core, start->life, start->number, start->cause, &answer);
    if (answer.what == PSCI_ENTER)
        printf("core %u enters at 0x%" PRIx64 " with context 0x%" PRIx64 "\n", core, answer.address, answer.context);
}

int main(void) {
    struct psci_answer answer;
    struct psci_ctl_answer reply;
    struct psci_ctl_start boot;
    pool_give(memory, sizeof memory);
    if (psci_open(&firmware, (const uint8_t *)board, strlen(board)) != PSCI_OPENED ||
        psci_ctl_open(&controller, (const uint8_t *)board, strlen(board)) != PSCI_OPENED)
        return 1;
    psci_ctl_started(&controller, 0, &boot);
    enters(0, &boot);
    /* CPU_ON of MPIDR 0x101 */
    psci_smc(&firmware, 0, 0xc4000003, 0x101, 0x40001000, 0x7, &answer);
    printf("CPU_ON returns %" PRId32 "\n", answer.code);
    psci_ctl_deliver(&controller, answer.message.bytes, sizeof answer.message.bytes, &reply);
    if (reply.what == PSCI_CTL_START)
        enters(3, &reply.start);
    psci_take(&firmware, reply.ack.bytes, sizeof reply.ack.bytes);
    psci_smc(&firmware, 0, 0xc4000004, 0x101, 0, 0, &answer);
    printf("AFFINITY_INFO returns %" PRId32 "\n", answer.code);
    return 0;
}
