/* The turns of main.rt.in through the C library: the words are the same. `poll` asks for the status of
 * a core without the lock, `version` is PSCI_VERSION. */
#include "pool.h"
#include "psci.h"

#include <stdio.h>
#include <stdlib.h>
#include <string.h>

enum { ENTRY = 0x40001000 };

static struct psci_place firmware;
static struct psci_answer answer;
static struct psci_poller poller;

/* A core calls: whether it was not refused. */
static bool call(uint16_t core, uint64_t x0, uint64_t x1, uint64_t x2) {
    psci_smc(&firmware, core, x0, x1, x2, 7, &answer);
    return answer.what < PSCI_NO_FIRMWARE;
}

static bool enter(uint16_t core, uint32_t number, uint32_t cause) {
    psci_enter(&firmware, core, 1, number, cause, &answer);
    return answer.what < PSCI_NO_FIRMWARE;
}

/* The power controller has taken the core down that stopped in its start of this number. */
static bool down(uint16_t core, uint32_t number) {
    uint8_t ack[PSCI_FRAME_LEN] = {0x50, 0x44, 0x11, (uint8_t)core, 0, 0, 0, 1};
    for (int i = 0; i < 4; i++)
        ack[8 + i] = (uint8_t)(number >> (24 - 8 * i));
    ack[12] = 4;
    return psci_take(&firmware, ack, sizeof ack) == PSCI_USED;
}

static uint32_t on_and_off(uint16_t last, uint64_t word, uint32_t turns) {
    uint32_t done = 0;
    for (uint32_t number = 1; number < turns; number++) {
        bool on = call(0, 0xc4000003, word, ENTRY), entered = enter(last, number, PSCI_CAUSE_ON);
        bool off = call(last, 0x84000002, 0, 0), gone = down(last, number);
        done += on && entered && off && gone;
    }
    return done;
}

static uint32_t suspend(uint16_t last, uint64_t state, uint32_t turns) {
    uint32_t done = 0;
    for (uint32_t number = 2; number < turns; number++) {
        bool stopped = call(last, 0xc4000001, state, ENTRY);
        done += stopped && enter(last, number, PSCI_CAUSE_WAKE);
    }
    return done;
}

static uint32_t ask(uint16_t last, uint64_t x0, uint64_t x1, uint64_t x2, uint32_t turns) {
    uint32_t done = 0;
    for (uint32_t turn = 0; turn < turns; turn++)
        done += call(last, x0, x1, x2);
    return done;
}

static uint32_t suspend_system(uint16_t last, uint32_t turns) {
    uint32_t done = 0;
    for (uint32_t number = 2; number < turns; number++) {
        bool stopped = call(last, 0xc400000e, ENTRY, 0);
        done += stopped && enter(last, number, PSCI_CAUSE_WAKE);
    }
    return done;
}

static uint32_t set_modes(uint16_t last, uint32_t turns) {
    uint32_t done = 0;
    for (uint32_t turn = 0; turn < turns; turn++) {
        bool there = call(last, 0x8400000f, 1, 0);
        done += there && call(last, 0x8400000f, 0, 0);
    }
    return done;
}

static uint32_t poll_core(uint64_t word, uint32_t turns) {
    uint32_t done = 0;
    for (uint32_t turn = 0; turn < turns; turn++)
        done += psci_poll(&poller, word) == 0;
    return done;
}

static uint32_t measured(uint16_t last, unsigned height, uint64_t word, const char *what,
                         uint32_t turns) {
    uint64_t state = height == 2 ? 0x02010333 : 0x03013333;
    enter(0, 1, PSCI_CAUSE_BOOT);
    if (strcmp(what, "on") == 0)
        return on_and_off(last, word, turns);
    if (strcmp(what, "refusal") == 0) {
        call(0, 0x8400000f, 1, 0);
        call(0, 0xc4000003, word, ENTRY);
        enter(last, 1, PSCI_CAUSE_ON);
        return ask(last, 0xc4000001, state, ENTRY, turns);
    }
    call(0, 0xc4000003, word, ENTRY);
    enter(last, 1, PSCI_CAUSE_ON);
    call(0, 0x84000002, 0, 0);
    down(0, 1);
    if (strcmp(what, "core") == 0)
        return ask(last, 0xc4000004, word, 0, turns);
    if (strcmp(what, "sleep") == 0)
        return suspend_system(last, turns);
    if (strcmp(what, "modes") == 0)
        return set_modes(last, turns);
    if (strcmp(what, "poll") == 0)
        return poll_core(word, turns);
    if (strcmp(what, "version") == 0)
        return ask(last, 0x84000000, 0, 0, turns);
    if (strcmp(what, "system") == 0)
        return ask(last, 0xc4000004, 0, height, turns);
    return suspend(last, state, turns);
}

/* How many cores, and how many levels above them, a tree has. */
static uint16_t cores_of(const char *tree) {
    uint16_t cores = 0;
    for (; *tree; tree++)
        if (*tree >= '0' && *tree <= '9') {
            char *end;
            cores += (uint16_t)strtoul(tree, &end, 10);
            tree = end - 1;
        }
    return cores;
}
static unsigned height_of(const char *tree) { return 1 + (unsigned)strspn(tree, "("); }

int main(int count, char **words) {
    char text[512];
    if (count != 5)
        return 2;
    size_t size = pool_size(256);
    pool_give(malloc(size), size);
    int length = snprintf(text, sizeof text,
        "%s exec 0x40000000-0x40100000 boot 0x40000000 starts 4294967295 lives 3", words[1]);
    if (psci_open(&firmware, (const uint8_t *)text, (size_t)length) != PSCI_OPENED)
        return 1;
    if (psci_open_poller(&firmware, &poller) != PSCI_OPENED)
        return 1;
    uint16_t cores = cores_of(words[1]);
    unsigned height = height_of(words[1]);
    uint32_t done = measured(cores - 1, height, strtoull(words[2], NULL, 0), words[3],
                             (uint32_t)strtoul(words[4], NULL, 0));
    printf("%u cores, height %u: %u answered\n", cores, height, done);
    return 0;
}
