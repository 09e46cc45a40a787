/* Plays the events of a script, as player.h says. */
#include "player.h"

#include <inttypes.h>
#include <stdio.h>
#include <stdlib.h>
#include <string.h>

enum { MOST_FRAMES = 100000 };

/* Where a core is, and its last start. */
enum place { STOPPED, STARTED, RUNNING };
static struct core {
    enum place place;
    uint32_t number, cause;
} cores[PSCI_MOST_CORES];

/* Frames that were sent, by their numbers. */
struct frames {
    uint8_t bytes[MOST_FRAMES][PSCI_FRAME_LEN];
    uint64_t many;
};

struct psci_place place;
struct psci_ctl_place controller;
uint32_t life;
static struct frames messages, acks;

void fail(const char *why) {
    fprintf(stderr, "host: %s\n", why);
    exit(1);
}

/* Keeps a frame, and says its number. */
static uint64_t keep(struct frames *frames, const uint8_t *frame) {
    if (frames->many == MOST_FRAMES)
        fail("too many frames");
    memcpy(frames->bytes[frames->many], frame, PSCI_FRAME_LEN);
    return frames->many++;
}

static void start(unsigned core, uint32_t number, uint32_t cause) {
    cores[core] = (struct core){STARTED, number, cause};
}

static void stop_all(void) {
    for (struct core *core = cores; core < cores + PSCI_MOST_CORES; core++)
        core->place = STOPPED;
}

void begin_life(void) {
    stop_all();
    start(0, 1, PSCI_CAUSE_BOOT);
    life++;
}

/* The message of an answer: it is kept, and follows the answer in its line. */
static void send(const struct psci_frame *frame) {
    static const char *const kinds[] = {"", "down", "start", "off", "reset"};
    struct psci_message it;
    if (!frame->some)
        return;
    if (psci_decode(&place, frame->bytes, PSCI_FRAME_LEN, &it) != PSCI_USED)
        fail("a message is no frame");
    printf(" #%" PRIu64 " %s ", keep(&messages, frame->bytes), kinds[it.kind]);
    write_core(it.core);
    printf(" life %" PRIu32 " number %" PRIu32, it.life, it.number);
    if (it.count)
        printf(" parts");
    for (const struct psci_part *part = it.parts; part < it.parts + it.count; part++)
        printf(" %" PRIu32 ":%u:%" PRIu64, part->level, part->depth, part->generation);
}

/* What a core does with its answer. */
static void obey(unsigned core, const struct psci_answer *answer) {
    cores[core].place = answer->what == PSCI_STOP ? STOPPED : RUNNING;
    switch (answer->what) {
    case PSCI_RETURN: printf("return %" PRId32, answer->code); break;
    case PSCI_STOP:
        printf("stop");
        if (answer->message.some)
            write_asked(&answer->asked);
        break;
    case PSCI_ENTER:
        printf("enter 0x%" PRIx64 " 0x%" PRIx64, answer->address, answer->context);
        break;
    case PSCI_RESUME: printf("resume 0"); break;
    default: fail("a call was refused");
    }
    send(&answer->message);
}

static void call(unsigned core, char *words) {
    uint64_t x[4] = {0};
    struct psci_answer answer;
    for (int i = 0; i < 4 && words; i++)
        x[i] = strtoull(words, &words, 0);
    if (cores[core].place != RUNNING) {
        printf("ignored");
        return;
    }
    psci_smc(&place, core, x[0], x[1], x[2], x[3], &answer);
    obey(core, &answer);
}

static void enter(unsigned core) {
    struct psci_answer answer;
    if (cores[core].place != STARTED) {
        printf("ignored");
        return;
    }
    before_entry();
    psci_enter(&place, core, life, cores[core].number, cores[core].cause, &answer);
    obey(core, &answer);
}

static void take(uint64_t k) {
    if (k >= acks.many) {
        printf("absent");
        return;
    }
    uint32_t taken = psci_take(&place, acks.bytes[k], PSCI_FRAME_LEN);
    if (taken > PSCI_OLD)
        fail("an acknowledgement was refused");
    printf(taken == PSCI_USED ? "used" : "old");
}

/* What the power controller has carried out: which cores it started. */
static void carry_out(const struct psci_ctl_answer *answer) {
    if (answer->what >= PSCI_CTL_NO_PLACE)
        fail("the power controller refused a call");
    if (answer->what == PSCI_CTL_OFF)
        stop_all();
    if (answer->what == PSCI_CTL_RESTART)
        begin_life();
    if (answer->what == PSCI_CTL_START)
        start(answer->start.core, answer->start.number, answer->start.cause);
    uint32_t present = psci_ctl_life(&controller);
    if (present && present != life)
        fail("the power controller is in another life");
}

static void deliver(uint64_t k) {
    struct psci_ctl_answer answer;
    if (k >= messages.many) {
        printf("absent");
        return;
    }
    psci_ctl_deliver(&controller, messages.bytes[k], PSCI_FRAME_LEN, &answer);
    carry_out(&answer);
    if (!answer.ack.some) {
        printf("ignored");
        return;
    }
    printf("ack #%" PRIu64 " applied %u", keep(&acks, answer.ack.bytes), answer.ack.bytes[12]);
    if (answer.ack.bytes[2] & PSCI_STALE_ACK)
        printf(" stale");
}

/* A wake-up of a core that is stopped, or a reset of any. */
static void kick(unsigned core, bool resets) {
    struct psci_ctl_answer answer = {0};
    if (resets)
        psci_ctl_reset(&controller, core, &answer);
    else if (cores[core].place == STOPPED)
        psci_ctl_wake(&controller, core, psci_ctl_starts(&controller, core), &answer);
    carry_out(&answer);
    if (answer.what == PSCI_CTL_START)
        printf("started %" PRIu32, answer.start.number);
    else
        printf("ignored");
}

void event(char *line) {
    char *words = strchr(line, ' ');
    uint64_t word = strtoull(words, &words, 0);
    if (*line == 'd')
        deliver(word);
    else if (*line == 't')
        take(word);
    else if (core_named(word) == UINT16_MAX)
        printf("absent");
    else if (*line == 'c')
        call(core_named(word), words);
    else if (*line == 'e')
        enter(core_named(word));
    else
        kick(core_named(word), *line == 'r');
}
