/* The line of each event by the calls of psci_record.h, beside what docs/compare/RECORD.md says of it. Ends with 1 at the
 * first one that is another, and prints it.
 *
 *     lines [SEED COUNT]        the lines of so many drawn events, each below its fields, for tests/hosts/lines-read */
#include "psci_record.h"

#include <inttypes.h>
#include <stdio.h>
#include <stdlib.h>
#include <string.h>

static struct psci_record_line line;
static const struct psci_record_core own = {.is_mpidr = true, .word = 0x300}, third = {.word = 3};

/* A Start of core 3, its acknowledgement, and a frame without a zero byte. */
static const uint8_t start[PSCI_FRAME_LEN] = {0x50, 0x44, 2, 3, 1, 0, 0, 0, 10};
static struct psci_frame sent = {.some = true}, ack = {.some = true}, full = {.some = true};
static const struct psci_frame none;

/* What was written last is this text and a line feed. */
static void is(const char *text) {
    size_t length = strlen(text);
    if (line.length == length + 1 && memcmp(line.text, text, length) == 0 && line.text[length] == '\n')
        return;
    printf("in place of '%s': %.*s", text, (int)line.length, (const char *)line.text);
    exit(1);
}

static void call(const struct psci_answer *answer) {
    psci_record_call(&line, &own, 0xc4000003, 0x300, 0x40201000, 7, answer);
}

/* As psci_smc, psci_enter and the orders of a port answer. */
static void answers(void) {
    call(&(struct psci_answer){.what = PSCI_RETURN, .code = -2, .address = 5});
    is("call 0x300 0xc4000003 0x300 0x40201000 0x7 -> return -2");
    call(&(struct psci_answer){.what = PSCI_RETURN, .code = INT32_MIN, .message = sent});
    is("call 0x300 0xc4000003 0x300 0x40201000 0x7 -> return -2147483648 50440203010000000a");
    call(&(struct psci_answer){.what = PSCI_STOP, .code = 5, .message = sent});
    is("call 0x300 0xc4000003 0x300 0x40201000 0x7 -> stop 50440203010000000a");
    call(&(struct psci_answer){.what = PSCI_RESUME});
    is("call 0x300 0xc4000003 0x300 0x40201000 0x7 -> resume");
    call(&(struct psci_answer){.what = PSCI_NOT_RUNNING});
    is("call 0x300 0xc4000003 0x300 0x40201000 0x7 -> refused 19");
    psci_record_enter(&line, &own, &(struct psci_ctl_start){3, 1, 2, PSCI_CAUSE_ON},
                      &(struct psci_answer){.what = PSCI_ENTER, .address = 0x40201000, .context = 7});
    is("enter 0x300 1 2 1 -> enter 0x40201000 0x7");
}

static void orders_answer(struct psci_port_orders orders, const char *text) {
    struct psci_answer answer;
    memset(&answer, 0xff, sizeof answer);
    psci_record_answer(&orders, &answer);
    psci_record_enter(&line, &third, &(struct psci_ctl_start){3, 1, 4294967295, PSCI_CAUSE_RESET}, &answer);
    is(text);
}

static void orders(void) {
    orders_answer((struct psci_port_orders){.next = PSCI_PORT_LEAVES, .x0 = 0xfffffffe}, "enter 3 1 4294967295 3 -> return -2");
    orders_answer((struct psci_port_orders){.next = PSCI_PORT_LEAVES, .x0 = ~1ull, .message = sent},
                  "enter 3 1 4294967295 3 -> return -2 50440203010000000a");
    orders_answer((struct psci_port_orders){.next = PSCI_PORT_ENTERS, .address = 0x40201000, .x0 = 7},
                  "enter 3 1 4294967295 3 -> enter 0x40201000 0x7");
    orders_answer((struct psci_port_orders){.next = PSCI_PORT_RESUMES}, "enter 3 1 4294967295 3 -> resume");
    orders_answer((struct psci_port_orders){.next = PSCI_PORT_STANDS, .message = sent},
                  "enter 3 1 4294967295 3 -> stop 50440203010000000a");
    orders_answer((struct psci_port_orders){.next = PSCI_PORT_OUT_OF_ORDER}, "enter 3 1 4294967295 3 -> refused 49");
}

static void cores(void) {
    psci_record_poll(&line, &third, 0x84000004, 0x300, 0, -2);
    is("poll 3 0x84000004 0x300 0x0 -> return -2");
    psci_record_poll(&line, &third, 0x84000004, 0x300, 0, PSCI_NO_FIRMWARE);
    is("poll 3 0x84000004 0x300 0x0 -> refused 16");
    psci_record_leaves(&line, &own, 0xfffffffffffffffe);
    is("leaves 0x300 0xfffffffffffffffe");
    psci_record_begins(&line, &own, 0x40201000, 7, 0x3c9, 0x30c50830);
    is("begins 0x300 0x40201000 0x7 0x3c9 0x30c50830");
    psci_record_stands(&line, &(struct psci_record_core){.is_mpidr = true}, 1);
    is("stands 0x0 1");
    psci_record_stands(&line, &(struct psci_record_core){.is_mpidr = false}, 4294967295);
    is("stands 0 4294967295");
}

static void sides(void) {
    psci_record_take(&line, ack.bytes, PSCI_USED);
    is("take 50441203010000000a0000000001 -> used");
    psci_record_take(&line, ack.bytes, PSCI_OLD);
    is("take 50441203010000000a0000000001 -> old");
    psci_record_take(&line, start, PSCI_FRAME_NOT_AN_ACK);
    is("take 50440203010000000a -> refused 41");
    psci_record_deliver(&line, start, PSCI_CTL_START, &ack);
    is("deliver 50440203010000000a -> 50441203010000000a0000000001");
    psci_record_deliver(&line, start, PSCI_CTL_NOTHING, &none);
    is("deliver 50440203010000000a -> ignored");
    psci_record_deliver(&line, ack.bytes, PSCI_CTL_NOT_A_MESSAGE, &ack);
    is("deliver 50441203010000000a0000000001 -> refused 42");
    psci_record_deliver(&line, none.bytes, PSCI_FRAME_MAGIC, &none);
    is("deliver 00 -> refused 34");
    psci_record_take(&line, none.bytes, PSCI_FRAME_MAGIC);
    is("take 00 -> refused 34");
    psci_record_wake(&line, &third, 1, PSCI_CTL_START, 2);
    is("wake 3 1 -> started 2");
    psci_record_wake(&line, &third, 1, PSCI_CTL_NOTHING, 0);
    is("wake 3 1 -> ignored");
    psci_record_reset(&line, &own, PSCI_CTL_START, 2);
    is("reset 0x300 -> started 2");
    psci_record_reset(&line, &third, PSCI_NO_CORE, 0);
    is("reset 3 -> refused 17");
}

/* Each number as wide as it may be: the line has as many bytes as there is room for. */
static void longest(void) {
    psci_record_call(&line, &(struct psci_record_core){.word = ~0ull}, ~0ull, ~0ull, ~0ull, ~0ull,
                     &(struct psci_answer){.what = PSCI_ENTER, .address = ~0ull, .context = ~0ull, .message = full});
    if (line.length == PSCI_LONGEST_LINE && line.text[PSCI_LONGEST_LINE - 1] == '\n')
        return;
    printf("the longest line has %u bytes\n", line.length);
    exit(1);
}

/* Drawn events ------------------------------------------------------------------------------------------ */

static uint64_t seed;
static uint64_t draw(uint64_t below) {
    seed = seed * 6364136223846793005u + 1442695040888963407u;
    return (seed >> 33) % below;
}

/* Of any width, all bits among them. */
static uint64_t word(void) { return ((draw(1ull << 31) << 33) ^ (draw(1ull << 31) << 13) ^ draw(8192)) >> draw(64); }

/* An empty slot, and bytes that end anywhere, zeros among them. */
static struct psci_frame drawn_frame(void) {
    struct psci_frame it = {.some = draw(3) != 0};
    for (unsigned k = 0, many = draw(4) ? draw(PSCI_FRAME_LEN + 1) : 0; it.some && k < many; k++)
        it.bytes[k] = draw(3) ? draw(256) : 0;
    return it;
}

static void tell_frame(const struct psci_frame *it) {
    printf("|");
    for (unsigned k = 0; it->some && k < PSCI_FRAME_LEN; k++)
        printf("%02x", it->bytes[k]);
}

static void tell_core(const char *event, const struct psci_record_core *core) {
    printf("%s|", event);
    if (core->is_mpidr) printf("0x%" PRIx64, core->word); else printf("%" PRIu64, core->word);
}

static struct psci_answer drawn_answer(void) {
    return (struct psci_answer){.what = draw(2) ? draw(4) : 16 + word() % (UINT32_MAX - 16), .code = (int32_t)word(),
                                .address = word(), .context = word(), .message = drawn_frame()};
}

static void tell_answer(const struct psci_answer *it) {
    switch (it->what) {
    case PSCI_RETURN: printf("|return %" PRId32, it->code); break;
    case PSCI_STOP: printf("|stop"); break;
    case PSCI_ENTER: printf("|enter 0x%" PRIx64 " 0x%" PRIx64, it->address, it->context); break;
    case PSCI_RESUME: printf("|resume"); break;
    default: printf("|refused %" PRIu32, it->what);
    }
    tell_frame(&it->message);
}

/* What the power controller did that started a core, or did not. */
static uint32_t drawn_kick(uint32_t *started, char *said) {
    uint32_t what = draw(3) ? draw(16) : 16 + word() % (UINT32_MAX - 16);
    *started = draw(3) ? word() : 0;
    strcpy(said, "ignored");
    if (what >= 16 || *started)
        sprintf(said, "%s %" PRIu32, what >= 16 ? "refused" : "started", what >= 16 ? what : *started);
    return what;
}

static void drawn_core(void) {
    struct psci_record_core core = {.is_mpidr = draw(2), .word = word()};
    struct psci_answer answer = drawn_answer();
    struct psci_ctl_start by = {0, word(), word(), word()};
    uint64_t x[4] = {word(), word(), word(), word()};
    uint32_t number = word(), started, what;
    char said[24];
    switch (draw(8)) {
    case 0:
        tell_core("call", &core), printf("|0x%" PRIx64 "|0x%" PRIx64 "|0x%" PRIx64 "|0x%" PRIx64, x[0], x[1], x[2], x[3]);
        tell_answer(&answer), psci_record_call(&line, &core, x[0], x[1], x[2], x[3], &answer);
        break;
    case 1:
        tell_core("poll", &core), printf("|0x%" PRIx64 "|0x%" PRIx64 "|0x%" PRIx64, x[0], x[1], x[2]);
        if (answer.code == PSCI_NO_FIRMWARE) printf("||refused 16"); else printf("|%" PRId32 "|", answer.code);
        psci_record_poll(&line, &core, x[0], x[1], x[2], answer.code);
        break;
    case 2:
        tell_core("enter", &core), printf("|%" PRIu32 "|%" PRIu32 "|%" PRIu32, by.life, by.number, by.cause);
        tell_answer(&answer), psci_record_enter(&line, &core, &by, &answer);
        break;
    case 3: tell_core("leaves", &core), printf("|0x%" PRIx64, x[0]), psci_record_leaves(&line, &core, x[0]); break;
    case 4:
        tell_core("begins", &core), printf("|0x%" PRIx64 "|0x%" PRIx64 "|0x%" PRIx64 "|0x%" PRIx64, x[0], x[1], x[2], x[3]);
        psci_record_begins(&line, &core, x[0], x[1], x[2], x[3]);
        break;
    case 5: tell_core("stands", &core), printf("|%" PRIu32, number), psci_record_stands(&line, &core, number); break;
    case 6:
        what = drawn_kick(&started, said), tell_core("wake", &core), printf("|%" PRIu32 "|%s", number, said);
        psci_record_wake(&line, &core, number, what, started);
        break;
    default:
        what = drawn_kick(&started, said), tell_core("reset", &core), printf("|%s", said);
        psci_record_reset(&line, &core, what, started);
    }
}

/* Frames may be any bytes: those of an empty slot, too. */
static void drawn_side(void) {
    struct psci_frame frame = drawn_frame(), reply = drawn_frame();
    uint32_t what = draw(2) ? draw(2) : 16 + word() % (UINT32_MAX - 16);
    frame.some = true;
    if (draw(2)) {
        printf("take"), tell_frame(&frame);
        if (what >= 16) printf("|refused %" PRIu32, what); else printf(what == PSCI_USED ? "|used" : "|old");
        psci_record_take(&line, frame.bytes, what);
        return;
    }
    reply.some &= what < 16;
    printf("deliver"), tell_frame(&frame), tell_frame(&reply);
    if (what >= 16) printf("|refused %" PRIu32, what); else printf(reply.some ? "|" : "|ignored");
    psci_record_deliver(&line, frame.bytes, what, &reply);
}

static int drawn(unsigned many) {
    while (many--) {
        if (draw(3)) drawn_core(); else drawn_side();
        printf("\n%.*s", (int)line.length, (const char *)line.text);
    }
    return 0;
}

int main(int many, char **given) {
    if (many == 3) {
        seed = strtoull(given[1], 0, 10);
        return drawn(atoi(given[2]));
    }
    memcpy(sent.bytes, start, sizeof start);
    memcpy(ack.bytes, start, sizeof start);
    ack.bytes[2] = 0x12, ack.bytes[13] = 1;
    memset(full.bytes, 0xff, sizeof full.bytes);
    answers();
    orders();
    cores();
    sides();
    longest();
    return 0;
}
