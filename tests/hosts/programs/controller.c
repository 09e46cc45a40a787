/* Tests the power controller's half of the C library where no script of hosts/ comes: numbers of
 * refusals, openings in ever less memory, what a call writes. What is wanted is written here, by
 * include/psci_ctl.h and docs/port/FORMATS.md. */
#include "pool.h"
#include "psci_ctl.h"

#include <stdio.h>
#include <stdlib.h>
#include <string.h>

static int failed;

static void want(const char *what, uint64_t wanted, uint64_t got) {
    if (wanted != got) {
        printf("%s: wanted %llu, got %llu\n", what, (unsigned long long)wanted,
               (unsigned long long)got);
        failed = 1;
    }
}

/* Round the place and the answer stand bytes that no call may write. */
enum { ROUND = 0x5a };
static struct { uint8_t before[16]; struct psci_ctl_place it; uint8_t after[16]; } place;
static struct { uint8_t before[16]; struct psci_ctl_answer it; uint8_t after[16]; } answer;

static void paint(void) {
    memset(place.before, ROUND, 16), memset(place.after, ROUND, 16);
    memset(answer.before, ROUND, 16), memset(answer.after, ROUND, 16);
}

static void unharmed(void) {
    for (int i = 0; i < 16; i++)
        want("what stands round a place and an answer", 1, place.before[i] == ROUND
            && place.after[i] == ROUND && answer.before[i] == ROUND && answer.after[i] == ROUND);
}

#define REST " exec 0x40000000-0x40100000 boot 0x40000000 starts 2 lives 2"
static const char small[] = "(2 2)" REST;
static const char *const large = "((16 16 16 16) (16 16 16 16) (16 16 16 16) (16 16 16 16))" REST;

static uint32_t open_text(const char *text) {
    return psci_ctl_open(&place.it, (const uint8_t *)text, strlen(text));
}

/* A message of this kind, core, life and number with so many parts, all for power-down. */
static uint8_t frame[PSCI_FRAME_LEN + 1];

static void message(uint8_t kind, uint8_t core, uint8_t life, uint8_t number, uint8_t parts) {
    memset(frame, 0, sizeof frame);
    frame[0] = 0x50, frame[1] = 0x44, frame[2] = kind, frame[3] = core;
    frame[7] = life, frame[11] = number, frame[12] = parts;
    for (uint8_t level = 0; level < parts; level++)
        frame[13 + 10 * level] = level, frame[14 + 10 * level] = 3, frame[22 + 10 * level] = number;
}

static uint32_t deliver(size_t length) {
    psci_ctl_deliver(&place.it, frame, length, &answer.it);
    unharmed();
    if (answer.it.what >= PSCI_CTL_NO_PLACE)
        want("a refusal has no acknowledgement", 0, answer.it.ack.some);
    return answer.it.what;
}

/* Delivers a Down of core 0 with this byte of it changed. */
static uint32_t deliver_changed(size_t at, uint8_t byte) {
    message(1, 0, 1, 1, 2);
    frame[at] = byte;
    return deliver(PSCI_FRAME_LEN);
}

static uint32_t wake(uint16_t core, uint32_t halted) {
    psci_ctl_wake(&place.it, core, halted, &answer.it);
    unharmed();
    return answer.it.what;
}

static uint32_t reset(uint16_t core) {
    psci_ctl_reset(&place.it, core, &answer.it);
    unharmed();
    return answer.it.what;
}

static uint32_t found(uint16_t core) {
    struct psci_ctl_start start;
    psci_ctl_started(&place.it, core, &start);
    return start.life << 16 | start.number << 8 | start.cause;
}

/* The tests ---------------------------------------------------------------------------------- */

static void empty_place(void) {
    message(1, 0, 1, 1, 1);
    want("an empty place, deliver", PSCI_CTL_NO_PLACE, deliver(PSCI_FRAME_LEN));
    want("an empty place, wake", PSCI_CTL_NO_PLACE, wake(0, 0));
    want("an empty place, reset", PSCI_CTL_NO_PLACE, reset(0));
    want("an empty place, life", 0, psci_ctl_life(&place.it));
    want("an empty place, starts", 0, psci_ctl_starts(&place.it, 0));
    want("an empty place, a start", 0, found(0));
    want("an empty place, depth", PSCI_CTL_NO_PLACE, psci_ctl_depth(&place.it, 0, 0));
    psci_ctl_close(&place.it);
    want("an empty place, closed", 1, !place.it.full && !place.it.controller);
}

/* With ever less memory an opening fails, and changes nothing. Closed, it gives all back. */
static void little_memory(void) {
    size_t size = pool_size(4), refused = 0;
    void *memory = malloc(size);
    for (size_t given = size; given >= 64; given -= 16) {
        struct psci_ctl_place at = {0};
        pool_give(memory, given);
        uint32_t opened = psci_ctl_open(&at, (const uint8_t *)small, strlen(small));
        want("little memory", 1, opened == (at.full ? PSCI_OPENED : PSCI_NO_MEMORY));
        want("as much as pool_size says", 1, given != size || at.full);
        refused += !at.full;
    }
    want("some amount is too little", 1, refused > 0);
    pool_give(memory, size);
    for (int i = 0; i < 1000; i++) {
        want("opened again and again", PSCI_OPENED, open_text(small));
        psci_ctl_close(&place.it);
    }
    for (int i = 0; i < 1000; i++)
        want("opened over the one that was there", PSCI_OPENED, open_text(small));
    psci_ctl_close(&place.it);
    free(memory);
}

/* Bytes that are no message of the board; nothing changes. */
static void faults(void) {
    want("length", PSCI_FRAME_LENGTH, (message(1, 0, 1, 1, 2), deliver(52)));
    want("longer", PSCI_FRAME_LENGTH, (message(1, 0, 1, 1, 2), deliver(54)));
    want("none", PSCI_FRAME_LENGTH, deliver(0));
    want("magic", PSCI_FRAME_MAGIC, deliver_changed(0, 0x51));
    want("kind", PSCI_FRAME_KIND, deliver_changed(2, 5));
    want("count", PSCI_FRAME_COUNT, deliver_changed(12, 0));
    want("unused", PSCI_FRAME_UNUSED, deliver_changed(52, 1));
    want("core", PSCI_FRAME_CORE, deliver_changed(3, 4));
    want("depth", PSCI_FRAME_DEPTH, deliver_changed(14, 0));
    want("a part deeper than the one below it", PSCI_FRAME_DEPTH, deliver_changed(14, 2));
    want("level", PSCI_FRAME_LEVEL, deliver_changed(23, 2));
    want("a part above the system", PSCI_FRAME_LEVEL, (message(1, 0, 1, 1, 4), deliver(53)));
    message(0x11, 0, 1, 1, 0);
    want("an acknowledgement", PSCI_CTL_NOT_A_MESSAGE, deliver(PSCI_FRAME_LEN));
    want("a wake-up of no core", PSCI_NO_CORE, wake(4, 0));
    want("a reset of no core", PSCI_NO_CORE, reset(65535));
    want("a text with a fault", PSCI_BOARD_BAD_LIMIT,
         open_text("2 exec 0x0-0x8 boot 0x0 starts 0 lives 1"));
    want("still on", PSCI_CTL_ON, psci_ctl_depth(&place.it, 0, 0));
    want("still its first start", 1 << 16 | 1 << 8 | PSCI_CAUSE_BOOT, found(0));
}

/* A life with each answer, up to its end. */
static void lives(void) {
    message(2, 3, 1, 0, 0);
    want("core 3 is started", PSCI_CTL_START, deliver(PSCI_FRAME_LEN));
    want("its core", 3, answer.it.start.core);
    want("its start", 1 << 16 | 1 << 8 | PSCI_CAUSE_ON, found(3));
    want("late", PSCI_CTL_NOTHING, deliver(PSCI_FRAME_LEN));
    want("said to be stale", 0x22, answer.it.ack.bytes[2]);
    message(1, 3, 1, 1, 2);
    want("it goes down", PSCI_CTL_SWITCH, deliver(PSCI_FRAME_LEN));
    want("with its cluster", 2, answer.it.many);
    want("which is the second one", 1, answer.it.domains[1].index);
    frame[11] = 7;
    want("its generations count, and not its number", PSCI_CTL_SWITCH, deliver(PSCI_FRAME_LEN));
    frame[14] = frame[24] = 2;
    want("and a later Down may be less deep", PSCI_CTL_SWITCH, deliver(PSCI_FRAME_LEN));
    want("as deep as it says", 2, psci_ctl_depth(&place.it, 1, 1));
    message(1, 3, 1, 1, 2);
    want("deeper again", PSCI_CTL_SWITCH, deliver(PSCI_FRAME_LEN));
    want("deep", PSCI_CTL_POWER_DOWN, psci_ctl_depth(&place.it, 1, 1));
    want("no such cluster", PSCI_NO_CORE, psci_ctl_depth(&place.it, 1, 2));
    want("no such level", PSCI_NO_CORE, psci_ctl_depth(&place.it, 3, 0));
    want("not woken by the start before", PSCI_CTL_NOTHING, wake(3, 0));
    want("it is woken", PSCI_CTL_START, wake(3, 1));
    want("by its next start", 1 << 16 | 2 << 8 | PSCI_CAUSE_WAKE, found(3));
    want("woken too late", PSCI_CTL_NOTHING, wake(3, 1));
    want("its starts are used up", PSCI_CTL_NOTHING, reset(3));
    want("another is reset", PSCI_CTL_START, reset(1));
    want("by this start", 1 << 16 | 1 << 8 | PSCI_CAUSE_RESET, found(1));
    message(4, 0, 2, 1, 0);
    want("of no life", PSCI_CTL_NOTHING, deliver(PSCI_FRAME_LEN));
    want("ignored", 0, answer.it.ack.some);
    message(4, 0, 1, 1, 0);
    want("the next life", PSCI_CTL_RESTART, deliver(PSCI_FRAME_LEN));
    want("by the first start", 2 << 8 | 1, answer.it.start.life << 8 | answer.it.start.number);
    want("is life 2", 2, psci_ctl_life(&place.it));
    want("with the boot core", 2 << 16 | 1 << 8 | PSCI_CAUSE_BOOT, found(0));
    want("alone", 0, psci_ctl_starts(&place.it, 3));
    message(4, 0, 2, 1, 0);
    want("no life after the last", PSCI_CTL_OFF, deliver(PSCI_FRAME_LEN));
    want("off", 0, psci_ctl_life(&place.it));
    want("without depths", PSCI_NO_LIFE, psci_ctl_depth(&place.it, 0, 0));
    want("without wake-ups", PSCI_CTL_NOTHING, wake(0, 0));
}

/* Saving and loading --------------------------------------------------------------------------- */

enum { WORDS = 14 };
static uint64_t words[WORDS + 2]; /* the first and the last are never written */

static uint32_t save(size_t count) {
    words[0] = words[WORDS + 1] = ROUND;
    uint32_t saved = psci_ctl_save(&place.it, words + 1, count);
    want("what stands round the words", 1, words[0] == ROUND && words[WORDS + 1] == ROUND);
    return saved;
}

/* Loads the words with this one in a place, and with their sum. */
static uint32_t load_with(size_t at, uint64_t word) {
    uint64_t changed[WORDS];
    memcpy(changed, words + 1, sizeof changed);
    changed[at] = word;
    changed[1] = 0;
    for (size_t i = 2; i < WORDS; i++)
        changed[1] = changed[1] * 0x100000001b3 + changed[i];
    return psci_ctl_load(&place.it, changed, WORDS);
}

/* Core 3 was started and is down with its cluster; the words are as FORMATS has them. */
static void saving(void) {
    static const uint64_t rows[] = {1, 4, 0, 0, 5, 0, 3, 3, 3, 0, 3, 0};
    want("an empty place has no words", 0, psci_ctl_save_size(&place.it));
    want("an empty place, save", PSCI_CTL_NO_PLACE, save(WORDS));
    want("an empty place, load", PSCI_CTL_NO_PLACE, psci_ctl_load(&place.it, words, WORDS));
    open_text(small);
    message(2, 3, 1, 0, 0), deliver(PSCI_FRAME_LEN);
    message(1, 3, 1, 1, 2), deliver(PSCI_FRAME_LEN);
    want("so many words", WORDS, psci_ctl_save_size(&place.it));
    want("a word too few", PSCI_SAVED_LENGTH, save(WORDS - 1));
    want("a word too many", PSCI_SAVED_LENGTH, save(WORDS + 1));
    want("none is written", 0, words[1]);
    want("saved", 0, save(WORDS));
    want("the format", 0x16c746370, words[1]);
    want("the rows", 0, memcmp(words + 3, rows, sizeof rows));
    want("core 3 is woken since", PSCI_CTL_START, wake(3, 1));
}

/* Words with a fault, each of whose bits is seen; nothing changes. */
static void not_loaded(void) {
    want("a word too many", PSCI_SAVED_LENGTH, psci_ctl_load(&place.it, words + 1, WORDS + 1));
    for (size_t at = 0; at < WORDS; at++)
        for (int bit = 0; bit < 64; bit++) {
            words[at + 1] ^= (uint64_t)1 << bit;
            want("a bit", at ? PSCI_SAVED_SUM : PSCI_SAVED_FORMAT, psci_ctl_load(&place.it, words + 1, WORDS));
            words[at + 1] ^= (uint64_t)1 << bit;
        }
    want("a life too late", PSCI_SAVED_LIFE, load_with(2, 3));
    want("starts without a life", PSCI_SAVED_STARTS, load_with(2, 0));
    want("a start too many", PSCI_SAVED_STARTS, load_with(6, 3 * 4));
    want("no boot", PSCI_SAVED_STARTS, load_with(3, 3));
    want("too deep", PSCI_SAVED_DEPTH, load_with(13, 4));
    words[WORDS] = 4;
    want("a start too many, and too deep", PSCI_SAVED_STARTS, load_with(6, 3 * 4));
    words[WORDS] = 0, words[1] ^= 1;
    want("another format, and a word too many", PSCI_SAVED_LENGTH, psci_ctl_load(&place.it, words + 1, WORDS + 1));
    words[3] ^= 1;
    want("another format, and another life", PSCI_SAVED_FORMAT, psci_ctl_load(&place.it, words + 1, WORDS));
    words[1] ^= 1, words[3] ^= 1;
    want("still core 3's second start", 1 << 16 | 2 << 8 | PSCI_CAUSE_WAKE, found(3));
}

static void loading(void) {
    want("loaded", 0, psci_ctl_load(&place.it, words + 1, WORDS));
    want("core 3's first start", 1 << 16 | 1 << 8 | PSCI_CAUSE_ON, found(3));
    want("its cluster is down", PSCI_CTL_POWER_DOWN, psci_ctl_depth(&place.it, 1, 1));
    want("it is woken again", PSCI_CTL_START, wake(3, 1));
    message(1, 3, 1, 2, 2);
    want("its cluster counts two starts", PSCI_CTL_SWITCH, deliver(PSCI_FRAME_LEN));
    psci_ctl_close(&place.it);
}

/* Each cause is saved and loaded, and a life that is not the first, and none. */
static void causes(void) {
    open_text(small);
    wake(1, 0), reset(2), message(2, 3, 1, 0, 0), deliver(PSCI_FRAME_LEN);
    want("saved", 0, save(WORDS));
    want("by its boot", 4, words[4]);
    want("by a wake-up", 6, words[5]);
    want("by a reset", 7, words[6]);
    want("asked on", 5, words[7]);
    open_text(small);
    want("loaded", 0, psci_ctl_load(&place.it, words + 1, WORDS));
    want("by its boot", 1 << 16 | 1 << 8 | PSCI_CAUSE_BOOT, found(0));
    want("by a wake-up", 1 << 16 | 1 << 8 | PSCI_CAUSE_WAKE, found(1));
    want("by a reset", 1 << 16 | 1 << 8 | PSCI_CAUSE_RESET, found(2));
    message(4, 0, 1, 1, 0), deliver(PSCI_FRAME_LEN);
    want("saved in life 2", 0, save(WORDS));
    open_text(small);
    want("loaded in life 1", 0, psci_ctl_load(&place.it, words + 1, WORDS));
    want("goes on in life 2", 2, psci_ctl_life(&place.it));
    message(3, 0, 2, 1, 0);
    want("the end", PSCI_CTL_OFF, deliver(PSCI_FRAME_LEN));
    want("none was started", 0, psci_ctl_starts(&place.it, 0));
    want("saved then", 0, save(WORDS));
    open_text(small);
    want("loaded in a life", 0, psci_ctl_load(&place.it, words + 1, WORDS));
    want("which ends", 0, psci_ctl_life(&place.it));
    psci_ctl_close(&place.it);
}

int main(void) {
    size_t size = pool_size(256);
    void *memory = malloc(size);
    paint();
    empty_place();
    little_memory();
    pool_give(memory, size);
    want("the largest board", PSCI_OPENED, open_text(large));
    want("opened", PSCI_OPENED, open_text(small));
    faults();
    lives();
    psci_ctl_close(&place.it);
    saving();
    not_loaded();
    loading();
    causes();
    return failed;
}
