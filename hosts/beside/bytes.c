/* A target for bytes that the library reads: the text of a board, a board as a struct, a machine, and frames
 * (docs/compare/BESIDE.md). The first byte of an input says which, as `ways` below has it. Whatever comes, the
 * halves of the library have to agree on it, and a frame that is read has to be written back as it was.
 *
 *   bytes LIST                     each input of a list: its answers have to come, and in all every answer there is
 *   bytes --draws N LIST [SEED]   inputs of a list in which bytes are changed blindly
 *   bytes --files LIST             a file in this folder for each input, for a fuzzer to begin with
 *
 * With a fuzzer in it, it has no main. */
#include "heap.h"
#include "psci_ctl.h"

#include <stdio.h>
#include <stdlib.h>
#include <string.h>

/* ---- What is called, and what it can answer */

enum { DECODE, TAKE, DELIVER, OPEN, OPEN_BOARD, OPEN_MACHINE, CALLS, MOST = 128, NONE = 255 };
static uint8_t answers[CALLS];
static bool came[CALLS][MOST];

static void answered(int call, uint32_t answer) {
    answers[call] = answer;
    came[call][answer % MOST] = true;
}

static void hold(bool holds, const char *what) {
    if (holds)
        return;
    fprintf(stderr, "bytes: %s\n", what);
    abort();
}

static struct psci_place firmware;
static struct psci_ctl_place controller;
static struct psci_place machine;

/* A firmware of two clusters in which core 0 has started core 3, and its power controller. */
static void begin(void) {
    static const char text[] = "(2 2) exec 0x0-0x1000 boot 0x0 starts 9 lives 3";
    struct psci_answer answer;
    psci_open(&firmware, (const uint8_t *)text, sizeof text - 1);
    psci_ctl_open(&controller, (const uint8_t *)text, sizeof text - 1);
    psci_enter(&firmware, 0, 1, 1, PSCI_CAUSE_BOOT, &answer);
    psci_smc(&firmware, 0, 0xc4000003, 0x101, 0x100, 7, &answer);
    hold(answer.what == PSCI_RETURN && answer.code == 0 && answer.message.some, "CPU_ON is not answered");
}

static void read_text(const uint8_t *text, size_t size) {
    size_t memory = granted;
    uint32_t what = psci_open(&firmware, text, size);
    answered(OPEN, what);
    granted = memory == SIZE_MAX ? memory : 0;
    uint32_t other = psci_ctl_open(&controller, text, size);
    hold(other == what || memory != SIZE_MAX, "firmware and controller read a text differently");
    hold(firmware.full == (what == PSCI_OPENED), "a board that is at fault opens a place");
}

static void read_board(const uint8_t *bytes, size_t size) {
    static struct psci_board board;
    size_t memory = granted;
    memset(&board, 0, sizeof board);
    memcpy(&board, bytes, size < sizeof board ? size : sizeof board);
    uint32_t what = psci_open_board(&firmware, &board);
    answered(OPEN_BOARD, what);
    granted = memory == SIZE_MAX ? memory : 0;
    uint32_t other = psci_ctl_open_board(&controller, &board);
    hold(other == what || memory != SIZE_MAX, "firmware and controller read a struct differently");
    hold(what != PSCI_OPENED || psci_height(&firmware) == board.height, "another height");
}

/* A board, what the machine calls its things, and the MPIDR of its boot core. */
static void read_machine(const uint8_t *bytes, size_t size) {
    static struct {
        struct psci_board board;
        struct psci_machine machine;
        uint64_t boot;
    } given;
    size_t memory = granted;
    memset(&given, 0, sizeof given);
    memcpy(&given, bytes, size < sizeof given ? size : sizeof given);
    uint32_t what = psci_open_machine(&machine, &given.board, &given.machine, given.boot);
    answered(OPEN_MACHINE, what);
    hold(machine.full == (what == PSCI_OPENED), "a machine that is at fault opens a place");
    hold(!machine.full || psci_core_of(&machine, given.boot) == 0, "the boot core has another number");
    granted = memory;
    uint32_t other = psci_open_board(&firmware, &given.board);
    hold(memory != SIZE_MAX || (other == PSCI_OPENED) == (what == PSCI_OPENED || what >= PSCI_MACHINE_NO_ROOM),
         "firmware and machine read a board differently");
}

static void read_frame(const uint8_t *bytes, size_t size) {
    struct psci_message fields;
    struct psci_frame again;
    struct psci_ctl_answer done;
    uint32_t decoded = psci_decode(&firmware, bytes, size, &fields), taken = psci_take(&firmware, bytes, size);
    psci_ctl_deliver(&controller, bytes, size, &done);
    answered(DECODE, decoded);
    answered(TAKE, taken);
    answered(DELIVER, done.what);
    if (decoded) {
        hold(taken == decoded && done.what == decoded, "a frame is at fault in one way here, and in another there");
        return;
    }
    psci_encode(&fields, &again);
    hold(again.some && memcmp(again.bytes, bytes, PSCI_FRAME_LEN) == 0, "a frame is not written as it was read");
    bool is_ack = fields.kind >= PSCI_ACK;
    hold((taken == PSCI_FRAME_NOT_AN_ACK) == !is_ack, "psci_take and the kind");
    hold((done.what == PSCI_CTL_NOT_A_MESSAGE) == is_ack, "psci_ctl_deliver and the kind");
}

/* A text or a struct, where there is memory or none; a frame, in places that are open or empty. */
static const struct {
    char word[16], letter;
    void (*read)(const uint8_t *, size_t);
    bool has_memory;
    int first, last; /* whose answers these are */
} ways[] = {{"text", 't', read_text, true, OPEN, OPEN},
            {"text-none", 'T', read_text, false, OPEN, OPEN},
            {"struct", 'b', read_board, true, OPEN_BOARD, OPEN_BOARD},
            {"struct-none", 'B', read_board, false, OPEN_BOARD, OPEN_BOARD},
            {"machine", 'm', read_machine, true, OPEN_MACHINE, OPEN_MACHINE},
            {"machine-none", 'M', read_machine, false, OPEN_MACHINE, OPEN_MACHINE},
            {"frame", 'f', read_frame, true, DECODE, DELIVER},
            {"frame-none", 'F', read_frame, false, DECODE, DELIVER}};
enum { WAYS = sizeof ways / sizeof *ways };

int LLVMFuzzerTestOneInput(const uint8_t *data, size_t size) {
    for (size_t at = 0; size && at < WAYS; at++) {
        if (ways[at].letter != *data)
            continue;
        /* a block of its own, whose end a sanitizer sees */
        uint8_t *bytes = malloc(size);
        memcpy(bytes, data + 1, size - 1);
        granted = SIZE_MAX;
        memset(answers, NONE, sizeof answers);
        if (ways[at].read == read_frame && ways[at].has_memory)
            begin();
        granted = ways[at].has_memory ? SIZE_MAX : 0;
        ways[at].read(bytes, size - 1);
        psci_close(&firmware);
        psci_ctl_close(&controller);
        psci_close(&machine);
        free(bytes);
    }
    return 0;
}

#ifndef FUZZED
/* ---- Lists */

enum { MOST_INPUTS = 256, MOST_INPUT = 4608 };
static const char *const names[] = {"psci_decode", "psci_take",       "psci_ctl_deliver",
                                    "psci_open",   "psci_open_board", "psci_open_machine"};

/* Whether a call can have an answer: PSCI_OPENED to PSCI_NO_MEMORY; of a machine its faults, too, but for two
 * that a struct cannot have; PSCI_FRAME_LENGTH to PSCI_FRAME_LEVEL, and without a place PSCI_NO_FIRMWARE;
 * PSCI_OLD and PSCI_FRAME_NOT_AN_ACK; PSCI_CTL_RESTART and PSCI_CTL_NOT_A_MESSAGE. */
static bool can_come(int call, int answer) {
    bool opens = answer <= PSCI_NO_MEMORY, is_frame = answer >= PSCI_FRAME_LENGTH && answer <= PSCI_FRAME_LEVEL;
    if (call == OPEN || call == OPEN_BOARD)
        return opens;
    if (call == OPEN_MACHINE)
        return opens || (answer >= PSCI_MACHINE_NO_ROOM && answer <= PSCI_MACHINE_BAD_FUNCTIONS &&
                         answer != PSCI_MACHINE_FALLING_CLASS && answer != PSCI_MACHINE_TOO_MANY_ROWS);
    return is_frame || answer == 0 || answer == PSCI_NO_FIRMWARE ||
           (call == TAKE && (answer == PSCI_OLD || answer == PSCI_FRAME_NOT_AN_ACK)) ||
           (call == DELIVER && (answer <= PSCI_CTL_RESTART || answer == PSCI_CTL_NOT_A_MESSAGE));
}

static struct {
    size_t size;
    uint8_t bytes[MOST_INPUT];
} inputs[MOST_INPUTS];
static int many;
static bool is_wrong;

/* Bytes in hex; .N is N bytes of 0. */
static size_t read_bytes(const char *from, uint8_t *to) {
    size_t size = 0;
    char *next = NULL;
    while (*from && size < MOST_INPUT - 2) {
        char pair[] = {from[0], from[1], 0};
        if (*from == '.') {
            for (unsigned long zeros = strtoul(from + 1, &next, 10); zeros && size < MOST_INPUT; zeros--)
                to[size++] = 0;
            from = next;
        } else if (*from == ' ') {
            from++;
        } else {
            to[size++] = strtoul(pair, NULL, 16);
            from += 2;
        }
    }
    return size;
}

/* A line: a way, its answers, and the input behind `: `. */
static void read_line(char *line, bool tries) {
    char *input = strstr(line, ": "), *at = line;
    size_t way = 0;
    if (*line == '#' || !input || many == MOST_INPUTS)
        return;
    *input = 0;
    while (way < WAYS - 1 && (strncmp(line, ways[way].word, strcspn(line, " ")) || ways[way].word[strcspn(line, " ")]))
        way++;
    uint8_t *bytes = inputs[many].bytes;
    bytes[0] = ways[way].letter;
    inputs[many].size = 1 + (ways[way].read == read_text ? strlen(input + 2) : read_bytes(input + 2, bytes + 1));
    if (ways[way].read == read_text)
        memcpy(bytes + 1, input + 2, inputs[many].size - 1);
    if (tries)
        LLVMFuzzerTestOneInput(bytes, inputs[many].size);
    at += strcspn(at, " ");
    for (int call = ways[way].first; tries && call <= ways[way].last; call++) {
        unsigned long wanted = strtoul(at, &at, 10);
        if (answers[call] == wanted)
            continue;
        printf("%s: %s answers %d and not %lu\n", line, names[call], answers[call], wanted);
        is_wrong = true;
    }
    many++;
}

static void read_list(const char *path, bool tries) {
    static char line[3 * MOST_INPUT];
    FILE *file = fopen(path, "r");
    if (!file) {
        perror(path);
        exit(1);
    }
    while (fgets(line, sizeof line, file)) {
        line[strcspn(line, "\n")] = 0;
        read_line(line, tries);
    }
    fclose(file);
}

/* Whether each answer that a call can have came. */
static void all_came(void) {
    for (int call = 0; call < CALLS; call++)
        for (int answer = 0; answer < MOST; answer++)
            if (can_come(call, answer) && !came[call][answer]) {
                printf("no input reaches %d of %s\n", answer, names[call]);
                is_wrong = true;
            }
    printf("%d inputs\n", many);
}

static uint64_t seed = 1;
static uint64_t draw(void) {
    seed ^= seed << 13, seed ^= seed >> 7;
    return (seed ^= seed << 17) >> 16;
}

/* One of the inputs with up to four bytes changed, put in or left out. */
static void draw_one(void) {
    static uint8_t bytes[MOST_INPUT + 8];
    size_t from = draw() % many, size = inputs[from].size;
    memcpy(bytes, inputs[from].bytes, size);
    for (uint64_t changes = draw() % 4 + 1; changes && size > 1; changes--) {
        size_t at = 1 + draw() % (size - 1);
        uint64_t how = draw() % 4;
        if (how < 2)
            bytes[at] = how ? bytes[at] ^ 1u << draw() % 8 : inputs[from].bytes[1 + draw() % (inputs[from].size - 1)];
        else if (how == 2)
            memmove(bytes + at, bytes + at + 1, --size - at);
        else
            memmove(bytes + at + 1, bytes + at, size++ - at);
    }
    LLVMFuzzerTestOneInput(bytes, size);
}

static void write_files(void) {
    for (int at = 0; at < many; at++) {
        char name[16];
        snprintf(name, sizeof name, "bytes-%d", at);
        FILE *file = fopen(name, "wb");
        if (!file || fwrite(inputs[at].bytes, 1, inputs[at].size, file) != inputs[at].size)
            exit(1);
        fclose(file);
    }
}

int main(int count, char **words) {
    bool draws = count > 3 && strcmp(words[1], "--draws") == 0, writes = count == 3 && strcmp(words[1], "--files") == 0;
    if (count < 2)
        return 2;
    read_list(words[draws ? 3 : writes ? 2 : 1], !draws && !writes);
    if (writes)
        write_files();
    else if (!draws)
        all_came();
    seed = count > 4 ? strtoull(words[4], NULL, 0) : 1;
    for (uint64_t at = draws ? strtoull(words[2], NULL, 0) : 0; at; at--)
        draw_one();
    return is_wrong;
}
#endif
