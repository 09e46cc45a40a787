/* What calls of the library take, in states of many kinds.
 *   figures replay              lists from standard input, a line each: BOARD | MACHINE | LIST | PROBE
 *   figures search BOARD MACHINE SEED STATES    states that are made and drawn, beside lists of this board and machine
 *                               from standard input; a line for the dearest of each row
 *   figures stacks BOARD..      openings and closings, with each request for memory refused; FUNCTION and bytes
 * A line of the first two is INSTRUCTIONS | GIVEN | FUNCTION | ROW | BOARD | MACHINE | LIST | PROBE; at their end stands
 * what each function took of the stack at most, as by the third. */
#include "probes.h"
#include "psci_port.h"

#include <stdio.h>
#include <stdlib.h>
#include <string.h>

enum { MOST_ROWS = 200, LIST = 256, PARTS = 16, PROBES = 10 };

static void fail(const char *why, const char *of) {
    fprintf(stderr, "figures: %s: %s\n", why, of);
    exit(1);
}

static void say(const struct probed *it, const char *board, const char *of, const char *list, const char *text) {
    printf("%ld | %ld | %s | %s | %s | %s | %s | %s\n", it->steps.instructions, it->steps.given, it->function,
            it->row, board, of, list, text);
}

/* The most of the stack that each function took. */
static struct { const char *function; long stack; } taken[MOST_ROWS];

static void note(const char *function, long stack) {
    unsigned at = 0;
    while (taken[at].function && strcmp(taken[at].function, function))
        at++;
    taken[at].function = function;
    taken[at].stack = stack > taken[at].stack ? stack : taken[at].stack;
}

static void say_stacks(void) {
    for (unsigned at = 0; taken[at].function; at++)
        printf("%s %ld\n", taken[at].function, taken[at].stack);
}

/* Lists that are stored ------------------------------------------------------------------------ */

/* The parts of a line; the state that it leads to is played, and the call made. */
static bool played(char *line, char *part[4], struct probed *it) {
    line[strcspn(line, "\n")] = 0;
    for (int i = 0; i < 4; i++) {
        char *end = i < 3 ? strstr(line, " | ") : NULL;
        if (i < 3 && !end)
            return false;
        part[i] = line;
        if (end)
            *end = 0, line = end + 3;
    }
    return world_open(part[0], part[1]) && world_play(part[2]) && probe(part[3], it);
}

static void replay(void (*found)(const struct probed *, char *part[4])) {
    char line[2 * LIST + TEXT], *part[4];
    struct probed it;
    while (fgets(line, sizeof line, stdin)) {
        if (!played(line, part, &it))
            fail("can't be played", line);
        note(it.function, it.steps.stack);
        found(&it, part);
    }
}

static void say_found(const struct probed *it, char *part[4]) { say(it, part[0], part[1], part[2], part[3]); }

/* A search ------------------------------------------------------------------------------------- */

static struct best {
    struct probed it;
    char list[LIST], text[TEXT];
} best[MOST_ROWS];
static unsigned rows;

/* Some of the cores: all but few, a cluster, every second one, one. */
static void some_cores(char *text, size_t size) {
    unsigned last = cores - 1, width = board.levels[0].children[0], at = draw(cores);
    unsigned begin = at / width * width;
    switch (draw(8)) {
    case 0: snprintf(text, size, "0-%u", last); break;
    case 1: snprintf(text, size, "%u-%u", cores > 1, last); break;
    case 2: snprintf(text, size, "0-%u", last - (cores > 1)); break;
    case 3: snprintf(text, size, "%u-%u", begin, begin + width - 1); break;
    case 4: snprintf(text, size, "0-%u/%u", last, draw(2) ? 2 : width); break;
    case 5: snprintf(text, size, "0-%u", at); break;
    case 6: snprintf(text, size, "%u-%u", at, last); break;
    default: snprintf(text, size, "%u-%u", at, at);
    }
}

static void add(char *list, const char *what) {
    if (strlen(list) + strlen(what) + 3 < LIST)
        strcat(strcat(list, *list ? "; " : ""), what);
}

/* One thing that happens. */
static void draw_part(char *list) {
    static const char *const ways[] = {"on", "pend", "enter", "off", "deepest", "suspend", "sleep", "deliver", "take",
                                       "wake", "reset"};
    char text[LIST], range[64];
    unsigned way = draw(sizeof ways / sizeof *ways);
    some_cores(range, sizeof range);
    if (draw(24) == 0)
        snprintf(text, sizeof text, draw(2) ? "life" : "halt");
    else if (draw(8) == 0)
        snprintf(text, sizeof text, "mode %u", draw(2));
    else if (strcmp(ways[way], "deepest") == 0)
        snprintf(text, sizeof text, "deepest %s %u", range, draw(2) ? 3 : 1 + draw(3));
    else if (strcmp(ways[way], "suspend") == 0)
        snprintf(text, sizeof text, "suspend %s %#x", range, state_word(draw(height + 1), 1 + draw(3)));
    else
        snprintf(text, sizeof text, "%s %s", ways[way], range);
    add(list, text);
    if (strcmp(ways[way], "on") == 0 || strcmp(ways[way], "wake") == 0)
        snprintf(text, sizeof text, "enter %s", range), add(list, text);
    if ((strcmp(ways[way], "off") == 0 || strcmp(ways[way], "deepest") == 0) && draw(2))
        snprintf(text, sizeof text, "deliver %s; take %s", range, range), add(list, text);
}

/* All on, in either mode, and then some things. */
static void draw_list(char *list, unsigned number) {
    char text[LIST];
    if (number % 2)
        add(list, "mode 1");
    if (number % 3) {
        snprintf(text, sizeof text, "on 0-%u; enter 0-%u", cores - 1, cores - 1);
        add(list, text);
    }
    for (unsigned parts = draw(5); parts > 0; parts--)
        draw_part(list);
}

/* A state goes on from one of the dearest: a part of it is left out, or exchanged, or something happens before one. */
static bool goes_on(char *list, char *text) {
    const struct best *from = NULL;
    char parts[LIST], *part[PARTS];
    unsigned many = 0, how = draw(4);
    for (unsigned times = 0; rows && times < 8 && (!from || from->it.steps.instructions < 300); times++)
        from = &best[draw(rows)];
    if (!from || draw(6) == 0)
        return false;
    strcpy(text, from->text);
    strcpy(parts, from->list);
    for (char *at = strtok(parts, ";"); at && many < PARTS; at = strtok(NULL, ";"))
        part[many++] = at + strspn(at, " ");
    unsigned place = draw(many + 1);
    for (unsigned at = 0; at <= many; at++) {
        if (at == place && how)
            draw_part(list);
        if (at < many && (at != place || how > 1))
            add(list, part[at]);
    }
    return true;
}

static void keep_best(const struct probed *it, const char *list, const char *text) {
    unsigned at = 0;
    while (at < rows && (strcmp(best[at].it.row, it->row) || strcmp(best[at].it.function, it->function)))
        at++;
    if (at == MOST_ROWS)
        fail("too many rows", it->row);
    if (at == rows)
        best[rows++].it.steps.instructions = -1;
    if (it->steps.instructions <= best[at].it.steps.instructions)
        return;
    best[at].it = *it;
    snprintf(best[at].list, LIST, "%s", list);
    snprintf(best[at].text, sizeof best[at].text, "%s", text);
}

/* States that are made: in either mode all cores are on, and all but the last, or few, are away in one way. */
static const char *const modes[] = {"", "mode 1; "};
static const char *const aways[] = {
    "on 0-%1$u; enter 0-%1$u", "on 0-%1$u; enter 0-%1$u; deepest 0-%2$u 1", "on 0-%1$u; enter 0-%1$u; deepest 0-%2$u 2",
    "on 0-%1$u; enter 0-%1$u; deepest 0-%2$u 3", "on 0-%1$u; enter 0-%1$u; off 0-%2$u",
    "on 0-%1$u; enter 0-%1$u; deepest 0-%2$u 3; deliver 0-%2$u; take 0-%2$u",
    "on 0-%1$u; enter 0-%1$u; off 0-%2$u; deliver 0-%2$u; take 0-%2$u",
    "on 0-%1$u; enter 0-%1$u; off 0-%2$u/2; deepest 0-%2$u 3",
    "on 0-%1$u; enter 0-%1$u; off 0-%2$u/2; deepest 0-%2$u 1; deliver 0-%2$u; take 0-%2$u",
    "on 0-%1$u; enter 0-%1$u; suspend 0-%2$u/2 0x1; deepest 0-%2$u 3", "pend 0-%1$u", "pend 0-%1$u/2", "", "halt",
    "on 0-%1$u; enter 0-%1$u; halt", "on 0-%1$u; enter 0-%1$u; off 0-%1$u; wake 0-%1$u", "deepest 0-0 3", "deepest 0-0 1",
    "on 0-%1$u; enter 0-%1$u; deepest 0-%1$u 1; wake 0-%1$u; enter 0-%2$u",
    "on 0-%1$u; enter 0-%1$u; deepest 0-%1$u 3; deliver 0-%2$u",
    "on 0-%1$u; enter 0-%1$u; suspend 0-%2$u/3 0x1; deepest 0-%2$u/2 3; off 0-%2$u; deliver 0-%2$u; take 0-%2$u",
    "on 0-%1$u; enter 0-%1$u; suspend 0-%2$u/3 0x1; deepest 0-%2$u/5 2; deepest 0-%2$u 3",
    "on 0-%1$u; enter 0-%1$u; deepest 0-%3$u 1; off 0-%2$u", "on 0-%1$u; enter 0-%1$u; deepest 0-%3$u 3; off 0-%2$u",
    "on 0-%1$u; enter 0-%1$u; off 0-%3$u; deepest 0-%2$u 1", "on 0-%1$u; enter 0-%1$u; deepest 0-%4$u 1; off 0-%2$u",
};
enum { AWAYS = sizeof aways / sizeof *aways, MADE = 2 * AWAYS };

/* The numbers are of the last core, of the one before it, and of the last one of another cluster and another group. */
static void make_list(char *list, unsigned number) {
    char form[LIST];
    unsigned last = cores - 1, cluster = board.levels[0].children[0];
    unsigned group = cluster * (height > 1 ? board.levels[1].children[0] : 1);
    snprintf(form, sizeof form, "%s%s", modes[number / AWAYS], aways[number % AWAYS]);
    snprintf(list, LIST, form, last, last - (cores > 1), last < cluster ? 0 : last - cluster, last < group ? 0 : last - group);
}

static void try(const char *list, const char *text) {
    struct probed it;
    if (probe(text, &it)) {
        note(it.function, it.steps.stack);
        keep_best(&it, list, text);
    }
    world_back();
}

/* A state that is made: each probe. One that is drawn: some of them. */
static void try_state(unsigned number) {
    static char texts[MOST_TEXTS][TEXT];
    char list[LIST] = "", text[TEXT] = "";
    if (number < MADE)
        make_list(list, number);
    else if (!goes_on(list, text))
        draw_list(list, number);
    if (!world_play(list))
        fail("can't be played", list);
    world_keep();
    if (*text)
        try(list, text);
    unsigned many = number < MADE ? each_probe(cores - 1, texts) : PROBES;
    for (unsigned at = 0; at < many; at++) {
        if (number >= MADE)
            draw_probe(texts[at], TEXT);
        try(list, texts[at]);
    }
}

static void keep_found(const struct probed *it, char *part[4]) { keep_best(it, part[2], part[3]); }

static void search(const char *board_name, const char *of, unsigned seed, unsigned states) {
    replay(keep_found);
    for (unsigned number = 0; number < states; number++) {
        if (!world_open(board_name, of))
            fail("no board or machine", board_name);
        draw_from(seed * 1000003ull + number + 1);
        try_state(number);
    }
    for (unsigned at = 0; at < rows; at++)
        say(&best[at].it, board_name, of, best[at].list, best[at].text);
}

/* Openings and closings ------------------------------------------------------------------------ */

static const char *text_of(void) {
    static char text[4096], trees[4][1024];
    /* each node's part of the text is that of its level */
    snprintf(trees[0], sizeof *trees, "%u", board.levels[0].children[0]);
    for (unsigned level = 1; level < height; level++) {
        snprintf(trees[level], sizeof *trees, "(");
        for (unsigned i = 0; i < board.levels[level].children[0]; i++)
            snprintf(trees[level] + strlen(trees[level]), sizeof *trees - strlen(trees[level]), "%s%s", i ? " " : "",
                     trees[level - 1]);
        strcat(trees[level], ")");
    }
    snprintf(text, sizeof text, "%s exec 0x0-0x1000 0x10000000-0x10001000 0x20000000-0x20001000 0x40000000-0x40100000 "
                                "boot 0x40000000 starts 4294967295 lives 65535", trees[height - 1]);
    return text;
}

/* The most that a call takes, whichever of its requests for memory is refused; the place was full before. */
#define REFUSED(name, call)                                                                                           \
    do {                                                                                                              \
        long many = 1;                                                                                                \
        for (long refuse = 0; refuse <= many; refuse++) {                                                             \
            heap_refuse(refuse);                                                                                      \
            STEP(call);                                                                                               \
            if (refuse == 0)                                                                                          \
                many = heap_requests();                                                                               \
            note(name, steps.stack);                                                                                  \
            world_back();                                                                                             \
        }                                                                                                             \
        heap_refuse(0);                                                                                               \
    } while (0)

/* What a call takes that asks for no memory, or for some that is there. */
#define NOTED(name, call)                                                                                             \
    do {                                                                                                              \
        STEP(call);                                                                                                   \
        note(name, steps.stack);                                                                                      \
    } while (0)

/* The turns of a guest: all cores are started, suspended, woken, and reset; the last one's domains go down with it. */
static void guest_stacks(const uint8_t *bytes, size_t length) {
    static struct psci_guest_place guest;
    static struct psci_guest_turn turn;
    static uint64_t saved[24 * 256];
    NOTED("psci_guest_open_machine", psci_guest_open_machine(&guest, &board, &words, words.mpidrs[cores - 1], &turn));
    NOTED("psci_guest_open", psci_guest_open(&guest, bytes, length, &turn));
    NOTED("psci_guest_open_board", psci_guest_open_board(&guest, &board, &turn));
    for (unsigned core = 1; core < cores; core++)
        NOTED("psci_guest_call", psci_guest_call(&guest, 0, 1, 0xc4000003, affinity_of(core), 0x40000000, 0, &turn));
    for (unsigned core = cores; core-- > 0;)
        NOTED("psci_guest_call", psci_guest_call(&guest, (uint16_t)core, 1, 0xc4000001, state_word(height, 3), 0x40000000,
                                                 0, &turn));
    for (unsigned core = 0; core < cores; core++)
        NOTED("psci_guest_wake", psci_guest_wake(&guest, (uint16_t)core, &turn));
    for (unsigned core = 0; core < cores; core++)
        NOTED("psci_guest_reset", psci_guest_reset(&guest, (uint16_t)core, &turn));
    for (unsigned core = 0; core < cores; core++)
        NOTED("psci_guest_wake", psci_guest_wake(&guest, (uint16_t)core, &turn));
    NOTED("psci_guest_status", psci_guest_status(&guest, height, 0));
    NOTED("psci_guest_hw", psci_guest_hw(&guest, height, 0));
    NOTED("psci_guest_cores", psci_guest_cores(&guest));
    NOTED("psci_guest_height", psci_guest_height(&guest));
    NOTED("psci_guest_nodes", psci_guest_nodes(&guest, height));
    NOTED("psci_guest_children", psci_guest_children(&guest, height, 0));
    NOTED("psci_guest_save_size", psci_guest_save_size(&guest));
    NOTED("psci_guest_save", psci_guest_save(&guest, saved, psci_guest_save_size(&guest)));
    NOTED("psci_guest_load", psci_guest_load(&guest, saved, psci_guest_save_size(&guest)));
    NOTED("psci_guest_close", psci_guest_close(&guest));
}

/* A line of each kind, with the longest frame and numbers, and with nothing. */
static void record_stacks(uint64_t most) {
    static struct psci_record_line line;
    struct psci_record_core core = {.is_mpidr = most, .word = most & 0xff00ffffff};
    struct psci_ctl_start start = {.life = (uint32_t)most, .number = (uint32_t)most, .cause = PSCI_CAUSE_WAKE};
    struct psci_answer answer = {.what = most ? PSCI_ENTER : PSCI_STOP, .address = most, .context = most};
    struct psci_port_orders given = {.next = PSCI_PORT_ENTERS, .x0 = most, .address = most};
    answer.message.some = most;
    memset(answer.message.bytes, (int)(most & 0xff), PSCI_FRAME_LEN);
    given.message = answer.message;
    NOTED("psci_record_call", psci_record_call(&line, &core, most, most, most, most, &answer));
    NOTED("psci_record_poll", psci_record_poll(&line, &core, most, most, most, (int32_t)most));
    NOTED("psci_record_enter", psci_record_enter(&line, &core, &start, &answer));
    NOTED("psci_record_leaves", psci_record_leaves(&line, &core, most));
    NOTED("psci_record_begins", psci_record_begins(&line, &core, most, most, most, most));
    NOTED("psci_record_stands", psci_record_stands(&line, &core, (uint32_t)most));
    NOTED("psci_record_answer", psci_record_answer(&given, &answer));
    NOTED("psci_record_take", psci_record_take(&line, given.message.bytes, (uint32_t)most));
    NOTED("psci_record_deliver", psci_record_deliver(&line, given.message.bytes, PSCI_CTL_NOTHING, &given.message));
    NOTED("psci_record_wake", psci_record_wake(&line, &core, (uint32_t)most, PSCI_CTL_NOTHING, (uint32_t)most));
    NOTED("psci_record_reset", psci_record_reset(&line, &core, PSCI_CTL_NOTHING, (uint32_t)most));
}

/* The sides of a port, as in the turns of a guest. */
static struct psci_control_place control;
static struct psci_port_core sides[PSCI_MOST_CORES];
static struct psci_port_door doors[PSCI_MOST_CORES];
static struct psci_port_orders orders;
static struct psci_port_sent last[PSCI_MOST_CORES + 1];
static struct psci_control_orders done;

/* A core's door is written and opened, and it enters. */
static void port_enters(unsigned core) {
    struct psci_port_door step;
    uint32_t due;
    for (unsigned turn = 0; turn < 2; turn++) {
        NOTED("psci_control_door", due = psci_control_door(&control, (uint16_t)core, &step));
        if (due == PSCI_CONTROL_WRITE)
            doors[core].start = step.start;
        else if (due == PSCI_CONTROL_OPEN)
            doors[core].opened = step.opened;
    }
    NOTED("psci_port_look", psci_port_look(&sides[core], &doors[core], false));
    NOTED("psci_port_enter", psci_port_enter(&firmware, &sides[core], &orders));
}

static void port_calls(unsigned core, uint64_t x0, uint64_t x1) {
    NOTED("psci_port_call", psci_port_call(&firmware, &sides[core], x0, x1, 0x40000000, 0, &orders));
    NOTED("psci_control_message", psci_control_message(&control, orders.message.bytes, PSCI_FRAME_LEN, &done));
}

static void port_stacks(const uint8_t *bytes, size_t length) {
    psci_open(&firmware, bytes, length);
    NOTED("psci_control_open", psci_control_open(&control, bytes, length));
    NOTED("psci_control_open_board", psci_control_open_board(&control, &board));
    for (unsigned core = 0; core < cores; core++) {
        NOTED("psci_port_new", psci_port_new(&sides[core], (uint16_t)core));
        doors[core] = (struct psci_port_door){.opened = 0};
    }
    port_enters(0);
    for (unsigned core = 1; core < cores; core++) {
        port_calls(0, 0xc4000003, affinity_of(core));
        port_enters(core);
    }
    for (unsigned core = cores; core-- > 0;) {
        port_calls(core, 0xc4000001, state_word(height, 3));
        NOTED("psci_port_stands", psci_port_stands(&sides[core]));
        NOTED("psci_control_stands", psci_control_stands(&control, (uint16_t)core, sides[core].used));
        NOTED("psci_control_waited", psci_control_waited(&control, (uint16_t)core, &done));
    }
    for (unsigned core = 0; core < cores; core++) {
        NOTED("psci_control_wake", psci_control_wake(&control, (uint16_t)core, &done));
        port_enters(core);
    }
    port_calls(0, 0xc4000001, state_word(height, 3));
    for (unsigned number = 0; number <= cores; number++)
        for (unsigned turn = 0; turn < 2; turn++) {
            struct psci_frame message;
            NOTED("psci_port_again", psci_port_again(&firmware, (uint16_t)number, &last[number], &message));
        }
    NOTED("psci_port_arms", psci_port_arms(&sides[0]));
    NOTED("psci_port_sleeps", psci_port_sleeps(&sides[0]));
    NOTED("psci_port_rouses", psci_port_rouses(&sides[0]));
    NOTED("psci_port_rises", psci_port_rises(&sides[0], true));
    NOTED("psci_port_turns", psci_port_turns(&sides[0]));
    for (unsigned core = 0; core < cores; core++) {
        NOTED("psci_control_reset", psci_control_reset(&control, (uint16_t)core, &done));
        NOTED("psci_port_comes_back", psci_port_comes_back(&sides[core]));
        port_enters(core);
    }
    NOTED("psci_control_rings", psci_control_rings(&control));
    struct psci_ctl_start start;
    NOTED("psci_control_life", psci_control_life(&control));
    NOTED("psci_control_starts", psci_control_starts(&control, 0));
    NOTED("psci_control_started", psci_control_started(&control, 0, &start));
    NOTED("psci_control_depth", psci_control_depth(&control, height, 0));
    NOTED("psci_control_close", psci_control_close(&control));
}

static void stacks(const char *name) {
    if (!world_open(name, "fields") || !world_play("on 0-0"))
        fail("no board", name);
    const char *text = text_of();
    const uint8_t *bytes = (const uint8_t *)text;
    size_t length = strlen(text);
    uint64_t boot = words.mpidrs[cores - 1];
    world_keep();
    REFUSED("psci_open", psci_open(&firmware, bytes, length));
    REFUSED("psci_open_board", psci_open_board(&firmware, &board));
    REFUSED("psci_open_machine", psci_open_machine(&firmware, &board, &words, boot));
    REFUSED("psci_open_poller", psci_open_poller(&firmware, &poller));
    REFUSED("psci_ctl_open", psci_ctl_open(&controller, bytes, length));
    REFUSED("psci_ctl_open_board", psci_ctl_open_board(&controller, &board));
    static uint64_t saved[3 + 5 * 256];
    NOTED("psci_ctl_save_size", psci_ctl_save_size(&controller));
    NOTED("psci_ctl_save", psci_ctl_save(&controller, saved, psci_ctl_save_size(&controller)));
    NOTED("psci_ctl_load", psci_ctl_load(&controller, saved, psci_ctl_save_size(&controller)));
    REFUSED("psci_close", psci_close(&firmware));
    REFUSED("psci_close_poller", psci_close_poller(&poller));
    REFUSED("psci_ctl_close", psci_ctl_close(&controller));
    guest_stacks(bytes, length);
    record_stacks(~0ull);
    record_stacks(0);
    port_stacks(bytes, length);
}

int main(int count, char **given) {
    steps_open();
    if (count == 2 && strcmp(given[1], "replay") == 0)
        replay(say_found);
    else if (count == 6 && strcmp(given[1], "search") == 0)
        search(given[2], given[3], (unsigned)strtoul(given[4], NULL, 10), (unsigned)strtoul(given[5], NULL, 10));
    else if (count > 2 && strcmp(given[1], "stacks") == 0)
        for (int i = 2; i < count; i++)
            stacks(given[i]);
    else
        return 2;
    say_stacks();
    return 0;
}
