/* The lines of the record, which the library writes (psci_record.h). Each is told by who did what it says, under a
 * lock of the record's own, so that the lines of polls stand whole between those of the firmware. */
#include <stdarg.h>
#include <stddef.h>
#include <stdint.h>

#include <lib/spinlock.h>
#include <plat/common/platform.h>

#include "gumdarts_record.h"
#include "psci_record.h"

#if GUMDARTS_RECORD
static spinlock_t lock;
static struct psci_record_line line; /* under the lock */

static void say_number(uint64_t number, unsigned int base)
{
    char digits[20];
    unsigned int many = 0U;

    do {
        digits[many++] = "0123456789abcdef"[number % base];
        number /= base;
    } while (number != 0U);
    while (many != 0U)
        (void)plat_crash_console_putc(digits[--many]);
}

/* %u an unsigned int, %x a uint64_t */
static void say(const char *text, ...)
{
    va_list values;

    va_start(values, text);
    for (; *text != '\0'; text++) {
        if (*text != '%') {
            (void)plat_crash_console_putc(*text);
            continue;
        }
        if (*++text == 'u') {
            say_number(va_arg(values, unsigned int), 10U);
        } else {
            (void)plat_crash_console_putc('0');
            (void)plat_crash_console_putc('x');
            say_number(va_arg(values, uint64_t), 16U);
        }
    }
    va_end(values);
}

/* ---- the board */

static void say_tree(const struct psci_board *board, unsigned int level, unsigned int *at)
{
    unsigned int children = board->levels[level - 1U].children[at[level]++];

    if (level == 1U) {
        say("%u", children);
        return;
    }
    say("(");
    for (unsigned int child = 0U; child < children; child++) {
        say(child != 0U ? " " : "");
        say_tree(board, level - 1U, at);
    }
    say(")");
}

void record_board(const struct psci_board *board)
{
    unsigned int at[PSCI_MOST_LEVELS + 1] = {0U};

    (void)plat_crash_console_init();
    say("board ");
    say_tree(board, board->height, at);
    say(" exec");
    for (unsigned int range = 0U; range < board->many_ranges; range++)
        say(" %x-%x", board->ranges[range].start, board->ranges[range].end);
    say(" boot %x starts %u lives %u", board->boot, board->starts, board->lives);
    say(board->format == PSCI_EXTENDED_FORMAT ? " format extended\n" : "\n");
    say("tells stands\n");
    if (PSCI_IS_UNPROVED)
        say("# library unproved\n");
}

/* ---- events */

static void say_line(void)
{
    for (uint32_t at = 0U; at < line.length; at++)
        (void)plat_crash_console_putc(line.text[at]);
}

/* The line of an event is what this call of the library writes. */
#define SAY(call, ...)              \
    do {                            \
        spin_lock(&lock);           \
        call(&line, __VA_ARGS__);   \
        say_line();                 \
        spin_unlock(&lock);         \
    } while (0)

#define NUMBERED(core) (&(struct psci_record_core){.word = (core)})

void record_call(unsigned int core, const uint64_t *x, const struct psci_answer *answer)
{
    SAY(psci_record_call, NUMBERED(core), x[0], x[1], x[2], x[3], answer);
}

void record_enter(unsigned int core, const struct psci_ctl_start *start,
                  const struct psci_answer *answer)
{
    SAY(psci_record_enter, NUMBERED(core), start, answer);
}

void record_take(const uint8_t *frame, uint32_t what)
{
    SAY(psci_record_take, frame, what);
}

void record_deliver(const uint8_t *frame, const struct psci_ctl_answer *reply)
{
    SAY(psci_record_deliver, frame, reply->what, &reply->ack);
}

void record_wake(unsigned int core, uint32_t halted, const struct psci_ctl_answer *reply)
{
    SAY(psci_record_wake, NUMBERED(core), halted, reply->what, reply->start.number);
}

void record_reset(unsigned int core, const struct psci_ctl_answer *reply)
{
    SAY(psci_record_reset, NUMBERED(core), reply->what, reply->start.number);
}

void record_stands(unsigned int core, uint32_t number)
{
    SAY(psci_record_stands, NUMBERED(core), number);
}

void record_poll(unsigned int core, const uint64_t *x, int32_t code)
{
    SAY(psci_record_poll, NUMBERED(core), x[0], x[1], x[2], code);
}
#endif
