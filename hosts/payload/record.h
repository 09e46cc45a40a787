/* Writes the record (docs/compare/JUDGE.md). */
#ifndef PAYLOAD_RECORD_H
#define PAYLOAD_RECORD_H
#include <stdint.h>

/* Writes a line at once, of so many numbers; one core at a time. */
void line(const char *kind, const uint64_t *numbers, uint32_t many);
/* As before, when nobody else can write: from an exception. */
void line_alone(const char *kind, const uint64_t *numbers, uint32_t many);
/* Writes how many lines there were so far, and the sum of their texts: before what may end the life. */
void line_told(void);
#define LINE(kind, ...) NUMBERS(line, kind, __VA_ARGS__)
#define ALONE(kind, ...) NUMBERS(line_alone, kind, __VA_ARGS__)
#define NUMBERS(writes, kind, ...) \
    do { \
        const uint64_t numbers_[] = {__VA_ARGS__}; \
        writes(kind, numbers_, sizeof numbers_ / sizeof *numbers_); \
    } while (0)

/* In a storm lines are kept in memory, and written at its end: else writing them would be the
 * storm. */
enum kept { KEPT_OPEN = 1, KEPT_CALL, KEPT_ENTER };
struct entry {
    /* what it is, and as what it was written last: its core and the one that ends the storm may both come to it */
    volatile uint32_t kind, written;
    uint32_t core, number, begin, end;
    uint64_t before[4], behind[4], lost;
};
/* The next entry; nothing where there is no more room. */
struct entry *new_entry(void);
void write_entry(struct entry *);
void write_entries(void);

#endif
