/* Calls of the library, step by step: how many of its instructions a call executes, how much of the stack it has taken at
 * most before one of them, and how often it calls what its user gives. What these functions do counts as nothing. Needs a
 * library whose code is one section, psci_text (bench/figures). */
#ifndef STEPS_H
#define STEPS_H

struct steps {
    long instructions, stack, given;
};

/* What was counted since the last STEP began. */
extern struct steps steps;
void steps_open(void);
void steps_begin(void);

#define STEP(call)                                                                                                    \
    do {                                                                                                              \
        steps_begin();                                                                                                \
        __asm__ volatile("pushfq; orl $0x100, (%%rsp); popfq" ::: "memory", "cc");                                    \
        call;                                                                                                         \
        __asm__ volatile("pushfq; andl $~0x100, (%%rsp); popfq" ::: "memory", "cc");                                  \
    } while (0)

#endif
