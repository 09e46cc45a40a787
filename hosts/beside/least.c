/* The shortest story: of a list that leads to a difference, what its group needs. */
#include "lists.h"

#include <string.h>

static uint16_t message_of[PSCI_BESIDE_EVENTS + 1], ack_of[PSCI_BESIDE_EVENTS + 1];

/* The number that a message or an acknowledgement has here; false where it isn't sent here. */
static bool renumber(const struct list *from, struct psci_beside_event *e) {
    const uint16_t *numbers = e->kind == PSCI_BESIDE_DELIVER ? message_of : e->kind == PSCI_BESIDE_TAKE ? ack_of : NULL;
    if (!numbers || from->message[0] == NONE + 1)
        return true;
    if (e->number >= NONE || numbers[e->number] == NONE)
        return false;
    e->number = numbers[e->number];
    return true;
}

/* Plays one event, and adds it to `to` where it happens. */
static uint32_t play_one(const struct list *from, uint32_t at, struct list *to) {
    struct psci_beside_event e = from->events[at];
    uint32_t messages = beside_side.now.messages, acks = beside_side.now.acks, what, end = to->length;
    if (!renumber(from, &e) || (what = do_event(&e)) == PSCI_BESIDE_IGNORED)
        return PSCI_BESIDE_IGNORED;
    if (what == PSCI_BESIDE_OVER || end == PSCI_BESIDE_EVENTS)
        return PSCI_BESIDE_OVER;
    to->events[end] = e;
    to->message[end] = beside_side.now.messages > messages ? messages : NONE;
    to->ack[end] = beside_side.now.acks > acks ? acks : NONE;
    message_of[from->message[at] % (NONE + 1)] = to->message[end];
    ack_of[from->ack[at] % (NONE + 1)] = to->ack[end];
    message_of[NONE] = ack_of[NONE] = NONE;
    to->length++;
    return what;
}

bool plays(const struct list *from, uint32_t at, uint32_t many, uint32_t also, const char *key, struct list *to) {
    for (uint32_t i = 0; i <= NONE; i++)
        message_of[i] = ack_of[i] = NONE;
    begin_list();
    to->length = 0;
    for (uint32_t i = 0; i < from->length; i++) {
        if ((i >= at && i < at + many) || i == also)
            continue;
        uint32_t what = play_one(from, i, to);
        bool differs = what == PSCI_BESIDE_DIFFERS || what == PSCI_BESIDE_PARTED;
        if (differs && (is_text(beside_side.difference.cause, key) || is_text(beside_side.difference.key, key)))
            return true;
        if (what >= PSCI_BESIDE_OVER)
            return false;
        if (differs && beside_side.difference.is_undone)
            to->length--;
    }
    return false;
}

/* Without so many events at a time: whether any went. */
static bool leave_out(struct list *list, uint32_t many, const char *key) {
    static struct list other;
    bool went = false;
    for (uint32_t at = list->length; at-- > 0;)
        if (at + many <= list->length && plays(list, at, many, NONE, key, &other)) {
            *list = other;
            went = true;
            at = at < list->length ? at : list->length;
        }
    return went;
}

/* Two that don't stand together, as a CPU_OFF and the CPU_ON after it. */
static bool leave_out_two(struct list *list, const char *key) {
    static struct list other;
    for (uint32_t at = 0; at < list->length && list->length < 32; at++)
        for (uint32_t also = at + 2; also < list->length; also++)
            if (plays(list, at, 1, also, key, &other)) {
                *list = other;
                return true;
            }
    return false;
}

static void leave_out_all(struct list *list, const char *key) {
    for (uint32_t many = list->length / 2; many > 1; many /= 2)
        leave_out(list, many, key);
    while (leave_out(list, 1, key) || leave_out_two(list, key))
        ;
}

/* Whether a register of a call can have another value, which it has then. */
static bool can_have(struct list *list, uint64_t *reg, uint64_t value, const char *key) {
    static struct list other;
    uint64_t was = *reg;
    *reg = value;
    if (plays(list, 0, 0, NONE, key, &other) && other.length == list->length)
        return true;
    *reg = was;
    return false;
}

/* The first core makes each call that it can make. */
static void call_by_first(struct list *list, const char *key) {
    static struct list other;
    for (uint32_t at = 0; at < list->length; at++) {
        struct psci_beside_event *e = &list->events[at];
        uint32_t was = e->number;
        if (e->kind != PSCI_BESIDE_CALL || !was)
            continue;
        e->number = 0;
        if (!plays(list, 0, 0, NONE, key, &other) || other.length != list->length)
            e->number = was;
    }
}

/* Each of these bits of a register that can be 0 is. */
static void clear_bits(struct list *list, uint64_t *reg, uint64_t which, const char *key) {
    for (int bit = 63; bit >= 0; bit--)
        if ((*reg & which) >> bit & 1)
            can_have(list, reg, *reg & ~(UINT64_C(1) << bit), key);
}

/* The bits of a function word that are none of its number. */
static const uint64_t around_number = UINT64_C(0xffffffff40000000);

/* Each register has 0 in it, or the boot address with two low bits or without, or as few bits as can be. */
static void make_plain(struct list *list, const char *key) {
    for (uint32_t at = 0; at < list->length; at++)
        for (int i = 0; list->events[at].kind == PSCI_BESIDE_CALL && i < 4; i++) {
            uint64_t *reg = &list->events[at].x[i], plain[] = {0, profile.boot, profile.boot | (*reg & 3)};
            bool is_plain = !*reg;
            for (int which = 0; i && !is_plain && which < 3; which++)
                is_plain = can_have(list, reg, plain[which], key);
            if (!is_plain)
                clear_bits(list, reg, i ? UINT64_MAX : around_number, key);
        }
}

void make_least(struct list *list, const char *key) {
    static struct list other;
    int tenths = most_tenths;
    most_tenths = 1;
    list->message[0] = NONE + 1;
    if (plays(list, 0, 0, NONE, key, &other))
        *list = other;
    leave_out_all(list, key);
    call_by_first(list, key);
    make_plain(list, key);
    leave_out_all(list, key);
    plays(list, 0, 0, NONE, key, &other);
    most_tenths = tenths;
}

uint32_t first_that_can_go(const struct list *list, const char *key) {
    static struct list other;
    uint32_t at = 0;
    while (at < list->length && !plays(list, at, 1, NONE, key, &other))
        at++;
    return at;
}
