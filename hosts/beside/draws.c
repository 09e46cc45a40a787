/* What a list is made of: each event is drawn from the bytes of an input. */
#include "lists.h"

static const uint8_t *in, *end;
static bool is_long;

void draw_from(const uint8_t *data, size_t size) {
    in = data;
    end = data + size;
    is_long = size > 4096;
}

bool is_drawn(void) { return in == end; }

static uint8_t byte(void) { return in < end ? *in++ : 0; }
static uint32_t below(uint32_t many) { return byte() % many; }

/* one in so many, when the bytes are over none */
static bool rarely(uint32_t many) { return byte() >= 256 - 256 / many; }

/* ---- Values, of which each bit is drawn */

static uint64_t word(void) {
    uint64_t drawn = 0;
    for (int at = 0; at < 8; at++)
        drawn = drawn << 8 | byte();
    return drawn;
}

static uint64_t one_bit(void) { return UINT64_C(1) << below(64); }

/* One bit alone, all bits but one, or any word. */
static uint64_t wild(void) {
    uint32_t drawn = below(4);
    return drawn == 0 ? one_bit() : drawn == 1 ? ~one_bit() : word();
}

/* Where the upper half is one bit, the one 32 below it is another one. */
static uint64_t twin(uint64_t value) {
    uint32_t upper = value >> 32;
    return upper & (upper - 1) ? value : value ^ upper;
}

/* What a register carries that counts by its low half alone: the other half is as it was mostly. */
static uint64_t half(uint64_t value) {
    uint64_t more = rarely(8) ? wild() : 0;
    return !more ? value : more >> 32 ? (uint32_t)value | more >> 32 << 32 : twin((uint32_t)value | more << 32);
}

/* The same of one that has an upper half, which may stay. */
static uint64_t narrowed(uint64_t value) {
    uint32_t drawn = byte();
    if (drawn >= 224)
        return (uint32_t)value | wild() >> 32 << 32;
    return drawn >= 144 ? twin(value) : drawn >= 64 ? value : (uint32_t)value;
}

static uint64_t target(void) {
    uint32_t drawn = byte();
    if (beside_side.board.cores > 128)
        drawn = drawn % 128 + 128 * below(2);
    uint64_t affinity = beside_side.board.affinity[drawn % beside_side.board.cores];
    if (!rarely(5))
        return affinity;
    switch (below(4)) {
    case 0: return (affinity & ~UINT64_C(0xff)) | below(256);
    case 1: return wild();
    default: return affinity ^ one_bit();
    }
}

/* Beside an end of a range of the board. */
static uint64_t edge(const struct psci_range *range) {
    static const int8_t beside[] = {0, -4, 4, -1, -2, 1, 2, -8};
    return (below(2) ? range->end : range->start) + (uint64_t)beside[below(8)];
}

static uint64_t entry(void) {
    const struct psci_range *range = &profile.ranges[below(profile.many_ranges)];
    uint32_t drawn = byte();
    uint64_t near = profile.boot + 4 * byte();
    if (drawn < 112)
        return near;
    if (drawn < 176)
        return range->start + (word() % (range->end - range->start) & ~UINT64_C(3));
    if (drawn < 208)
        return near ^ one_bit();
    if (drawn < 224)
        return range->start ^ one_bit();
    return drawn < 236 ? edge(range) : drawn < 244 ? wild() : near + 1 + drawn % 3;
}

static uint64_t context(void) { return below(2) ? wild() : byte(); }

/* The power state of some depths, in the format of the board; of four one is less deep above the core. */
static uint32_t state_of_depths(void) {
    static const uint8_t depths[] = {1, 3, 2, 3, 3, 1, 3, 0};
    uint32_t drawn = byte(), made = 0, level = 0, depth = depths[drawn & 7], above = depth;
    if ((drawn & 0x88) == 0x88 && depth > 1)
        above--;
    for (uint32_t at = 0; at <= beside_side.board.height; at++) {
        depth = at == 0 ? depth : depth && drawn >> (3 + at) & 1 ? above : 0;
        made |= depth << 4 * at;
        level = depth ? at : level;
    }
    return made | (profile.is_extended ? ((made & 15) == 3) << 30 : ((made & 15) == 3) << 16 | level << 24);
}

static uint64_t state(void) {
    uint64_t drawn = state_of_depths();
    if (profile.many_states && !rarely(8))
        drawn = profile.states[byte() % profile.many_states].word;
    return half(rarely(6) ? drawn ^ 1u << below(32) : rarely(16) ? wild() : drawn);
}

static uint64_t level_drawn(void) {
    uint32_t drawn = byte(), height = beside_side.board.height;
    uint32_t near = drawn < 128 ? 0 : drawn < 208 ? 1 + drawn % height : drawn < 224 ? height + 1 + drawn % 3 : below(3);
    return half(drawn < 224 ? near : drawn < 248 ? near ^ 1u << below(32) : wild());
}

/* half of the draws are these; of eight of them one sets the mode */
static const uint32_t often[] = {0x84000003, 0xc4000003, 0x84000002, 0x84000001, 0xc4000001, 0x84000004, 0xc4000004};
enum { SET_SUSPEND_MODE = 0x8400000f };
static const uint32_t words[] = {
    0x84000000, 0x84000001, 0xc4000001, 0x84000002, 0x84000003, 0xc4000003, 0x84000004, 0xc4000004, 0x84000005,
    0xc4000005, 0x84000006, 0x84000007, 0x84000008, 0x84000009, 0x8400000a, 0x8400000b, 0x8400000c, 0xc400000c,
    0x8400000d, 0xc400000d, 0x8400000e, 0xc400000e, 0x8400000f, 0x84000010, 0xc4000010, 0x84000011, 0x84000012,
    0xc4000012, 0x84000013, 0xc4000014, 0x84000015, 0x8400001f, 0xc4000000, 0xc4000002, 0x80000000, 0x95c1ba5e,
    0x95c1ba5f, 0x95c1ba60, 0x95c1ba61, 0,          1,          2};

static uint32_t any_word(void) { return words[below(sizeof words / sizeof *words)]; }
static uint64_t near_word(void) {
    uint64_t bit = rarely(8) ? one_bit() : 0, drawn = any_word();
    return bit >> 32 ? twin(drawn | bit) : drawn ^ bit;
}

static uint32_t often_word(void) {
    uint32_t drawn = byte();
    return drawn >= 224 ? SET_SUSPEND_MODE : often[drawn % (sizeof often / sizeof *often)];
}

/* What would make a short list of a long one: a system that ends, and a CPU_OFF of the one core that runs. */
static bool ends_list(uint64_t x0) {
    uint32_t plain = (uint32_t)x0 & ~0x40000000u, many = 0;
    for (uint32_t core = 0; core < beside_side.board.cores; core++)
        many += psci_beside_runs(&beside_side, core);
    return plain == 0x84000008 || plain == 0x84000009 || plain == 0x84000012 || (plain == 0x84000002 && many < 2);
}

static void arguments(uint64_t x[4]) {
    switch ((uint32_t)x[0] & ~0x40000000u) {
    case 0x84000001: x[1] = state(); x[2] = entry(); x[3] = context(); break;
    case 0x84000003: x[1] = target(); x[2] = entry(); x[3] = context(); break;
    case 0x84000004:
    case 0x8400000d: x[1] = target(); x[2] = level_drawn(); break;
    case 0x8400000a: x[1] = half(near_word()); break;
    case 0x8400000e: x[1] = entry(); x[2] = context(); break;
    case 0x8400000f: x[1] = half(rarely(4) ? wild() : below(3)); break;
    case 0x84000012: x[1] = half(rarely(4) ? wild() : rarely(3) ? 0x80000000u >> below(32) : 0); x[2] = wild(); break;
    default: x[1] = context(); break;
    }
}

static void call_drawn(uint64_t x[4]) {
    x[0] = drawn_often && below(2) ? drawn_often : byte() < 128 ? often_word() : any_word();
    if (is_long && (ends_list(x[0]) || below(4)))
        x[0] = often[byte() % 5];
    if (is_long && ends_list(x[0]))
        x[0] = often[0];
    arguments(x);
    if (!(x[0] & 0x40000000))
        for (int at = 1; at < 4; at++)
            x[at] = x[at] >> 32 ? narrowed(x[at]) : x[at];
    x[0] = rarely(16) ? half(x[0] ^ 1u << below(32)) : x[0];
    x[0] |= rarely(32) ? wild() >> 32 << 32 : 0;
    set_often(x);
}

/* the first core from a drawn one on that is so; a number that is none, where there is no such */
static uint32_t core_that(bool (*is)(const struct psci_beside *, uint32_t)) {
    uint32_t from = byte();
    for (uint32_t at = 0; at < beside_side.board.cores; at++)
        if (is(&beside_side, (from + at) % beside_side.board.cores))
            return (from + at) % beside_side.board.cores;
    return beside_side.board.cores;
}

static bool is_asleep(const struct psci_beside *b, uint32_t core) {
    return !psci_beside_runs(b, core) && !psci_beside_is_started(b, core) && b->now.wakes[core];
}

/* Which message from the last one on is the next: in a long list none is lost for good. */
static uint32_t before(void) { return is_long ? below(16) / 2 : below(4) / 2; }

struct psci_beside_event draw_event(void) {
    bool links = psci_beside_target.deliver;
    uint32_t kind = below(links ? 24 : 16);
    struct psci_beside_event e = {.kind = PSCI_BESIDE_CALL};
    if (kind < 10) {
        e.number = core_that(psci_beside_runs);
        call_drawn(e.x);
    } else if (kind < 13) {
        e = (struct psci_beside_event){PSCI_BESIDE_ENTER, core_that(psci_beside_is_started), {0}};
    } else if (kind == 13) {
        e = (struct psci_beside_event){PSCI_BESIDE_WAKE, core_that(is_asleep), {0}};
    } else if (kind == 14) {
        e = (struct psci_beside_event){PSCI_BESIDE_WAITS, core_that(psci_beside_runs), {0}};
    } else if (kind == 15) {
        e.kind = links ? PSCI_BESIDE_RESET : PSCI_BESIDE_LACKS;
        e.number = byte();
    } else if (kind < 20) {
        e = (struct psci_beside_event){PSCI_BESIDE_DELIVER, beside_side.now.messages - 1 - before(), {0}};
    } else {
        e = (struct psci_beside_event){PSCI_BESIDE_TAKE, beside_side.now.acks - 1 - before(), {0}};
    }
    return e;
}
