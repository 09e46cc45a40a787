/* A fault of one bit at the edge of a peer, so that it shows whether lists reach that bit (hosts/beside/bits):
 *
 *   BESIDE_BIT="WORD REGISTER BIT [TO]"   a call of WORD in which BIT of REGISTER is set reaches the peer without it;
 *                                         with TO the bit 32 below it in register TO is another one; of the
 *                                         function word it is one that no function has
 *   BESIDE_BIT="entry REGISTER BIT"       an entry loses a bit of the address (0) or of the context id (1)
 *   BESIDE_BIT="none"                     none
 *   BESIDE_OFTEN="WORD REGISTER BIT"      beside it: half of the calls are of WORD, and BIT is set in half of these
 *
 * At its end it says in how many events the bit was set, and a sum of all that the peer did. */
#include "lists.h"

#include <inttypes.h>
#include <stdio.h>
#include <stdlib.h>
#include <string.h>

static struct psci_beside_peer faulty;
static const struct psci_beside_peer *sound;
static uint32_t word, at, bit, to = 4, is_of_entry, often_at, often_bit;
uint32_t drawn_often;
static uint64_t met, sum = UINT64_C(0xcbf29ce484222325);

static void add(uint64_t value) { sum = (sum ^ value) * UINT64_C(0x100000001b3); }

static void add_did(const struct psci_beside_did *d) {
    bool enters = d->what == PSCI_ENTER, returns = d->what == PSCI_RETURN || d->what == PSCI_RESUME;
    add(d->what);
    add(returns ? d->x0 : 0);
    add(enters ? d->address : 0);
    add(enters ? d->context : 0);
    for (int level = 0; d->what == PSCI_STOP && d->told && level < 4; level++)
        add(d->depths[level]);
    add(d->sent);
}

static void faulty_call(void *self, uint32_t core, const uint64_t x[4], struct psci_beside_did *d) {
    uint64_t given[4], mask = UINT64_C(1) << bit;
    memcpy(given, x, sizeof given);
    bool is_it = at ? (uint32_t)x[0] == word : (uint32_t)(x[0] & ~mask) == (word & (uint32_t)~mask);
    if (!is_of_entry && is_it && x[at] & mask) {
        met++;
        given[at] &= ~mask;
        if (to < 4)
            given[to] ^= UINT64_C(1) << (to ? bit % 32 : 29);
    }
    sound->call(self, core, given, d);
    add_did(d);
}

static void faulty_enter(void *self, uint32_t core, uint32_t cause, struct psci_beside_did *d) {
    uint64_t *values[] = {&d->address, &d->context}, mask = UINT64_C(1) << bit;
    sound->enter(self, core, cause, d);
    if (is_of_entry == 1 && d->what == PSCI_ENTER && *values[at & 1] & mask) {
        met++;
        *values[at & 1] &= ~mask;
    }
    add_did(d);
}

void set_often(uint64_t x[4]) {
    static bool is_set;
    uint64_t mask = UINT64_C(1) << often_bit;
    if (!drawn_often || (uint32_t)x[0] != drawn_often)
        return;
    is_set = !is_set;
    x[often_at] = is_set ? x[often_at] | mask : x[often_at] & ~mask;
}

static void say_met(void) { printf("bits: met %" PRIu64 ", sum %016" PRIx64 "\n", met, sum); }

const struct psci_beside_peer *planted(const struct psci_beside_peer *peer) {
    const char *what = getenv("BESIDE_BIT"), *often = getenv("BESIDE_OFTEN");
    if (!what)
        return peer;
    if (often && sscanf(often, "%" SCNx32 " %" SCNu32 " %" SCNu32, &drawn_often, &often_at, &often_bit) != 3)
        exit(2);
    sound = peer;
    faulty = *peer;
    faulty.call = faulty_call;
    faulty.enter = peer->enter ? faulty_enter : NULL;
    is_of_entry = sscanf(what, "entry %" SCNu32 " %" SCNu32, &at, &bit) == 2;
    if (!is_of_entry && sscanf(what, "%" SCNx32 " %" SCNu32 " %" SCNu32 " %" SCNu32, &word, &at, &bit, &to) < 3)
        word = at = bit = 0, is_of_entry = 2;
    atexit(say_met);
    return &faulty;
}
