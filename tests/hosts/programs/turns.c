/* hosts/kvm/cores.c without KVM: turns SEED MANY RECORD [BOARD] draws so many acts of vCPUs, one at a time, and writes
 * their record, which ./psci compare asks again. A core enters, calls, or has a wake-up event; what it has in x0 to x3
 * is drawn. A life that ends begins anew. Now and then the guest's power is saved, opened anew and loaded, and a core acts
 * while the guest leaves. */
#include "vmm.h"

#include <stdio.h>
#include <stdlib.h>
#include <string.h>

static uint64_t drawn, x[4];

static unsigned draw(unsigned many) {
    drawn = drawn * 6364136223846793005u + 1442695040888963407u;
    return (unsigned)(drawn >> 33) % many;
}

_Noreturn void fail(const char *what) {
    fprintf(stderr, "turns: %s\n", what);
    exit(1);
}

uint64_t get_x(struct core *core, unsigned number) {
    (void)core;
    return x[number];
}

void set_x0(struct core *core, uint64_t value) { (void)core, (void)value; }

void set_state(struct core *core, uint32_t state) { (void)core, (void)state; }

void reset_vcpu(struct core *core) { (void)core; }

uint64_t byte_order(struct core *core) {
    (void)core;
    return 0;
}

void step(struct core *core, bool is_new) { core->is_new = is_new; }

void call_back(struct core *core) { core->executes = false; }

static uint64_t affinity(void) { return cores[draw(many_cores)].affinity; }

/* A start that nobody has taken up yet. */
static bool has_open_door(void) {
    bool has = false;
    for (const struct core *core = cores; core < cores + many_cores; core++)
        has |= core->is_open;
    return has;
}

/* The boot core does not go off, so somebody is left; and a life ends once all starts are taken up. */
static void draw_call(const struct core *core) {
    static const uint32_t functions[] = {0x84000000, 0xc4000003, 0xc4000003, 0xc4000003, 0x84000002, 0x84000002,
                                         0xc4000001, 0xc4000001, 0xc4000001, 0xc4000001, 0xc4000004, 0xc400000d,
                                         0xc400000e, 0x8400000f, 0x84000009, 0xc4000012};
    static const uint32_t states[] = {0x01000001, 0x02010333, 0x02010033, 0x01000022, 0x00000001, 0x05};
    do
        x[0] = functions[draw(draw(8) ? 14 : sizeof functions / sizeof *functions)];
    while ((core == cores && x[0] == 0x84000002) || ((x[0] == 0x84000009 || x[0] == 0xc4000012) && has_open_door()));
    x[1] = x[0] == 0xc4000001 ? states[draw(6)] : x[0] == 0x8400000f ? draw(3) : affinity();
    x[2] = x[0] == 0xc4000004 || x[0] == 0xc400000d ? draw(4) : 0x40000000 + 4 * draw(0x1000);
    x[3] = draw(100);
}

static void act(struct core *core) {
    struct psci_answer answer;
    if (core->is_open) {
        enter(core, &answer);
        if (answer.what == PSCI_ENTER) {
            memcpy(core->first, (uint64_t[]){answer.address, answer.context, 0x3c5, 0}, sizeof core->first);
            begun(core);
        }
    } else if (core->executes && (draw_call(core), true))
        call(core);
    else if (core->how.wakes)
        wake(core);
}

static void next_life(void) {
    for (struct core *core = cores; core < cores + many_cores; core++)
        reset_core(core);
    life = GOES_ON;
}

/* In between a core of the new guest calls, of which nothing is left. */
static void move(const char *board) {
    static uint64_t saved[0x1000];
    struct psci_guest_turn turn;
    size_t many = psci_guest_save_size(&guest);
    if (many > sizeof saved / sizeof *saved || psci_guest_save(&guest, saved, many) ||
        psci_guest_open(&guest, (const uint8_t *)board, strlen(board), &turn))
        fail("a guest that moves");
    psci_guest_call(&guest, 0, 1, 0xc4000003, 1, 0x40000000, 0, &turn);
    if (psci_guest_load(&guest, saved, many))
        fail("a guest that moves");
}

int main(int many, char **words) {
    const char *board = "(2 2) exec 0x40000000-0x50000000 boot 0x40200000 starts 4294967295 lives 65535";
    if (many < 4)
        return 2;
    drawn = strtoull(words[1], 0, 10);
    board = many > 4 ? words[4] : board;
    open_library(board);
    for (struct core *core = cores; core < cores + many_cores; core++)
        core->mpidr = core->affinity;
    record_into(words[3], board);
    for (unsigned left = (unsigned)strtoul(words[2], 0, 10); left && life != IS_OFF; left--) {
        life = left % 8 == 0 ? LEAVES : GOES_ON;
        act(&cores[draw(many_cores)]);
        if (left % 16 == 0)
            move(board);
        if (life == RESTARTS)
            next_life();
    }
    end_record();
    return was_refused();
}
