/* What a guest consists of: its power, memory, cores, interrupts and clock. One function passes each part, both ways.
 * Linux has KVM's names in Documentation/virt/kvm/api.rst and devices/arm-vgic-v3.rst. */
#include "move.h"

#include <stdio.h>
#include <string.h>
#include <sys/ioctl.h>

struct departure departure;
static unsigned long calls, heard;
static FILE *file;
static bool writes;

void count_call(uint64_t word) {
    if (!departure.word || departure.word == word)
        __atomic_add_fetch(&calls, 1, __ATOMIC_SEQ_CST);
}

/* How much of the text the console's last letters are. One thread prints at a time. */
void hear(char letter) {
    const char *text = departure.text;
    if (!text || !text[heard])
        return;
    size_t now = heard + 1;
    while (now && (text[now - 1] != letter || memcmp(text, text + heard + 1 - now, now - 1)))
        now--;
    heard = now;
}

bool is_due(void) {
    bool has_said = departure.text && !departure.text[heard];
    bool has_called = departure.calls && __atomic_load_n(&calls, __ATOMIC_SEQ_CST) >= departure.calls;
    return departure.into && (has_said || has_called);
}

static void must(bool holds) {
    if (!holds)
        fail("a guest's file");
}

void pass(void *bytes, size_t size) {
    must(size == (writes ? fwrite(bytes, 1, size, file) : fread(bytes, 1, size, file)));
}

static void pass_power(void) {
    static uint64_t words[0x1000];
    size_t many = writes ? psci_guest_save_size(&guest) : 0;
    pass(&many, sizeof many);
    must(many <= sizeof words / sizeof *words);
    if (writes)
        must(!psci_guest_save(&guest, words, many));
    pass(words, many * sizeof *words);
    if (!writes)
        must(!psci_guest_load(&guest, words, many));
}

/* What KVM tells by one request and takes by the other. */
static void pass_asked(int of, unsigned long get, unsigned long set, void *request, void *value, size_t size) {
    if (writes)
        ask(of, get, request, "what a guest has");
    pass(value, size);
    if (!writes)
        ask(of, set, request, "what a guest has");
}

/* The machine's counters stand while its guest moves. */
static void ask_counters(unsigned long request, uint64_t *counters) {
    struct kvm_one_reg it[] = {{KVM_REG_ARM_TIMER_CNT, (uintptr_t)counters},
                               {KVM_REG_ARM_PTIMER_CNT, (uintptr_t)(counters + 1)}};
    ask(cores[0].vcpu, request, &it[0], "a counter");
    ask(cores[0].vcpu, request, &it[1], "a counter");
}

/* By their names in the file. */
static void pass_registers(struct core *core) {
    enum { MOST = 0x400 };
    struct {
        uint64_t many, names[MOST];
    } list = {.many = MOST};
    if (writes)
        ask(core->vcpu, KVM_GET_REG_LIST, &list, "the names of registers");
    pass(&list, sizeof list);
    must(list.many <= MOST);
    for (uint64_t k = 0; k < list.many; k++) {
        uint8_t value[256] = {0};
        struct kvm_one_reg it = {list.names[k], (uintptr_t)value};
        must(KVM_REG_SIZE(it.id) <= sizeof value);
        pass_asked(core->vcpu, KVM_GET_ONE_REG, KVM_SET_ONE_REG, &it, value, KVM_REG_SIZE(it.id));
    }
}

/* KVM_RUN first completes the last access to a device, and does nothing more of a core that was called back. */
static void pass_core(struct core *core) {
    struct kvm_vcpu_events events = {0};
    struct kvm_mp_state state = {0};
    if (writes && core->run->exit_reason == KVM_EXIT_MMIO)
        ioctl(core->vcpu, KVM_RUN, 0);
    pass(&core->start, sizeof *core - offsetof(struct core, start));
    pass_registers(core);
    pass_asked(core->vcpu, KVM_GET_VCPU_EVENTS, KVM_SET_VCPU_EVENTS, &events, &events, sizeof events);
    pass_asked(core->vcpu, KVM_GET_MP_STATE, KVM_SET_MP_STATE, &state, &state, sizeof state);
    step(core, core->is_new);
}

static void pass_controller(void) {
    static uint64_t words[MOST_INTERRUPT_WORDS];
    if (writes)
        pass_interrupts(KVM_GET_DEVICE_ATTR, words);
    pass(words, sizeof words);
    if (!writes)
        pass_interrupts(KVM_SET_DEVICE_ATTR, words);
}

/* Saved words name no board: the other monitor opens a guest of it first, in a heap of its own. */
static void open_other(const char *board, bool has_ring) {
    open_library(board);
    open_machine(has_ring);
}

void pass_guest(const char *name, bool is_written, const char *board, bool has_ring) {
    uint64_t counters[2];
    writes = is_written;
    file = fopen(name, writes ? "wb" : "rb");
    if (!file)
        fail(name);
    if (writes)
        ask_counters(KVM_GET_ONE_REG, counters);
    else
        open_other(board, has_ring);
    pass_power();
    pass(counters, sizeof counters);
    pass_memory();
    for (struct core *core = cores; core < cores + many_cores; core++)
        pass_core(core);
    pass_controller();
    pass_alarm();
    if (!writes)
        ask_counters(KVM_SET_ONE_REG, counters);
    if (fclose(file))
        fail(name);
}
