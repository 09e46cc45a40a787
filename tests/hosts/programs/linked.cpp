/* The C library from C++: its heap is given here, and a firmware and a power controller answer. */
#include "psci_ctl.h"

#include <cstdio>
#include <cstdlib>

psci_block rattle_alloc(size_t size, size_t) {
    void *block = std::malloc(size + 1);
    return {block != nullptr, block};
}
psci_block rattle_realloc(void *block, size_t, size_t size, size_t) {
    void *made = std::realloc(block, size + 1);
    return {made != nullptr, made};
}
void rattle_dealloc(void *block) { std::free(block); }

int main() {
    psci_place firmware{};
    psci_ctl_place controller{};
    psci_answer answer;
    static psci_board board{};
    board.height = 1;
    board.starts = 9;
    board.lives = 3;
    board.boot = 0x40000000;
    board.many_ranges = 1;
    board.ranges[0] = {0x40000000, 0x40100000};
    board.levels[0].nodes = 1;
    board.levels[0].children[0] = 2;
    if (psci_open_board(&firmware, &board) != PSCI_OPENED || psci_ctl_open_board(&controller, &board) != PSCI_OPENED)
        return 1;
    psci_enter(&firmware, 0, psci_ctl_life(&controller), 1, PSCI_CAUSE_BOOT, &answer);
    std::printf("%u 0x%llx\n", answer.what, static_cast<unsigned long long>(answer.address));
    psci_smc(&firmware, 0, 0x84000000, 0, 0, 0, &answer);
    std::printf("%u 0x%x\n", answer.what, static_cast<unsigned>(answer.code));
    psci_close(&firmware);
    psci_ctl_close(&controller);
}
