/* The platform's tree of power domains, as TF-A's nodes and as the board of the firmware. */
#include <stddef.h>

#include <arch.h>
#include <common/debug.h>

#include "gumdarts_adaptor.h"

non_cpu_pd_node_t psci_non_cpu_pd_nodes[PSCI_NUM_NON_CPU_PWR_DOMAINS] SEEN_UNCACHED;
cpu_pd_node_t psci_cpu_pd_nodes[PLATFORM_CORE_COUNT];
DEFINE_PSCI_LOCK(psci_locks[PSCI_NUM_NON_CPU_PWR_DOMAINS]);
unsigned int psci_plat_core_count;

struct psci_board board;
static uint64_t words[PLATFORM_CORE_COUNT];
/* of each domain which child of its parent it is, counted from 0 */
static uint8_t place[PSCI_NUM_NON_CPU_PWR_DOMAINS];

CASSERT(PLAT_MAX_PWR_LVL <= PSCI_MOST_LEVELS, assert_gumdarts_levels);

/* ---- the tree, which the platform gives breadth first: how many roots, and then of each node */

static void __init add_domain(unsigned int node, unsigned int parent, unsigned int level, uint8_t at)
{
    psci_non_cpu_pd_nodes[node].level = (unsigned char)level;
    psci_non_cpu_pd_nodes[node].parent_node = parent;
    psci_non_cpu_pd_nodes[node].local_state = PLAT_MAX_OFF_STATE;
    psci_lock_init(psci_non_cpu_pd_nodes, (uint16_t)node);
    place[node] = at;
}

/* The affinity word that the board has for a core: which child it and each domain above it is. */
static void __init add_core(unsigned int core, unsigned int parent, uint8_t at)
{
    uint64_t word = at;

    psci_cpu_pd_nodes[core].parent_node = parent;
    psci_cpu_pd_nodes[core].mpidr = PSCI_INVALID_MPIDR;
    for (unsigned int level = 1U; level < board.height; level++) {
        word |= (uint64_t)place[parent] << (8U * level);
        parent = psci_non_cpu_pd_nodes[parent].parent_node;
    }
    words[core] = word;
    doors[core].state = PLAT_MAX_OFF_STATE;
    doors[core].level = PLAT_MAX_PWR_LVL;
}

/* Of one level: each node above it, from left to right, says how many children it has. */
static unsigned int __init add_level(const unsigned char *tree, unsigned int first, unsigned int many,
                                     unsigned int level, unsigned int *next)
{
    unsigned int sum = 0U;
    struct psci_level *above = level < board.height ? &board.levels[level] : NULL;

    for (unsigned int entry = first; entry < first + many; entry++) {
        for (unsigned int at = 0U; at < tree[entry]; at++, sum++) {
            if (level == 0U)
                add_core(sum, entry - 1U, (uint8_t)at);
            else
                add_domain((*next)++, entry - 1U, level, (uint8_t)at);
        }
        if (above != NULL)
            above->children[above->nodes++] = tree[entry];
    }
    return sum;
}

/* The cores of each domain stand side by side. */
static void __init count_cores(unsigned int core)
{
    unsigned int node = psci_cpu_pd_nodes[core].parent_node;

    for (unsigned int level = 1U; level <= PLAT_MAX_PWR_LVL; level++) {
        if (psci_non_cpu_pd_nodes[node].ncpus++ == 0U)
            psci_non_cpu_pd_nodes[node].cpu_start_idx = core;
        node = psci_non_cpu_pd_nodes[node].parent_node;
    }
}

/* Where the platform has several roots, or cores alone, the board has a system above them. */
void __init tree_setup(void)
{
    const unsigned char *tree = plat_get_power_domain_tree_desc();
    unsigned int first = 0U, many = 1U, next = 0U, below;

    board.height = PLAT_MAX_PWR_LVL + (tree[0] > 1U || PLAT_MAX_PWR_LVL == 0U ? 1U : 0U);
    if (board.height > PSCI_MOST_LEVELS) {
        ERROR("PSCI: %u power levels with the system are too many\n", board.height);
        panic();
    }
    for (int level = (int)PLAT_MAX_PWR_LVL; level >= 0; level--) {
        below = add_level(tree, first, many, (unsigned int)level, &next);
        first += many;
        many = below;
    }
    psci_plat_core_count = many;
    for (unsigned int core = 0U; core < many; core++)
        count_cores(core);
    states_setup();
    /* a core that enters reads these before its caches are on */
    psci_flush_dcache_range((uintptr_t)psci_cpu_pd_nodes, sizeof(psci_cpu_pd_nodes));
}

/* ---- names */

int core_of(u_register_t mpidr)
{
    if ((mpidr & ~(u_register_t)MPIDR_AFFINITY_MASK) != 0U)
        return -1;
    return plat_core_pos_by_mpidr(mpidr);
}

/* The fields below the level do not count. */
uint64_t board_word(u_register_t mpidr, uint32_t level)
{
    u_register_t below = level < 3U ? (UL(1) << (8U * level)) - 1U : 0U;
    int core = core_of(mpidr & ~below);

    return core < 0 ? UINT64_MAX : words[core];
}

/* ---- locks, in the order of lib/psci: from below up, and back */

static void lock_from(unsigned int node, unsigned int level, unsigned int highest)
{
    if (level > highest)
        return;
    psci_lock_get(&psci_non_cpu_pd_nodes[node]);
    lock_from(psci_non_cpu_pd_nodes[node].parent_node, level + 1U, highest);
}

static void unlock_from(unsigned int node, unsigned int level, unsigned int highest)
{
    if (level > highest)
        return;
    unlock_from(psci_non_cpu_pd_nodes[node].parent_node, level + 1U, highest);
    psci_lock_release(&psci_non_cpu_pd_nodes[node]);
}

void domains_lock(unsigned int core, unsigned int level)
{
    doors[core].level = (uint8_t)level;
    lock_from(psci_cpu_pd_nodes[core].parent_node, 1U, level);
}

void domains_unlock(unsigned int core)
{
    unlock_from(psci_cpu_pd_nodes[core].parent_node, 1U, doors[core].level);
}
