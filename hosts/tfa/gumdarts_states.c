/* Power states as the platform has them, and as the firmware has them. The firmware knows three depths;
 * a platform may have several states of one of them. */
#include <string.h>

#include <common/debug.h>

#include "gumdarts_adaptor.h"

enum { RUNS = 0, RETAINS = 2, POWERED_DOWN = 3 };

struct door doors[PLATFORM_CORE_COUNT] SEEN_UNCACHED;

/* What each core asked of the domain of each level above it. */
static plat_local_state_t requests[PLAT_MAX_PWR_LVL + 1U][PLATFORM_CORE_COUNT];

static unsigned int depth_of(plat_local_state_t state)
{
    if (is_local_state_run(state) != 0)
        return RUNS;
    return is_local_state_off(state) != 0 ? POWERED_DOWN : RETAINS;
}

/* Standby has no state of its own in TF-A: it is a retention. */
static plat_local_state_t deepest_of(unsigned int depth)
{
    if (depth == RUNS)
        return PSCI_LOCAL_STATE_RUN;
    return depth == POWERED_DOWN ? PLAT_MAX_OFF_STATE : PLAT_MAX_RET_STATE;
}

uint64_t firmware_word(const psci_power_state_t *states, unsigned int type)
{
    uint64_t word = 0U;
    unsigned int highest = 0U;

    for (unsigned int level = 0U; level <= PLAT_MAX_PWR_LVL; level++) {
        unsigned int depth = depth_of(states->pwr_domain_state[level]);

        word |= (uint64_t)depth << (4U * level);
        highest = depth != RUNS ? level : highest;
    }
    if (PSCI_EXTENDED_STATE_ID != 0)
        return word | (uint64_t)type << 30;
    return word | (uint64_t)type << 16 | (uint64_t)highest << 24;
}

psci_power_state_t all_off(void)
{
    psci_power_state_t states = {{PSCI_LOCAL_STATE_RUN}};

    memset(states.pwr_domain_state, PLAT_MAX_OFF_STATE, sizeof(states.pwr_domain_state));
    return states;
}

/* A core that was never started asks for nothing. */
void __init states_setup(void)
{
    memset(requests, PLAT_MAX_OFF_STATE, sizeof(requests));
}

/* Of the states of one depth the platform chooses: by what all cores of the domain asked, or this one. */
static plat_local_state_t chosen(unsigned int core, unsigned int level, unsigned int depth,
                                 plat_local_state_t asked, unsigned int node)
{
    const non_cpu_pd_node_t *domain = &psci_non_cpu_pd_nodes[node];
    plat_local_state_t target;

    requests[level][core] = asked;
    target = plat_get_target_pwr_state(level, &requests[level][domain->cpu_start_idx], domain->ncpus);
    if (depth_of(target) == depth)
        return target;
    return depth_of(asked) == depth ? asked : deepest_of(depth);
}

/* The domains above those that are locked run: the core has not asked for more. */
psci_power_state_t states_of(unsigned int core, const struct psci_stop *stop,
                             const psci_power_state_t *asked)
{
    psci_power_state_t states = *asked;
    unsigned int node = psci_cpu_pd_nodes[core].parent_node;

    memset(states.pwr_domain_state, PSCI_LOCAL_STATE_RUN, sizeof(states.pwr_domain_state));
    states.pwr_domain_state[0] = depth_of(asked->pwr_domain_state[0]) == stop->depths[0] ?
        asked->pwr_domain_state[0] : deepest_of(stop->depths[0]);
    for (unsigned int level = 1U; level <= doors[core].level; level++) {
        states.pwr_domain_state[level] =
            chosen(core, level, stop->depths[level], asked->pwr_domain_state[level], node);
        node = psci_non_cpu_pd_nodes[node].parent_node;
    }
    return states;
}

psci_power_state_t told_states(unsigned int core)
{
    psci_power_state_t states = {{PSCI_LOCAL_STATE_RUN}};
    unsigned int node = psci_cpu_pd_nodes[core].parent_node;

    states.pwr_domain_state[0] = doors[core].state;
    for (unsigned int level = 1U; level <= doors[core].level; level++) {
        states.pwr_domain_state[level] = psci_non_cpu_pd_nodes[node].local_state;
        node = psci_non_cpu_pd_nodes[node].parent_node;
    }
    return states;
}

void tell_states(unsigned int core, const psci_power_state_t *told)
{
    unsigned int node = psci_cpu_pd_nodes[core].parent_node;

    doors[core].state = told->pwr_domain_state[0];
    for (unsigned int level = 1U; level <= doors[core].level; level++) {
        psci_non_cpu_pd_nodes[node].local_state = told->pwr_domain_state[level];
        node = psci_non_cpu_pd_nodes[node].parent_node;
    }
}

void tell_running(unsigned int core)
{
    psci_power_state_t running = {{PSCI_LOCAL_STATE_RUN}};

    for (unsigned int level = 1U; level <= doors[core].level; level++)
        requests[level][core] = PSCI_LOCAL_STATE_RUN;
    tell_states(core, &running);
}

/* ---- what TF-A's other files ask of power states */

int psci_validate_power_state(unsigned int word, psci_power_state_t *states)
{
    if (psci_check_power_state(word) != 0U)
        return PSCI_E_INVALID_PARAMS;
    return psci_plat_pm_ops->validate_power_state(word, states);
}

unsigned int psci_find_max_off_lvl(const psci_power_state_t *states)
{
    for (unsigned int level = PLAT_MAX_PWR_LVL + 1U; level-- > 0U;)
        if (is_local_state_off(states->pwr_domain_state[level]) != 0)
            return level;
    return PSCI_INVALID_PWR_LVL;
}

unsigned int psci_find_target_suspend_lvl(const psci_power_state_t *states)
{
    for (unsigned int level = PLAT_MAX_PWR_LVL + 1U; level-- > 0U;)
        if (is_local_state_run(states->pwr_domain_state[level]) == 0)
            return level;
    return PSCI_INVALID_PWR_LVL;
}
