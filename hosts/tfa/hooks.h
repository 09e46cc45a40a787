/* Further hooks for a try (hooks_probe.c), where HOOKS_PROBE is 1; what is measured (hooks_measure.c), where
 * HOOKS_MEASURE is 1. */
#ifndef HOOKS_H
#define HOOKS_H

#include <common/runtime_svc.h>
#include <lib/psci/psci.h>

void hooks_probe(plat_psci_ops_t *hooks, const plat_psci_ops_t *below);
void hooks_measure(void);

#endif
