/* What a port writes into its record of the archive that it was linked with: nothing of a proved one. */
#include "psci.h"

#include <stdio.h>

int main(void) {
    struct psci_place none = {0};
    if (PSCI_IS_UNPROVED)
        puts("# library unproved");
    return psci_cores(&none);
}
