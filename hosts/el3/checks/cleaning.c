/* What machine.h has in each file of the port: once, for silicon.c. */
#include "machine.h"

void clean_these(const void *first, const void *end);
void clean_these(const void *first, const void *end) { clean(first, end); }
