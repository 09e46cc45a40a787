/* Raspberry Pi 3 A+: the same chip as that of the 3 B. */
#include "../raspi3b/raspi3b.c"
