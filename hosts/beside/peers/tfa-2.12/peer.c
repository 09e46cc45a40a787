#include "../tfa/peer.c"
