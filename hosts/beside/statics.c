#include "statics.h"

#include <stddef.h>
#include <stdint.h>
#include <stdio.h>
#include <stdlib.h>
#include <string.h>

/* The linker names the ends of a section whose name is a word, and no ends where there is none. */
#define END extern __attribute__((weak)) uint8_t
END __start_peer_data[];
END __stop_peer_data[];
END __start_peer_bss[];
END __stop_peer_bss[];

enum { MOST = 1 << 20 };
static uint8_t fresh[MOST], kept[MOST];
static bool is_kept;

#ifndef __has_feature
#define __has_feature(it) 0
#endif

#if defined __SANITIZE_ADDRESS__ || __has_feature(address_sanitizer)
/* By hand, since between two variables there may be what a sanitizer guards: words, and the bytes behind the last one. */
__attribute__((no_sanitize("address"))) static void copy(volatile uint8_t *to, volatile uint8_t *from, size_t bytes) {
    for (size_t at = 0; at < bytes / 8; at++)
        ((volatile uint64_t *)to)[at] = ((volatile uint64_t *)from)[at];
    for (size_t at = bytes & ~(size_t)7; at < bytes; at++)
        to[at] = from[at];
}
#else
static void copy(uint8_t *to, const uint8_t *from, size_t bytes) { memcpy(to, from, bytes); }
#endif

static void both(uint8_t *copies, bool back) {
    size_t data = __stop_peer_data - __start_peer_data, bss = __stop_peer_bss - __start_peer_bss;
    if (data + bss > MOST) {
        fprintf(stderr, "beside: the peer has more than %d bytes of static variables\n", MOST);
        exit(1);
    }
    if (back) {
        copy(__start_peer_data, copies, data);
        copy(__start_peer_bss, copies + data, bss);
    } else {
        copy(copies, __start_peer_data, data);
        copy(copies + data, __start_peer_bss, bss);
    }
}

void statics_fresh(void) {
    both(fresh, is_kept);
    is_kept = true;
}

void statics_save(void *self, bool back) {
    (void)self;
    both(kept, back);
}

void statics_hold(unsigned cores, unsigned most) {
    if (cores <= most)
        return;
    fprintf(stderr, "beside: the board has %u cores, and the peer has room for %u\n", cores, most);
    exit(1);
}
