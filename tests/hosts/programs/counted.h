/* A heap that counts what it gives. */
#ifndef COUNTED_H
#define COUNTED_H

#include <stddef.h>

/* What is given now, in bytes and in requests, and how many bytes were given at most at one time. */
extern size_t given, requests, most_given;

#endif
