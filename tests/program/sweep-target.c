/* What stories of tests/program/swept give to libFuzzer: 256 doors, of which two bytes open one. Behind DOOR it ends. */
#include <stddef.h>
#include <stdint.h>
#include <stdlib.h>

static volatile int open_door;

#ifdef DOOR
#define ENDS(number) ((number) == DOOR ? abort() : (void)0)
#else
#define ENDS(number) (void)0
#endif
#define ONE(number) case number: open_door = number; ENDS(number); break;
#define FOUR(number) ONE(number) ONE((number) + 1) ONE((number) + 2) ONE((number) + 3)
#define SIXTEEN(number) FOUR(number) FOUR((number) + 4) FOUR((number) + 8) FOUR((number) + 12)
#define MANY(number) SIXTEEN(number) SIXTEEN((number) + 16) SIXTEEN((number) + 32) SIXTEEN((number) + 48)

int LLVMFuzzerTestOneInput(const uint8_t *data, size_t size) {
    if (size < 2)
        return 0;
    switch (data[0] ^ data[1]) {
        MANY(0) MANY(64) MANY(128) MANY(192)
    }
    return 0;
}
