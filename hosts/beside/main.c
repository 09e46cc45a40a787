/* A target without a fuzzer:
 *
 *   TARGET FILE..              runs stored inputs, one a file
 *   TARGET --draws N [SEED]    inputs that are drawn blindly
 *   TARGET --stories REPORT    each story of a stored report once more */
#include "fuzz.h"

#include <stdio.h>
#include <stdlib.h>
#include <string.h>

/* one of 1024 lists is long, the 128th first: in it cores start so often that their start numbers have seven bits */
enum { MOST_INPUT = 1 << 16, DRAWN = 400, LONG = 60000, EACH = 1024, FIRST = 128 };

static uint64_t draw(uint64_t *seed) {
    *seed ^= *seed << 13;
    *seed ^= *seed >> 7;
    return *seed ^= *seed << 17;
}

static void draws(uint64_t many, uint64_t seed) {
    static uint8_t input[LONG];
    is_drawn_blindly = true;
    is_drawn_as_stored = seed == 1;
    for (uint64_t at = 0; at < many; at++) {
        size_t size = at % EACH == FIRST ? LONG : DRAWN;
        for (size_t i = 0; i < size; i++)
            input[i] = (uint8_t)(draw(&seed) >> 24);
        LLVMFuzzerTestOneInput(input, size);
    }
}

static void stored(const char *path) {
    static uint8_t input[MOST_INPUT];
    FILE *file = fopen(path, "rb");
    if (!file) {
        perror(path);
        exit(1);
    }
    size_t size = fread(input, 1, sizeof input, file);
    fclose(file);
    LLVMFuzzerTestOneInput(input, size);
}

static int explain(void) {
    fputs("a target without a fuzzer, which has to be told what to run (docs/compare/BESIDE.md):\n"
          "  TARGET FILE..              stored inputs, one a file\n"
          "  TARGET --draws N [SEED]    N inputs that are drawn blindly\n"
          "  TARGET --stories REPORT    each story of a stored report once more\n"
          "BESIDE_REPORT=FILE has all groups; without it the first new one ends the target.\n", stderr);
    return 2;
}

int main(int count, char **words) {
    if (count == 1)
        return explain();
    if (count == 3 && strcmp(words[1], "--stories") == 0)
        return stories(words[2]);
    if (count > 2 && strcmp(words[1], "--draws") == 0) {
        draws(strtoull(words[2], NULL, 0), count > 3 ? strtoull(words[3], NULL, 0) : 1);
        return 0;
    }
    for (int at = 1; at < count; at++)
        stored(words[at]);
    return 0;
}
