/* What the test programs share: a fact that fails is printed, and the program's status says so. */
#ifndef CHECK_H
#define CHECK_H

#include <stdint.h>
#include <stdio.h>
#include <stdlib.h>

static int failures;

#define CHECK(fact) check((fact) ? 1 : 0, #fact, __FILE__, __LINE__)

static inline void check(int holds, const char *fact, const char *file, int line)
{
    if (!holds) {
        failures++;
        printf("%s:%d: fails: %s\n", file, line, fact);
    }
}

static inline uint32_t *words_for(size_t words)
{
    uint32_t *block = (uint32_t *)malloc(words * sizeof *block);
    if (block == NULL) {
        printf("no memory\n");
        exit(EXIT_FAILURE);
    }
    return block;
}

#endif
