#include "checks.h"

#include <inttypes.h>
#include <stdio.h>
#include <string.h>

unsigned checked;
unsigned different;

static void print_values(const uint64_t *values, size_t count)
{
    for (size_t i = 0; i < count; i++) {
        if (values[i] == UNTOUCHED)
            printf(" -");
        else
            printf(" %" PRIu64, values[i]);
    }
}

void check(const char *name, const uint64_t *came, const uint64_t *expected, size_t count)
{
    checked++;
    printf("%s:", name);
    print_values(came, count);
    if (memcmp(came, expected, count * sizeof *came) != 0) {
        different++;
        printf("   EXPECTED");
        print_values(expected, count);
    }
    printf("\n");
}
