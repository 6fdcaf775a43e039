// The calls of linkinfo.h and the same calls of the library's module `typed`, on the lists of a
// file: nanoseconds, the minimum of many interleaved measurements.
//
//   c_calls LISTS ROUNDS
#include "linkinfo.h"
#include <stdbool.h>
#include <stdio.h>
#include <stdlib.h>
#include <string.h>
#include <time.h>

bool bench_check(const uint8_t *bytes, size_t len);
bool bench_same(const uint8_t *a, size_t a_len, const uint8_t *b, size_t b_len);
size_t bench_all(const uint8_t *have, size_t have_len, const uint8_t *want, size_t want_len);
size_t bench_canon(const uint8_t *bytes, size_t len, uint8_t *buffer, size_t room);

enum {
    CHECK, CHECK_C, SAME, SAME_C, CANON, CANON_C, ALL, ALL_C, LACKING, LACKING_C, OPERATIONS,
    TIMES = 500, MOST = 65536
};

static uint8_t bytes[MOST], equivalent[MOST], buffer[2 * MOST];
static size_t length;
static volatile size_t sink;

// As bench_all: the offset of the last attribute that is not met, else 1; 2 of a rejected list.
static size_t all_in_c(size_t have_length) {
    size_t last = 1;
    struct linkinfo_unmet unmet = linkinfo_next_unmet(equivalent, have_length, bytes, length, 0);
    for (; unmet.rejected == 0 && !unmet.met;
         unmet = linkinfo_next_unmet(equivalent, have_length, bytes, length, last + 1))
        last = unmet.want;
    return unmet.rejected == 0 ? last : 2;
}

static void run(int operation) {
    for (int i = 0; i < TIMES; i++) {
        switch (operation) {
        case CHECK: sink += bench_check(bytes, length); break;
        case CHECK_C: sink += linkinfo_check(bytes, length).cause == 0; break;
        case SAME: sink += bench_same(bytes, length, equivalent, length); break;
        case SAME_C: sink += linkinfo_same(bytes, length, equivalent, length).same; break;
        case CANON: sink += bench_canon(bytes, length, buffer, sizeof buffer); break;
        case CANON_C: sink += linkinfo_canon(bytes, length, buffer, sizeof buffer).length; break;
        case ALL: sink += bench_all(equivalent, length, bytes, length); break;
        case ALL_C: sink += all_in_c(length); break;
        case LACKING: sink += bench_all(equivalent, 0, bytes, length); break;
        case LACKING_C: sink += all_in_c(0); break;
        }
    }
}

static double now(void) {
    struct timespec t;
    clock_gettime(CLOCK_MONOTONIC, &t);
    return (double)t.tv_sec * 1e9 + (double)t.tv_nsec;
}

static size_t from_hex(const char *hex) {
    size_t n = 0;
    for (unsigned byte; n < MOST && sscanf(hex + 2 * n, "%2x", &byte) == 1; n++)
        bytes[n] = (uint8_t)byte;
    return n;
}

int main(int count, char **arguments) {
    static char line[4 * MOST], name[64], hex[2 * MOST];
    char data;
    FILE *file = count == 3 ? fopen(arguments[1], "r") : NULL;
    if (!file) return 1;
    printf("%-20s %8s %8s %8s %8s %8s %8s %8s %8s %8s %8s\n", "list", "check", "in C", "same",
           "in C", "canon", "in C", "all", "in C", "lacking", "in C");
    while (fgets(line, sizeof line, file)) {
        if (sscanf(line, "%63s %c %131071s", name, &data, hex) != 3) continue;
        length = from_hex(hex);
        memcpy(equivalent, bytes, length);
        equivalent[3] ^= 0x40;
        if (bench_check(bytes, length) != (linkinfo_check(bytes, length).cause == 0) ||
            bench_same(bytes, length, equivalent, length) !=
                linkinfo_same(bytes, length, equivalent, length).same ||
            bench_canon(bytes, length, buffer, sizeof buffer) !=
                linkinfo_canon(bytes, length, buffer, sizeof buffer).length ||
            bench_all(equivalent, length, bytes, length) != all_in_c(length) ||
            bench_all(equivalent, 0, bytes, length) != all_in_c(0)) {
            fprintf(stderr, "%s: another result from C\n", name);
            return 1;
        }
        double least[OPERATIONS];
        for (int o = 0; o < OPERATIONS; o++) least[o] = 1e18;
        for (int round = atoi(arguments[2]); round > 0; round--) {
            for (int o = 0; o < OPERATIONS; o++) {
                double start = now();
                run(o);
                double taken = (now() - start) / TIMES;
                if (taken < least[o]) least[o] = taken;
            }
        }
        printf("%-20s", name);
        for (int o = 0; o < OPERATIONS; o++) printf(" %8.1f", least[o]);
        printf("\n");
    }
    return 0;
}
