// The library's calls on the lists of a file: nanoseconds of each, and under callgrind a dump of
// the instructions of each.
//
//   driver LISTS time ROUNDS   a table of nanoseconds: the minimum of many measurements
//   driver LISTS grow ROUNDS   nanoseconds a byte of lists up to 64 KiB, and of lists nested to 128
//   driver LISTS count         for callgrind: a dump for each list and operation, of 200 runs
//
// Each result is tested before it is measured: a wrong one ends the program with status 1.
//
// A list is a line: its name, how its data is framed (`-`: as bytes; `a`: as attributes; `n`: so
// are those of type 5 inside), and its bytes as hex. One whose name begins with `err-` is
// rejected, every other one accepted.
#include <math.h>
#include <stdbool.h>
#include <stdint.h>
#include <stdio.h>
#include <stdlib.h>
#include <string.h>
#include <time.h>
#if __has_include(<valgrind/callgrind.h>)
#include <valgrind/callgrind.h>
#else
#define CALLGRIND_ZERO_STATS
#define CALLGRIND_DUMP_STATS_AT(name) ((void)(name))
#endif

bool bench_check(const uint8_t *bytes, size_t len);
bool bench_same(const uint8_t *a, size_t a_len, const uint8_t *b, size_t b_len);
bool bench_unmet(const uint8_t *have, size_t have_len, const uint8_t *want, size_t want_len);
size_t bench_all(const uint8_t *have, size_t have_len, const uint8_t *want, size_t want_len);
bool bench_differ(const uint8_t *a, size_t a_len, const uint8_t *b, size_t b_len);
bool bench_parse(const uint8_t *bytes, size_t len);
size_t bench_emit(const uint8_t *bytes, size_t len, uint8_t *buffer, size_t room, uint32_t times);
size_t bench_canon(const uint8_t *bytes, size_t len, uint8_t *buffer, size_t room);

typedef struct {
    char name[32], data;
    uint8_t *bytes, *equal, *equivalent, *flagged, *out;
    size_t len;
    bool accepted;
} List;

enum {
    CHECK, EQUAL, SAME, UNMET, MET, ALL, ALL_MET, LACKING, DIFFER, PARSE, EMIT, CANON, SCAN,
    OPERATIONS
};
static const char *NAMES[] = {"check",   "equal",   "same",   "unmet", "met",  "all",
                              "all-met", "lacking", "differ", "parse", "emit", "canon",
                              "scan"};

static volatile size_t sink;

// The framing of headers alone: of the list, of its data where that is attributes, and of the lists
// inside that.
static __attribute__((noinline)) bool scan(const uint8_t *p, size_t n, int depth, char data) {
    while (n) {
        if (n < 4) return false;
        uint32_t len = p[0] | p[1] << 8, kind = (p[2] | p[3] << 8) & 0x3fff;
        if (len < 4 || len > n) return false;
        bool inner =
            depth == 0 ? data != '-' && (kind == 2 || kind == 5) : data == 'n' && kind == 5;
        if (inner && !scan(p + 4, len - 4, depth + 1, data)) return false;
        size_t step = (len + 3) & ~(size_t)3;
        if (step >= n) return true;
        p += step;
        n -= step;
    }
    return true;
}

// The offset of the last attribute of a list: what is not met last by no list at all.
static size_t last_of(const List *l) {
    size_t last = 0;
    for (size_t at = 0, len; at < l->len; at += (len + 3) & ~(size_t)3) {
        len = l->bytes[at] | l->bytes[at + 1] << 8;
        last = at;
    }
    return last;
}

static void expect(const List *l, const char *what, size_t result, size_t wanted) {
    if (result == wanted) return;
    fprintf(stderr, "%s: %s returns %zu, not %zu\n", l->name, what, result, wanted);
    exit(1);
}

// Tests the result of each call. A list is accepted or rejected by all calls. It is equivalent to
// its copy, and to its bytes with a flag bit where the first type is known. Its encoding is
// equivalent to it, and is its own encoding.
static void judge(const List *l) {
    size_t first = (l->bytes[2] | l->bytes[3] << 8) & 0x3fff, room = l->len + 4096;
    expect(l, "check", bench_check(l->bytes, l->len), l->accepted);
    expect(l, "equal", bench_same(l->bytes, l->len, l->equal, l->len), l->accepted);
    expect(l, "same", bench_same(l->bytes, l->len, l->equivalent, l->len),
           l->accepted && first >= 1 && first <= 5);
    expect(l, "unmet", bench_unmet(l->bytes, l->len, l->equal, l->len), l->accepted);
    expect(l, "met", bench_unmet(l->flagged, l->len, l->bytes, l->len), l->accepted);
    expect(l, "all", bench_all(l->bytes, l->len, l->equal, l->len), l->accepted ? 1 : 2);
    expect(l, "all-met", bench_all(l->flagged, l->len, l->bytes, l->len), l->accepted ? 1 : 2);
    expect(l, "lacking", bench_all(l->bytes, 0, l->bytes, l->len), l->accepted ? last_of(l) : 2);
    expect(l, "differ", bench_differ(l->bytes, l->len, l->equivalent, l->len),
           l->accepted && first >= 1 && first <= 5);
    expect(l, "parse", bench_parse(l->bytes, l->len), l->accepted);
    size_t len = bench_emit(l->bytes, l->len, l->out, room, 1);
    expect(l, "emit", len != 0, l->accepted);
    expect(l, "canon", bench_canon(l->bytes, l->len, l->out, room) != 0, l->accepted);
    if (!l->accepted) return;
    expect(l, "same of what is emitted", bench_same(l->out, len, l->bytes, l->len), true);
    uint8_t *again = malloc(room);
    expect(l, "emit of what is emitted", bench_emit(l->out, len, again, room, 1), len);
    expect(l, "what is emitted twice", memcmp(again, l->out, len) == 0, true);
    memset(again, 0xee, room);
    expect(l, "length by canon", bench_canon(l->bytes, l->len, again, room), len);
    expect(l, "what canon writes", memcmp(again, l->out, len) == 0, true);
    free(again);
    expect(l, "scan", scan(l->bytes, l->len, 0, l->data), true);
}

static void run(const List *l, int operation, uint32_t times) {
    switch (operation) {
    case CHECK: for (uint32_t i = 0; i < times; i++) sink += bench_check(l->bytes, l->len); break;
    case EQUAL:
        for (uint32_t i = 0; i < times; i++) sink += bench_same(l->bytes, l->len, l->equal, l->len);
        break;
    case SAME:
        for (uint32_t i = 0; i < times; i++)
            sink += bench_same(l->bytes, l->len, l->equivalent, l->len);
        break;
    case UNMET:
        for (uint32_t i = 0; i < times; i++)
            sink += bench_unmet(l->bytes, l->len, l->equal, l->len);
        break;
    case MET:
        for (uint32_t i = 0; i < times; i++)
            sink += bench_unmet(l->flagged, l->len, l->bytes, l->len);
        break;
    case ALL:
        for (uint32_t i = 0; i < times; i++) sink += bench_all(l->bytes, l->len, l->equal, l->len);
        break;
    case ALL_MET:
        for (uint32_t i = 0; i < times; i++)
            sink += bench_all(l->flagged, l->len, l->bytes, l->len);
        break;
    case LACKING:
        for (uint32_t i = 0; i < times; i++) sink += bench_all(l->bytes, 0, l->bytes, l->len);
        break;
    case DIFFER:
        for (uint32_t i = 0; i < times; i++)
            sink += bench_differ(l->bytes, l->len, l->equivalent, l->len);
        break;
    case PARSE: for (uint32_t i = 0; i < times; i++) sink += bench_parse(l->bytes, l->len); break;
    case EMIT: sink += bench_emit(l->bytes, l->len, l->out, l->len + 4096, times); break;
    case CANON:
        for (uint32_t i = 0; i < times; i++)
            sink += bench_canon(l->bytes, l->len, l->out, l->len + 4096);
        break;
    case SCAN:
        for (uint32_t i = 0; i < times; i++) sink += scan(l->bytes, l->len, 0, l->data);
        break;
    }
}

static double now(void) {
    struct timespec t;
    clock_gettime(CLOCK_MONOTONIC, &t);
    return t.tv_sec * 1e9 + t.tv_nsec;
}

static double once(const List *l, int operation, uint32_t times) {
    double start = now();
    run(l, operation, times);
    return (now() - start) / times;
}

// The minimum of many measurements, each of some 0.4 ms.
static double least(const List *l, int operation, int rounds) {
    once(l, operation, 200);
    uint32_t times = 400e3 / once(l, operation, 200) + 1;
    double best = 1e18;
    for (int r = 0; r < rounds; r++) {
        double nanoseconds = once(l, operation, times);
        if (nanoseconds < best) best = nanoseconds;
    }
    return best;
}

static List lists[64];
static int n_lists;

// Data that is framed as attributes gets a flag bit in the type of its first one, so that neither
// the list nor its data has the same bytes.
static void flag_data(List *l) {
    size_t at = 0;
    while (l->data != '-' && at + 8 <= l->len) {
        size_t len = l->flagged[at] | l->flagged[at + 1] << 8;
        size_t kind = (l->flagged[at + 2] | l->flagged[at + 3] << 8) & 0x3fff;
        if ((kind == 2 || kind == 5) && len >= 8) l->flagged[at + 7] ^= 0x80;
        if (len < 4) return;
        at += (len + 3) & ~(size_t)3;
    }
}

// The equivalent bytes have a flag bit of the first attribute's type set, which a known type
// ignores.
static List *add(const char *name, char data, const uint8_t *bytes, size_t len) {
    List *l = &lists[n_lists++];
    snprintf(l->name, sizeof l->name, "%s", name);
    l->data = data;
    l->len = len;
    l->bytes = malloc(len + 1);
    l->equal = malloc(len + 1);
    l->equivalent = malloc(len + 1);
    l->flagged = malloc(len + 1);
    l->out = malloc(len + 4096);
    memcpy(l->bytes, bytes, len);
    memcpy(l->equal, bytes, len);
    memcpy(l->equivalent, bytes, len);
    if (len > 3) l->equivalent[3] |= 0x80;
    memcpy(l->flagged, l->equivalent, len);
    flag_data(l);
    l->accepted = strncmp(name, "err-", 4) != 0;
    judge(l);
    return l;
}

static void load(const char *file) {
    static char line[1 << 18], hex[1 << 18];
    static uint8_t bytes[1 << 17];
    FILE *f = fopen(file, "r");
    if (!f) exit(2);
    while (fgets(line, sizeof line, f)) {
        char name[32], data;
        if (sscanf(line, "%31s %c %262143s", name, &data, hex) != 3) continue;
        size_t len = strlen(hex) / 2;
        for (size_t i = 0; i < len; i++) {
            unsigned byte;
            sscanf(hex + 2 * i, "%2x", &byte);
            bytes[i] = byte;
        }
        add(name, data, bytes, len);
    }
    fclose(f);
}

static void table(int rounds) {
    double sum[OPERATIONS] = {0};
    size_t bytes = 0;
    printf("%-14s %5s", "list", "bytes");
    for (int op = 0; op < OPERATIONS; op++) printf(" %8s", NAMES[op]);
    printf("  check/scan\n");
    for (int i = 0; i < n_lists; i++) {
        List *l = &lists[i];
        double each[OPERATIONS];
        printf("%-14s %5zu", l->name, l->len);
        for (int op = 0; op < OPERATIONS; op++) {
            if (op == EMIT && !l->accepted) { printf(" %8s", "-"); continue; }
            each[op] = least(l, op, rounds);
            /* (as it is printed) */
            if (l->accepted) sum[op] += round(each[op] * 10) / 10;
            printf(" %8.1f", each[op]);
        }
        if (l->accepted) bytes += l->len;
        printf(" %11.2f\n", each[CHECK] / each[SCAN]);
    }
    printf("%-14s %5zu", "sum", bytes);
    for (int op = 0; op < OPERATIONS; op++) printf(" %8.1f", sum[op]);
    printf(" %11.2f\n", sum[CHECK] / sum[SCAN]);
}

static void per_byte(const char *name, char data, const uint8_t *bytes, size_t len, int rounds) {
    n_lists = 0;
    List *l = add(name, data, bytes, len);
    printf("%-14s %5zu", l->name, l->len);
    for (int op = 0; op < OPERATIONS; op++) printf(" %8.3f", least(l, op, rounds) / len);
    printf("\n");
}

static void put(uint8_t *p, size_t len, size_t kind) {
    p[0] = len; p[1] = len >> 8; p[2] = kind; p[3] = kind >> 8;
}

static void grow(int rounds) {
    static uint8_t bytes[70000];
    printf("%-14s %5s", "ns a byte", "bytes");
    for (int op = 0; op < OPERATIONS; op++) printf(" %8s", NAMES[op]);
    printf("\n");
    for (size_t want = 256; want <= 65536; want *= 4) {
        size_t n = 16, end = want < 65536 ? want : 65500;
        memcpy(bytes, "\x0a\0\1\0vxlan\0\0\0", 12);
        for (; n + 16 < end; n += 8) {
            put(bytes + n, 8, 1 + n / 8 % 2);
            memset(bytes + n + 4, 7, 4);
        }
        put(bytes + 12, n - 12, 2);
        per_byte("vxlan", 'a', bytes, n, rounds);
    }
    for (size_t want = 256; want <= 65536; want *= 4) {
        size_t n = 0;
        for (; n + 16 < want && n < 65500; n += 16) {
            put(bytes + n, 16, 100 + n / 16 % 50);
            memset(bytes + n + 4, 7, 12);
        }
        per_byte("unknown", '-', bytes, n, rounds);
    }
    for (size_t depth = 1; depth <= 128; depth *= 2) {
        size_t n = 16, total = 4 * depth + 12;
        memcpy(bytes, "\x0c\0\1\0macvlan\0", 12);
        put(bytes + 12, 4 + total, 2);
        for (size_t i = 0; i < depth; i++, n += 4) put(bytes + n, total - 4 * i, 5);
        put(bytes + n, 10, 4);
        memcpy(bytes + n + 4, "\2\0\0\0\0\1\0\0", 8);
        char name[32];
        snprintf(name, sizeof name, "depth %zu", depth);
        per_byte(name, 'n', bytes, n + 12, rounds);
    }
}

// Of emit, the dump "-NAME" has one parse and 100 encodings, and the other one parse and 300.
static void count(void) {
    for (int i = 0; i < n_lists; i++)
        for (int op = 0; op < OPERATIONS; op++) {
            List *l = &lists[i];
            char name[64], less[65];
            if (op == EMIT && !l->accepted) continue;
            snprintf(name, sizeof name, "%.31s %s", l->name, NAMES[op]);
            snprintf(less, sizeof less, "-%s", name);
            run(l, op, 50);
            if (op == EMIT) {
                CALLGRIND_ZERO_STATS;
                run(l, op, 100);
                CALLGRIND_DUMP_STATS_AT(less);
            }
            CALLGRIND_ZERO_STATS;
            run(l, op, op == EMIT ? 300 : 200);
            CALLGRIND_DUMP_STATS_AT(name);
        }
}

int main(int argc, char **argv) {
    if (argc < 3) return 2;
    load(argv[1]);
    int rounds = argc > 3 ? atoi(argv[3]) : 100;
    if (!strcmp(argv[2], "time")) table(rounds);
    else if (!strcmp(argv[2], "grow")) grow(rounds);
    else if (!strcmp(argv[2], "count")) count();
    else return 2;
    return 0;
}
