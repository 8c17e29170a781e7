// Measures joining beside lowering: join SECONDS FILE.. with a tree in each file, then the worst trees and lists that were
// found. Links librest_spread.a and libjoining.a.
// A line for each tree: its name and length, the lengths of its result and list, how many entries, the times of a call of the
// lowering and of the joining in microseconds, by turns: those that a twentieth of the calls stay below, since the least ones
// may be faults of the clock. For the worst ones: name, statements, entries, the answer and the least time of joining. Times
// are the thread's time on the processor.
#include <stdint.h>
#include <stdio.h>
#include <stdlib.h>
#include <string.h>
#include <time.h>

#include "../../c/rest_spread.h"

enum { STATEMENTS = 8000, ENTRIES = 4095, CALLS = 100000 };

static uint8_t tree[REST_SPREAD_TREE_IN + 1], out[REST_SPREAD_TREE_OUT], list[REST_SPREAD_LIST_OUT], work[REST_SPREAD_WORK];
static uint8_t joined[REST_SPREAD_TREE_OUT];
static uint64_t lowering[CALLS], joining[CALLS];

static uint64_t now(void) {
    struct timespec t;
    clock_gettime(CLOCK_THREAD_CPUTIME_ID, &t);
    return t.tv_sec * 1000000000ull + t.tv_nsec;
}

static uint64_t timed_join(size_t tree_len, size_t list_len, struct rest_spread_joined *got) {
    uint64_t start = now();
    *got = rest_spread_join(out, tree_len, list, list_len, joined, sizeof joined);
    return now() - start;
}

static uint64_t least(uint64_t a, uint64_t b) {
    return a < b ? a : b;
}

static int by_size(const void *a, const void *b) {
    uint64_t x = *(const uint64_t *)a, y = *(const uint64_t *)b;
    return (x > y) - (x < y);
}

static double low(uint64_t *times, size_t n) {
    qsort(times, n, sizeof *times, by_size);
    return times[n / 20] / 1e3;
}

static void measure(const char *path, double seconds) {
    const char *slash = strrchr(path, '/'), *name = slash ? slash + 1 : path;
    FILE *file = fopen(path, "rb");
    if (!file) exit(2);
    size_t len = fread(tree, 1, sizeof tree, file);
    fclose(file);
    size_t calls = 0;
    struct rest_spread_lowered got;
    struct rest_spread_joined after;
    uint64_t begin = now();
    do {
        uint64_t start = now();
        got = rest_spread_lower(0, tree, len, out, sizeof out, list, sizeof list, work, sizeof work);
        lowering[calls] = now() - start;
        joining[calls++] = timed_join(got.tree_len, got.list_len, &after);
    } while (calls < CALLS && now() - begin < seconds * 1e9);
    if (got.answer || after.answer) exit(1);
    int entries = list[0] + 256 * list[1];
    printf("%s %zu %zu %zu %d ", name, len, got.tree_len, got.list_len, entries);
    printf("%.1f %.1f\n", low(lowering, calls), low(joining, calls));
}

static void wide(uint8_t *to, size_t n) {
    to[0] = n % 256;
    to[1] = n / 256;
}

// As many `return;` as said, and an entry without declarators for each of the first ones, or for the first, or for the last.
static void worst(const char *name, size_t (*mark)(size_t)) {
    memset(out, 0, sizeof out);
    memset(list, 0, sizeof list);
    wide(out, 0x0101);
    wide(out + 2, STATEMENTS);
    for (size_t i = 0; i < STATEMENTS; i++) {
        wide(out + 4 + 4 * i, 0x010b);
        wide(out + 6 + 4 * i, i + 1);
    }
    wide(list, ENTRIES);
    for (size_t i = 0; i < ENTRIES; i++) wide(list + 2 + 4 * i, mark(i));
    uint64_t time = UINT64_MAX;
    struct rest_spread_joined got;
    for (int i = 0; i < 5; i++) time = least(time, timed_join(4 + 4 * STATEMENTS, 4 + 4 * ENTRIES, &got));
    printf("%s %d %d %d %.1f\n", name, STATEMENTS, ENTRIES, got.answer, time / 1e3);
}

static size_t first(size_t i) {
    return 1 + 0 * i;
}

static size_t last(size_t i) {
    return STATEMENTS + 0 * i;
}

static size_t each(size_t i) {
    return 1 + i;
}

int main(int count, char **words) {
    if (count < 2) return 2;
    for (int i = 2; i < count; i++) measure(words[i], atof(words[1]));
    worst("first", first);
    worst("last", last);
    worst("each", each);
    return 0;
}
