// Measures lowering: bench SECONDS FILE.. with a tree in each file. Links librest_spread.a.
// A line for each tree: its name and length, the answer, both lengths of the result, how many calls, the least and the
// middle time of a call in microseconds, and the least time of clearing and copying the same buffers. Times are the
// thread's time on the processor, so that other programs count for little.
// Before that each lent byte is looked at once: zeros behind the lengths, and in work.
#include <stdint.h>
#include <stdio.h>
#include <stdlib.h>
#include <string.h>
#include <time.h>

struct lowered {
    uint8_t answer, helpers, options;
    size_t tree_len, list_len;
};

struct lowered rest_spread_lower(uint32_t options, const uint8_t *tree, size_t tree_len, uint8_t *out, size_t out_len,
                                 uint8_t *list, size_t list_len, uint8_t *work, size_t work_len);

enum { TREE = 16384, OUT = 32768, LIST = 16384, WORK = 65536, MOST = 100000, TOGETHER = 20 };

static uint8_t tree[TREE + 1], out[OUT], list[LIST], work[WORK];
static size_t len;
static uint64_t times[MOST];

static uint64_t now(void) {
    struct timespec t;
    clock_gettime(CLOCK_THREAD_CPUTIME_ID, &t);
    return t.tv_sec * 1000000000ull + t.tv_nsec;
}

static struct lowered lower(void) {
    return rest_spread_lower(0, tree, len, out, OUT, list, LIST, work, WORK);
}

static int rising(const void *a, const void *b) {
    uint64_t x = *(const uint64_t *)a, y = *(const uint64_t *)b;
    return (x > y) - (x < y);
}

static int is_zero(const uint8_t *from, size_t count) {
    for (size_t i = 0; i < count; i++)
        if (from[i]) return 0;
    return 1;
}

static struct lowered first_call(const char *name) {
    memset(out, 7, OUT);
    memset(list, 7, LIST);
    memset(work, 7, WORK);
    struct lowered got = lower();
    if (!is_zero(out + got.tree_len, OUT - got.tree_len) || !is_zero(list + got.list_len, LIST - got.list_len) ||
        !is_zero(work, WORK)) {
        printf("%s: a lent byte is not 0\n", name);
        exit(1);
    }
    return got;
}

// What any lowering has to do to the buffers: all cleared, the tree written. So many times together, since it takes little
// longer than reading the clock.
static uint64_t cleared_and_copied(void) {
    uint64_t start = now();
    for (int i = 0; i < TOGETHER; i++) {
        memset(out, 0, OUT);
        memset(list, 0, LIST);
        memset(work, 0, WORK);
        __asm__ volatile("" ::: "memory");
        memcpy(out, tree, len);
        __asm__ volatile("" ::: "memory");
    }
    return (now() - start) / TOGETHER;
}

static void measure(const char *path, double seconds) {
    const char *slash = strrchr(path, '/'), *name = slash ? slash + 1 : path;
    FILE *file = fopen(path, "rb");
    if (!file) exit(2);
    len = fread(tree, 1, sizeof tree, file);
    fclose(file);
    struct lowered got = first_call(name);
    uint64_t least = UINT64_MAX;
    for (int i = 0; i < 100; i++) {
        uint64_t time = cleared_and_copied();
        if (time < least) least = time;
    }
    size_t count = 0;
    for (uint64_t begin = now(); count < MOST && (count < 3 || now() - begin < seconds * 1e9); count++) {
        uint64_t start = now();
        lower();
        times[count] = now() - start;
    }
    qsort(times, count, sizeof *times, rising);
    printf("%s %zu %d %zu %zu %zu %.2f %.2f %.2f\n", name, len, got.answer, got.tree_len, got.list_len, count, times[0] / 1e3,
           times[count / 2] / 1e3, least / 1e3);
    fflush(stdout);
}

int main(int count, char **words) {
    if (count < 3) return 2;
    for (int i = 2; i < count; i++) measure(words[i], atof(words[1]));
    return 0;
}
