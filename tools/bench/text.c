// Measures the text of rewritten trees: text SECONDS FILE.. with a tree in each file. Links libprinter.a and librest_spread.a.
// A line for each tree: its name and length, the answer, the length of the text, how many rounds, and the median and the least
// time of printing, of copying the text, and of lowering (0 where the tree is longer than that takes), in microseconds. In each
// round all trees are printed, copied and lowered by turns. Times are the thread's time on the processor.
#include <stdint.h>
#include <stdio.h>
#include <stdlib.h>
#include <string.h>
#include <time.h>

struct printed {
    uint8_t answer;
    size_t text_len;
};

struct lowered {
    uint8_t answer, helpers, options;
    size_t tree_len, list_len;
};

struct printed rest_spread_text(const uint8_t *tree, size_t tree_len, uint8_t *text, size_t text_len);
struct lowered rest_spread_lower(uint32_t options, const uint8_t *tree, size_t tree_len, uint8_t *out, size_t out_len,
                                 uint8_t *list, size_t list_len, uint8_t *work, size_t work_len);

enum { TREE = 32768, TEXT = 294912, INPUT = 16384, OUT = 32768, LIST = 16384, WORK = 65536, MOST = 64, TOGETHER = 20, ROUNDS = 50000 };

static uint8_t text[TEXT], copy[TEXT], out[OUT], list[LIST], work[WORK];

struct one {
    const char *name;
    uint8_t tree[TREE + 1];
    size_t len;
    struct printed got;
    uint32_t print[ROUNDS], copied[ROUNDS], lower[ROUNDS];
};

static struct one all[MOST];

static uint64_t now(void) {
    struct timespec t;
    clock_gettime(CLOCK_THREAD_CPUTIME_ID, &t);
    return t.tv_sec * 1000000000ull + t.tv_nsec;
}

static uint32_t since(uint64_t start, int times) {
    return (now() - start) / times;
}

static int order(const void *a, const void *b) {
    uint32_t x = *(const uint32_t *)a, y = *(const uint32_t *)b;
    return (x > y) - (x < y);
}

static void say(uint32_t *times, int rounds) {
    qsort(times, rounds, sizeof *times, order);
    printf(" %.2f %.2f", times[rounds / 2] / 1e3, times[0] / 1e3);
}

static void read_tree(struct one *o, const char *path) {
    const char *slash = strrchr(path, '/');
    FILE *file = fopen(path, "rb");
    if (!file) exit(2);
    o->name = slash ? slash + 1 : path;
    o->len = fread(o->tree, 1, sizeof o->tree, file);
    fclose(file);
}

static void round_of(struct one *o, int round) {
    uint64_t start = now();
    o->got = rest_spread_text(o->tree, o->len, text, TEXT);
    o->print[round] = since(start, 1);
    start = now();
    for (int i = 0; i < TOGETHER; i++) {
        memcpy(copy, text, o->got.text_len);
        __asm__ volatile("" ::: "memory");
    }
    o->copied[round] = since(start, TOGETHER);
    if (o->len > INPUT) return;
    start = now();
    rest_spread_lower(0, o->tree, o->len, out, OUT, list, LIST, work, WORK);
    o->lower[round] = since(start, 1);
}

int main(int count, char **words) {
    if (count < 3 || count - 2 > MOST) return 2;
    for (int i = 2; i < count; i++) read_tree(&all[i - 2], words[i]);
    int rounds = 0;
    for (uint64_t begin = now(); rounds < 3 || (rounds < ROUNDS && now() - begin < atof(words[1]) * 1e9); rounds++)
        for (int i = 0; i < count - 2; i++) round_of(&all[i], rounds);
    for (int i = 0; i < count - 2; i++) {
        struct one *o = &all[i];
        printf("%s %zu %d %zu %d", o->name, o->len, o->got.answer, o->got.text_len, rounds);
        say(o->print, rounds);
        say(o->copied, rounds);
        say(o->lower, rounds);
        puts("");
    }
    return 0;
}
