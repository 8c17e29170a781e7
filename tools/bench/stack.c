// Measures the stack of a call: on standard input come cases, each an options byte, a 16-bit length and a tree. Links
// librest_spread.a. A line for each case: the answer, and how many bytes of stack the call took. It runs on a stack of its
// own, which is filled beforehand with a byte that is looked for afterwards.
#define _XOPEN_SOURCE 700
#include "../../c/rest_spread.h"
#include <stdint.h>
#include <stdio.h>
#include <stdlib.h>
#include <string.h>
#include <ucontext.h>

enum { STACK = 8 << 20, DIRT = 0xa5 };

static uint8_t tree[65536], out[REST_SPREAD_TREE_OUT], list[REST_SPREAD_LIST_OUT], work[REST_SPREAD_WORK];
static uint8_t *stack;
static uint32_t options;
static size_t len;
static struct rest_spread_lowered got;
static uint8_t *begin;
static ucontext_t back, there;

static void call(void) {
    begin = __builtin_frame_address(0);
    got = rest_spread_lower(options, tree, len, out, sizeof out, list, sizeof list, work, sizeof work);
}

// Fills the part of the stack that the last call used, and calls.
static size_t taken(size_t before) {
    memset(stack + STACK - before, DIRT, before);
    getcontext(&there);
    there.uc_stack.ss_sp = stack;
    there.uc_stack.ss_size = STACK;
    there.uc_link = &back;
    makecontext(&there, call, 0);
    swapcontext(&back, &there);
    uint8_t *at = stack;
    while (*at == DIRT) at++;
    return begin - at;
}

int main(void) {
    stack = malloc(STACK);
    if (!stack) return 1;
    size_t before = STACK;
    int first;
    while ((first = getchar()) != EOF) {
        int low = getchar(), high = getchar();
        options = first;
        len = low | high << 8;
        if (high == EOF || fread(tree, 1, len, stdin) != len) return 1;
        size_t used = taken(before);
        printf("%d %zu\n", got.answer, used);
        before = used + 4096 < STACK ? used + 4096 : STACK;
    }
    return 0;
}
