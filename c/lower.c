/* Lowers the tree on standard input, and says what came of it, or why nothing did. The status is the answer. A number may
 * be given, which is the depth limit.
 *
 *     cc lower.c ../target/staticlib/librest_spread.a -o lower && ./lower [DEPTH] < FILE */
#include "rest_spread.h"
#include <stdio.h>
#include <stdlib.h>

/* One byte more than a tree may have, so that one that is too long is seen to be. */
static uint8_t in[REST_SPREAD_TREE_IN + 1];
static uint8_t tree[REST_SPREAD_TREE_OUT], list[REST_SPREAD_LIST_OUT], work[REST_SPREAD_WORK];

static const char *why(uint8_t answer, size_t len) {
    switch (answer) {
    case REST_SPREAD_UNKNOWN_OPTIONS: return "the options are above 15";
    case REST_SPREAD_SHORT_WORK: return "the work is shorter than 65,536 bytes";
    case REST_SPREAD_NOT_A_TREE:
        return len == 0 ? "the input is empty"
               : len > REST_SPREAD_TREE_IN ? "the input is longer than 16,384 bytes" : "the input is not a tree";
    case REST_SPREAD_TOO_DEEP: return "the tree is nested deeper than the limit, which is 128 if none was given";
    case REST_SPREAD_REST_BELOW_ARRAY_REST:
        return "an assignment or a for head takes an object rest from below an array rest";
    case REST_SPREAD_KEY_WITHOUT_FORM: return "an excluded key is a literal without its string form";
    case REST_SPREAD_OTHER_FORM: return "an excluded key is a number with a string form that is not its own";
    case REST_SPREAD_TOO_LONG: return "the lowered tree is longer than 32,768 bytes, or its list than 16,384";
    case REST_SPREAD_LIMIT_OUTSIDE: return "the depth limit is 0 or above 128";
    default: return "for a reason that this program does not know";
    }
}

int main(int count, char **words) {
    if (rest_spread_version() != REST_SPREAD_VERSION) {
        fprintf(stderr, "the archive is of version %u, the header of %u\n", (unsigned)rest_spread_version(),
                (unsigned)REST_SPREAD_VERSION);
        return 70;
    }
    size_t len = fread(in, 1, sizeof in, stdin);
    struct rest_spread_lowered r;
    if (count > 1) {
        unsigned long depth = strtoul(words[1], NULL, 10);
        r = rest_spread_lower_within(depth > UINT32_MAX ? UINT32_MAX : (uint32_t)depth, 0, in, len, tree, sizeof tree,
                                     list, sizeof list, work, sizeof work);
    } else {
        r = rest_spread_lower(0, in, len, tree, sizeof tree, list, sizeof list, work, sizeof work);
    }
    if (r.answer != REST_SPREAD_LOWERED) {
        fprintf(stderr, "refused with %d: %s\n", r.answer, why(r.answer, len));
        return r.answer;
    }
    printf("lowered: helpers %d, tree of %zu bytes, list of %zu\n", r.helpers, r.tree_len, r.list_len);
    return 0;
}
