/* Searches standard input over and over, to be timed: `rounds CALL PATTERN ROUNDS` prints how many matches there are.
 * The calls are find_iter, is-match, find, shortest and captures. */
#include "nfa.h"
#include <stdio.h>

enum { SLOTS = 4 };

/* All matches of the text, or one by this call. */
static size_t count_by(const char *call, nfa_regex *re, const char *text, size_t len, size_t *sum) {
    nfa_iter iter = NFA_ITER_INIT;
    nfa_match m = {0, 0, 0};
    size_t slots[SLOTS], count = 0;
    switch (call[0]) {
    case 'i':
        return (size_t)nfa_is_match(re, text, len, 0);
    case 's':
        return (size_t)nfa_shortest_match(re, text, len, 0, sum);
    case 'c':
        return (size_t)nfa_find_captures(re, text, len, 0, slots, SLOTS);
    default:
        if (strcmp(call, "find") == 0)
            return (size_t)nfa_find(re, text, len, 0, &m);
        while (nfa_iter_next(&iter, re, text, len, &m) == NFA_FOUND) {
            count++;
            *sum += m.end;
        }
        return count;
    }
}

int main(int argc, char **argv) {
    static char text[1 << 20];
    nfa_regex re = NFA_REGEX_INIT;
    size_t len = fread(text, 1, sizeof text, stdin), count = 0, sum = 0;
    if (argc != 4 || nfa_compile(&re, argv[2], strlen(argv[2]), NULL, NULL) != NFA_OK)
        return 2;
    for (long round = atol(argv[3]); round > 0; round--)
        count += count_by(argv[1], &re, text, len, &sum);
    nfa_free(&re);
    printf("%zu matches, and the sum of their ends is %zu\n", count, sum);
    return 0;
}
