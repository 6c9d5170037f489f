/* Two threads search with a clone each, which the main thread makes and frees. A third compiles a pattern for itself,
 * and frees a handle that the main thread made. Prints "threads: passed". */
#include "nfa.h"
#include <pthread.h>
#include <stdio.h>

static const char hay[] = "foo12 a bar7 - baz";

/* Finds all matches many times, and leaves null if there are as many as there should be. */
static void *search(void *argument) {
    nfa_regex *re = (nfa_regex *)argument;
    for (int round = 0; round < 200; round++) {
        nfa_iter iter = NFA_ITER_INIT;
        size_t slots[4], count = 0;
        while (nfa_iter_next_captures(&iter, re, hay, sizeof hay - 1, slots, 4) == NFA_FOUND)
            count++;
        if (count != 4)
            return argument;
    }
    return NULL;
}

/* Searches by a handle of its own, and frees it and the one that it is given. */
static void *compile_and_search(void *argument) {
    nfa_regex own = NFA_REGEX_INIT;
    void *wrong = argument;
    if (nfa_compile(&own, "([a-z]+)[0-9]*", 14, NULL, NULL) == NFA_OK && search(&own) == NULL)
        wrong = search(argument);
    nfa_free(&own);
    nfa_free((nfa_regex *)argument);
    return wrong;
}

int main(void) {
    nfa_regex re = NFA_REGEX_INIT, given = NFA_REGEX_INIT, clones[2] = {NFA_REGEX_INIT, NFA_REGEX_INIT};
    pthread_t threads[2], third;
    void *wrong = NULL;
    if (nfa_compile(&re, "([a-z]+)[0-9]*", 14, NULL, NULL) != NFA_OK)
        return 1;
    for (int k = 0; k < 2; k++)
        if (nfa_clone(&re, &clones[k]) != NFA_OK || pthread_create(&threads[k], NULL, search, &clones[k]) != 0)
            return 1;
    if (nfa_clone(&re, &given) != NFA_OK || pthread_create(&third, NULL, compile_and_search, &given) != 0)
        return 1;
    if (search(&re) != NULL)
        return 1;
    pthread_join(third, &wrong);
    if (wrong != NULL || nfa_is_match(&given, hay, sizeof hay - 1, 0) != NFA_EMPTY)
        return 1;
    for (int k = 0; k < 2; k++) {
        pthread_join(threads[k], &wrong);
        nfa_free(&clones[k]);
        if (wrong != NULL)
            return 1;
    }
    nfa_free(&re);
    printf("threads: passed\n");
    return 0;
}
