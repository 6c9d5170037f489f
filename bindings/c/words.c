/* Counts the words of a text, prints the parts of each date in it, and writes the dates in another way. */
#include "nfa.h"
#include <stdio.h>

static bool compile(nfa_regex *re, const char *pattern) {
    nfa_error error;
    if (nfa_compile(re, pattern, strlen(pattern), NULL, &error) == NFA_OK)
        return true;
    fprintf(stderr, "%s\n", nfa_error_message(&error));
    return false;
}

static size_t count_words(nfa_regex *word, const char *text, size_t len) {
    nfa_iter iter = NFA_ITER_INIT;
    nfa_match m;
    size_t count = 0;
    while (nfa_iter_next(&iter, word, text, len, &m) == NFA_FOUND)
        count++;
    return count;
}

static void print_dates(nfa_regex *date, const char *text, size_t len) {
    nfa_iter iter = NFA_ITER_INIT;
    nfa_match all, year;
    size_t slots[8], number = 0;
    nfa_capture_name_index(date, "year", 4, &number);
    while (nfa_iter_next_captures(&iter, date, text, len, slots, 8) == NFA_FOUND)
        if (nfa_captures_at(slots, 8, 0, &all) && nfa_captures_at(slots, 8, number, &year))
            printf("%.*s: %.*s\n", (int)(all.end - all.start), text + all.start, (int)(year.end - year.start),
                   text + year.start);
}

/* The first call asks how long the text will be, and the second writes it. */
static bool print_replaced(nfa_regex *date, const char *text, size_t len) {
    const char *with = "$3.$2.$year";
    size_t count = 0;
    char *made;
    bool done;
    if (nfa_replace_all(date, text, len, with, strlen(with), NULL, 0, &count) != NFA_OK)
        return false;
    made = (char *)malloc(count + 1);
    done = made != NULL && nfa_replace_all(date, text, len, with, strlen(with), made, count, &count) == NFA_OK;
    if (done)
        printf("%.*s\n", (int)count, made);
    free(made);
    return done;
}

int main(int argc, char **argv) {
    const char *text = argc > 1 ? argv[1] : "on 2024-02-29 and 2025-01-31";
    size_t len = strlen(text);
    nfa_regex word = NFA_REGEX_INIT, date = NFA_REGEX_INIT;
    bool done = compile(&word, "\\w+") && compile(&date, "(?P<year>\\d{4})-(\\d\\d)-(\\d\\d)");
    if (done) {
        printf("%zu words\n", count_words(&word, text, len));
        print_dates(&date, text, len);
        done = print_replaced(&date, text, len);
    }
    nfa_free(&word);
    nfa_free(&date);
    return done ? 0 : 2;
}
