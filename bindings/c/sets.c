/* Calls the functions of nfa.h for sets, and those that make texts. Prints "sets: passed", or what failed. */
#include "nfa.h"
#include "want.h"
#include <string.h>

static void sets(void) {
    nfa_set set = NFA_SET_INIT, copy = NFA_SET_INIT;
    const void *patterns[] = {"[a-z]+", "[0-9]+", "foo", NULL};
    size_t lens[] = {6, 6, 3, 0};
    uint8_t marks[5] = {9, 9, 9, 9, 9};
    WANT(nfa_set_len(&set) == 0 && nfa_set_is_match(&set, "a", 1, 0) == NFA_EMPTY);
    WANT(nfa_set_matches(&set, "a", 1, 0, marks, 5) == NFA_EMPTY && marks[0] == 9);
    WANT(nfa_set_clone(&set, &copy) == NFA_EMPTY);
    WANT(nfa_compile_set(&set, patterns, lens, 3, NULL, NULL) == NFA_OK && nfa_set_len(&set) == 3);
    WANT(nfa_set_is_match(&set, "- a", 3, 0) == NFA_FOUND && nfa_set_is_match(&set, "-", 1, 0) == NFA_NONE);
    WANT(nfa_set_matches(&set, "a foo", 5, 0, marks, 5) == NFA_FOUND);
    WANT(marks[0] == 1 && marks[1] == 0 && marks[2] == 1 && marks[3] == 0 && marks[4] == 0);
    WANT(nfa_set_matches(&set, "foo 1", 5, 1, marks, 2) == NFA_FOUND && marks[0] == 1 && marks[1] == 1);
    WANT(nfa_set_matches(&set, "foo -", 5, 3, NULL, 0) == NFA_NONE && nfa_set_is_match(&set, "a", 1, 2) == NFA_RANGE);
    WANT(nfa_set_clone(&set, &copy) == NFA_OK && nfa_set_clone(&set, &set) == NFA_ARGUMENT);
    nfa_set_free(&set);
    nfa_set_free(&set);
    WANT(nfa_set_is_match(&set, "1", 1, 0) == NFA_EMPTY && nfa_set_is_match(&copy, "1", 1, 0) == NFA_FOUND);
    WANT(nfa_compile_set(&copy, patterns, lens, 4, NULL, NULL) == NFA_OK);
    WANT(nfa_set_is_match(&copy, NULL, 0, 0) == NFA_FOUND);
    WANT(nfa_compile_set(&copy, NULL, NULL, 0, NULL, NULL) == NFA_OK && nfa_set_len(&copy) == 0);
    WANT(nfa_set_is_match(&copy, "a", 1, 0) == NFA_NONE && nfa_set_matches(&copy, "a", 1, 0, marks, 5) == NFA_NONE);
    nfa_set_free(&copy);
    nfa_set_free(NULL);
}

static void set_errors(void) {
    nfa_set set = NFA_SET_INIT;
    nfa_error error;
    const void *patterns[] = {"ab", "c(", "\xc3"};
    size_t lens[] = {2, 2, 1}, ends[] = {3, 2}, past[] = {2, 5};
    nfa_options none = NFA_OPTIONS_INIT;
    WANT(nfa_compile_set(&set, patterns, lens, 2, NULL, &error) == NFA_PATTERN && nfa_set_len(&set) == 0);
    WANT(error.place.pattern == 1 && error.place.start == 1 && strncmp(error.message, "pattern 1, at 1..", 17) == 0);
    WANT(nfa_compile_set(&set, patterns + 2, lens + 2, 1, NULL, &error) == NFA_UTF8 && error.place.start == NFA_UNSET);
    WANT(strcmp(nfa_error_message(&error), "a pattern is not UTF-8") == 0);
    WANT(nfa_compile_set(&set, patterns, NULL, 1, NULL, &error) == NFA_ARGUMENT && error.code == NFA_ARGUMENT);
    WANT(nfa_compile_set(NULL, patterns, lens, 1, NULL, NULL) == NFA_ARGUMENT);
    WANT(nfa_regex_set_new_with(&set, (const uint8_t *)"abcd", 4, ends, 2, &none) == NFA_RANGE);
    WANT(nfa_regex_set_new_with(&set, (const uint8_t *)"abcd", 4, past, 2, &none) == NFA_RANGE);
    WANT(nfa_regex_set_why((const uint8_t *)"abcd", 4, ends, 2, &none, (uint8_t *)error.message, 4) == 71);
}

static void replacing(void) {
    nfa_regex re = NFA_REGEX_INIT;
    char text[32];
    size_t count = 7;
    const char *pattern = "(?P<y>[0-9]{4})-(?P<m>[0-9]{2})", *hay = "2026-11, 2027-01";
    WANT(nfa_replace_all(&re, hay, 16, "$m", 2, text, 32, &count) == NFA_EMPTY && count == 7);
    WANT(nfa_compile(&re, pattern, strlen(pattern), NULL, NULL) == NFA_OK);
    WANT(nfa_replace_all(&re, hay, 16, "$m/$y", 5, NULL, 0, &count) == NFA_OK && count == 16);
    WANT(nfa_replace_all(&re, hay, 16, "$m/$y", 5, text, 32, &count) == NFA_OK);
    WANT(count == 16 && memcmp(text, "11/2026, 01/2027", 16) == 0);
    WANT(nfa_replace_all(&re, hay, 16, "${2}$$", 6, text, 4, &count) == NFA_OK && count == 8);
    WANT(memcmp(text, "11$,026,", 8) == 0);
    count = 7;
    WANT(nfa_replace_all(&re, hay, 16, "$x", 2, text, 32, &count) == NFA_TEMPLATE && count == 7 && text[0] == '1');
    WANT(nfa_replace_all(&re, hay, 16, "${m", 3, text, 32, &count) == NFA_TEMPLATE);
    WANT(nfa_replace_all(&re, hay, 16, "", 0, NULL, 1, &count) == NFA_ARGUMENT);
    nfa_free(&re);
}

static void escaping(void) {
    char text[16];
    size_t count = 7;
    nfa_regex re = NFA_REGEX_INIT;
    nfa_match m;
    WANT(nfa_escape("a.b*", 4, text, 16, &count) == NFA_OK && count == 6 && memcmp(text, "a\\.b\\*", 6) == 0);
    WANT(nfa_compile(&re, text, count, NULL, NULL) == NFA_OK);
    WANT(nfa_find(&re, "xa.b*", 5, 0, &m) == NFA_FOUND && m.start == 1);
    WANT(nfa_escape("\xff", 1, text, 16, &count) == NFA_UTF8 && count == 6);
    WANT(nfa_escape(NULL, 0, NULL, 0, &count) == NFA_OK && count == 0);
    nfa_free(&re);
}

static void names(void) {
    char text[16];
    size_t count = 7, len = 7, groups = 0;
    const char *name = NULL;
    nfa_iter_capture_names iter;
    WANT(nfa_capture_names("(?P<a>x)(y)(?<bc>z)", 19, NULL, NULL, 0, &count) == NFA_OK && count == 7);
    WANT(nfa_capture_names("(?P<a>x)(y)(?<bc>z)", 19, NULL, text, 16, &count) == NFA_OK);
    WANT(count == 7 && memcmp(text, "\na\n\nbc\n", 7) == 0);
    iter = nfa_iter_capture_names_new(text, count);
    while (nfa_iter_capture_names_next(&iter, &name, &len))
        groups++;
    WANT(groups == 4 && len == 2 && memcmp(name, "bc", 2) == 0);
    WANT(nfa_capture_names("(", 1, NULL, text, 16, &count) == NFA_PATTERN && count == 7);
    WANT(nfa_capture_names("\xff", 1, NULL, text, 16, &count) == NFA_UTF8);
}

int main(void) {
    sets();
    set_errors();
    replacing();
    escaping();
    names();
    if (!failed)
        printf("sets: passed\n");
    return failed;
}
