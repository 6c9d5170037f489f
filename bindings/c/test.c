/* Calls each function of nfa.h for one pattern, once in each way that it answers. Prints "c: passed", or what
 * failed. */
#include "nfa.h"
#include "want.h"
#include <string.h>

static const char hay[] = "foo12 a bar7";
enum { LEN = sizeof hay - 1 };

static void empty_handles(void) {
    nfa_regex re = NFA_REGEX_INIT, to = NFA_REGEX_INIT;
    nfa_match m = {9, 9, 9};
    size_t slots[2] = {5, 5}, offset = 3;
    WANT(nfa_find(&re, hay, LEN, 0, &m) == NFA_EMPTY && m.start == 9);
    WANT(nfa_is_match(&re, hay, LEN, 0) == NFA_EMPTY);
    WANT(nfa_shortest_match(&re, hay, LEN, 0, &offset) == NFA_EMPTY && offset == 3);
    WANT(nfa_find_captures(&re, hay, LEN, 0, slots, 2) == NFA_EMPTY && slots[0] == 5);
    WANT(nfa_capture_name_index(&re, "x", 1, &offset) == NFA_EMPTY && offset == 3);
    WANT(nfa_regex_slot_count(&re) == 0 && nfa_regex_pattern_count(&re) == 0);
    WANT(nfa_clone(&re, &to) == NFA_EMPTY);
    nfa_free(&re);
    WANT(nfa_is_match(&re, hay, LEN, 0) == NFA_EMPTY);
}

static void errors(void) {
    nfa_regex re = NFA_REGEX_INIT;
    nfa_match m = {9, 9, 9};
    size_t at = 3;
    WANT(nfa_compile(&re, "a", 1, NULL, NULL) == NFA_OK);
    WANT(nfa_compile(&re, "(a", 2, NULL, NULL) == NFA_PATTERN && nfa_regex_slot_count(&re) == 0);
    WANT(nfa_compile(&re, "\xff", 1, NULL, NULL) == NFA_UTF8 && nfa_regex_slot_count(&re) == 0);
    WANT(nfa_compile(NULL, "a", 1, NULL, NULL) == NFA_ARGUMENT);
    WANT(nfa_compile(&re, NULL, 1, NULL, NULL) == NFA_ARGUMENT);
    WANT(nfa_compile(&re, "a", SIZE_MAX, NULL, NULL) == NFA_ARGUMENT);
    WANT(nfa_compile(&re, NULL, 0, NULL, NULL) == NFA_OK && nfa_find(&re, NULL, 0, 0, &m) == NFA_FOUND && m.end == 0);
    WANT(nfa_find(&re, hay, (size_t)PTRDIFF_MAX + 1, 0, &m) == NFA_ARGUMENT);
    WANT(nfa_find(&re, hay, LEN, 0, NULL) == NFA_ARGUMENT);
    WANT(nfa_find_captures(&re, hay, LEN, 0, &at, SIZE_MAX / 8) == NFA_ARGUMENT);
    WANT(nfa_find_captures(&re, hay, LEN, 0, NULL, 0) == NFA_FOUND);
    WANT(nfa_clone(&re, &re) == NFA_ARGUMENT);
    WANT(nfa_find(&re, hay, LEN, LEN + 1, &m) == NFA_RANGE);
    WANT(nfa_regex_find(&re, (const uint8_t *)hay, LEN, 3, 2, &m) == NFA_RANGE);
    WANT(nfa_regex_is_match(&re, (const uint8_t *)hay, LEN, 0, LEN + 1) == NFA_RANGE);
    WANT(nfa_capture_name_index(&re, "\xff", 1, &at) == NFA_UTF8 && at == 3);
    nfa_free(&re);
    nfa_free(&re);
    nfa_free(NULL);
    WANT(nfa_find(&re, hay, LEN, 0, &m) == NFA_EMPTY);
}

static void messages(void) {
    char message[64], little[8];
    nfa_regex re = NFA_REGEX_INIT;
    nfa_options set = {0, 1000, 0, 0};
    nfa_error error;
    WANT(nfa_why("a", 1, NULL, message, 64) == 0 && message[0] == 0);
    WANT(nfa_why("\xff", 1, NULL, message, 64) == 24 && strcmp(message, "the pattern is not UTF-8") == 0);
    WANT(nfa_why("\xff", 1, NULL, little, 8) == 24 && strcmp(little, "the pat") == 0);
    WANT(nfa_why("(", 1, NULL, NULL, 64) == 0 && nfa_why("(", 1, NULL, message, 0) == 0);
    WANT(nfa_compile(&re, "a\n(b", 4, NULL, &error) == NFA_PATTERN && error.code == NFA_PATTERN);
    WANT(strncmp(nfa_error_message(&error), "at 2..", 6) == 0 && error.place.pattern == 0 && error.place.start == 2);
    WANT(nfa_compile(&re, "\\w{20}", 6, &set, &error) == NFA_PATTERN && error.place.start == NFA_UNSET);
    WANT(strcmp(nfa_error_message(&error), "the pattern exceeds the size limit of 1000 bytes") == 0);
    WANT(nfa_compile(&re, "\xff", 1, NULL, &error) == NFA_UTF8 && error.place.end == NFA_UNSET);
    WANT(nfa_compile(&re, NULL, 1, NULL, &error) == NFA_ARGUMENT && error.code == NFA_ARGUMENT);
    WANT(nfa_compile(&re, "a", 1, NULL, &error) == NFA_OK && error.code == NFA_OK && error.message[0] == 0);
    nfa_free(&re);
}

static void searches(void) {
    nfa_regex re = NFA_REGEX_INIT;
    nfa_match m;
    size_t slots[10], at = 0;
    const char *pattern = "([a-z]+)(?P<digits>[0-9]+)|(never)";
    WANT(nfa_compile(&re, pattern, strlen(pattern), NULL, NULL) == NFA_OK);
    WANT(nfa_compile(&re, pattern, strlen(pattern), NULL, NULL) == NFA_OK); /* frees the first */
    WANT(nfa_regex_slot_count(&re) == 8 && nfa_regex_pattern_count(&re) == 1);
    WANT(nfa_is_match(&re, hay, LEN, 0) == NFA_FOUND && nfa_is_match(&re, hay, LEN, LEN) == NFA_NONE);
    WANT(nfa_find(&re, hay, LEN, 0, &m) == NFA_FOUND && m.pattern == 0 && m.start == 0 && m.end == 5);
    WANT(nfa_find(&re, hay, LEN, m.end, &m) == NFA_FOUND && m.start == 8 && m.end == 12);
    WANT(nfa_find(&re, hay, LEN, m.end, &m) == NFA_NONE && m.start == 8);
    WANT(nfa_shortest_match(&re, hay, LEN, 0, &at) == NFA_FOUND && at == 4);
    WANT(nfa_find_captures(&re, hay, LEN, 1, slots, 10) == NFA_FOUND);
    WANT(slots[0] == 1 && slots[1] == 5 && slots[2] == 1 && slots[3] == 3 && slots[4] == 3 && slots[5] == 5);
    WANT(slots[6] == NFA_UNSET && slots[7] == NFA_UNSET && slots[8] == NFA_UNSET && slots[9] == NFA_UNSET);
    WANT(nfa_captures_at(slots, 10, 2, &m) && m.start == 3 && m.end == 5 && !nfa_captures_at(slots, 10, 3, &m));
    WANT(!nfa_captures_at(slots, 10, 5, &m) && !nfa_captures_at(slots, 10, SIZE_MAX, &m));
    WANT(nfa_find_captures(&re, hay, LEN, 1, slots, 2) == NFA_FOUND && slots[0] == 1 && slots[1] == 5);
    WANT(nfa_captures_len(&re) == 4 && nfa_capture_name_index(&re, "digits", 6, &at) == NFA_FOUND && at == 2);
    WANT(nfa_capture_name_index(&re, "other", 5, &at) == NFA_NONE && at == 2);
    nfa_regex copy = NFA_REGEX_INIT;
    WANT(nfa_clone(&re, &copy) == NFA_OK && nfa_clone(&re, &copy) == NFA_OK);
    nfa_free(&re);
    WANT(nfa_find(&copy, hay, LEN, 0, &m) == NFA_FOUND && m.end == 5);
    nfa_regex moved = copy;
    nfa_regex blank = NFA_REGEX_INIT;
    copy = blank;
    WANT(nfa_find(&moved, hay, LEN, 0, &m) == NFA_FOUND && m.end == 5);
    nfa_free(&moved);
}

/* Compiles the pattern with these settings, and finds its first match in the text. */
static int32_t found_with(nfa_regex *re, const nfa_options *set, const char *pattern, const char *text, nfa_match *m) {
    int32_t code = nfa_compile(re, pattern, strlen(pattern), set, NULL);
    return code == NFA_OK ? nfa_find(re, text, strlen(text), 0, m) : code;
}

static void options(void) {
    nfa_regex re = NFA_REGEX_INIT;
    nfa_match m;
    nfa_options set = NFA_OPTIONS_INIT;
    set.flags = NFA_CASE_INSENSITIVE;
    WANT(found_with(&re, &set, "BAR", hay, &m) == NFA_FOUND && m.start == 8);
    set.flags = NFA_ANCHORED | NFA_NO_DFA;
    WANT(found_with(&re, &set, "bar", hay, &m) == NFA_NONE && nfa_find(&re, hay, LEN, 8, &m) == NFA_FOUND);
    set.flags = NFA_BYTES | NFA_NO_UNICODE;
    WANT(found_with(&re, &set, "\\xff", "a\xff", &m) == NFA_FOUND && m.start == 1);
    set.flags = NFA_MULTI_LINE;
    WANT(found_with(&re, &set, "^b", "a\nb", &m) == NFA_FOUND && m.start == 2);
    set.flags = NFA_DOT_MATCHES_NEW_LINE | NFA_SWAP_GREED | NFA_IGNORE_WHITESPACE;
    WANT(found_with(&re, &set, "a . + # x", "a\nb", &m) == NFA_FOUND && m.end == 2);
    set.flags = NFA_MULTI_LINE | NFA_CRLF;
    WANT(found_with(&re, &set, "a$", "a\r\nb", &m) == NFA_FOUND && m.end == 1);
    set.flags = NFA_OCTAL;
    WANT(found_with(&re, &set, "\\142", hay, &m) == NFA_FOUND && m.start == 8);
    set.flags = 0;
    WANT(found_with(&re, &set, "\\142", hay, &m) == NFA_PATTERN);
    set.size_limit = 1000;
    WANT(found_with(&re, &set, "\\w{20}", hay, &m) == NFA_PATTERN && nfa_captures_len(&re) == 0);
    WANT(found_with(&re, NULL, "\\w{20}", hay, &m) == NFA_NONE);
    set.size_limit = 0;
    set.dfa_capacity = set.backtrack_capacity = 1;
    WANT(found_with(&re, &set, "[a-z]+7", hay, &m) == NFA_FOUND && m.start == 8);
    nfa_free(&re);
}

static void iterators(void) {
    nfa_regex re = NFA_REGEX_INIT;
    nfa_iter iter = NFA_ITER_INIT, other = NFA_ITER_INIT;
    nfa_match m;
    const char *text = "baa\xc3\xa9";
    size_t spans[8], slots[4], n = 0, k = 0;
    WANT(nfa_compile(&re, "(a)*", 4, NULL, NULL) == NFA_OK);
    while (n < 8 && nfa_iter_next(&iter, &re, text, 5, &m) == NFA_FOUND) {
        spans[n++] = m.start;
        spans[n++] = m.end;
    }
    WANT(n == 6 && spans[0] == 0 && spans[1] == 0 && spans[2] == 1 && spans[3] == 3 && spans[4] == 5 && spans[5] == 5);
    WANT(m.start == 5 && nfa_iter_next(&iter, &re, "baa", 3, &m) == NFA_NONE && m.start == 5);
    while (k < 8 && nfa_iter_next_captures(&other, &re, text, 5, slots, 4) == NFA_FOUND) {
        WANT(slots[0] == spans[k] && slots[1] == spans[k + 1]);
        WANT(nfa_captures_at(slots, 4, 1, &m) == (slots[0] < slots[1]));
        k += 2;
    }
    WANT(k == 6 && nfa_iter_next_captures(&other, &re, text, 5, slots, 4) == NFA_NONE);
    WANT(nfa_iter_next_captures(&other, &re, text, 5, slots, 1) == NFA_ARGUMENT);
    nfa_free(&re);
    iter.at = 0;
    WANT(nfa_iter_next(&iter, &re, text, 5, &m) == NFA_EMPTY && nfa_iter_next(&iter, &re, text, 5, &m) == NFA_NONE);
}

int main(void) {
    empty_handles();
    errors();
    messages();
    searches();
    options();
    iterators();
    if (!failed)
        printf("c: passed\n");
    return failed;
}
