/* Makes each request for memory fail in turn, with all that follow it. A handle is then full or empty, and what it
 * finds is right; a text is written or is as it was. Links with -Wl,--wrap=malloc,--wrap=realloc. Prints "memory:
 * passed", or what failed. */
#include "nfa.h"
#include <stdio.h>

static long left = -1;
void *__real_malloc(size_t size);
void *__real_realloc(void *block, size_t size);

static bool refuses(void) {
    if (left < 0)
        return false;
    if (left == 0)
        return true;
    left--;
    return false;
}

void *__wrap_malloc(size_t size) {
    return refuses() ? NULL : __real_malloc(size);
}

void *__wrap_realloc(void *block, size_t size) {
    return refuses() ? NULL : __real_realloc(block, size);
}

static const char pattern[] = "([a-z]+)\\b|x{2,5}", hay[] = "foo xx bar";

/* Whether a handle that was made in this way answers as it has to. */
static bool answers(nfa_regex *re, int32_t code) {
    nfa_match m = {9, 9, 9};
    size_t slots[4];
    int32_t found = nfa_find(re, hay, strlen(hay), 0, &m);
    int32_t captured = nfa_find_captures(re, hay, strlen(hay), 0, slots, 4);
    if (code == NFA_OK)
        return found == NFA_FOUND && m.start == 0 && m.end == 3 && captured == NFA_FOUND && slots[3] == 3;
    return code == NFA_MEMORY && found == NFA_EMPTY && captured == NFA_EMPTY;
}

/* Each of these makes something, and says what was returned. It clears `right` if that is not as it has to be. */
static int32_t make_regex(bool *right) {
    nfa_regex re = NFA_REGEX_INIT, copy = NFA_REGEX_INIT;
    int32_t code = nfa_compile(&re, pattern, strlen(pattern), NULL, NULL);
    *right = answers(&re, code) && (code != NFA_OK || answers(&copy, nfa_clone(&re, &copy)));
    nfa_free(&re);
    nfa_free(&copy);
    return code;
}

/* Why a text is not a pattern, in words, and where; or that memory was refused for that. */
static int32_t make_error(bool *right) {
    nfa_regex re = NFA_REGEX_INIT;
    nfa_error error;
    int32_t code = nfa_compile(&re, "a(b", 3, NULL, &error);
    bool told = strncmp(error.message, "at 1..", 6) == 0, placed = error.place.start == 1;
    *right = error.code == code && (code == NFA_PATTERN || code == NFA_MEMORY);
    *right = *right && (told ? code == NFA_PATTERN : strcmp(error.message, "out of memory") == 0);
    *right = *right && (placed ? code == NFA_PATTERN : error.place.start == NFA_UNSET);
    return told && placed ? (int32_t)NFA_OK : (int32_t)NFA_MEMORY;
}

static int32_t make_set(bool *right) {
    nfa_set set = NFA_SET_INIT, copy = NFA_SET_INIT;
    const void *patterns[] = {"[a-z]+", "[0-9]"};
    size_t lens[] = {6, 5};
    uint8_t marks[2] = {9, 9};
    int32_t code = nfa_compile_set(&set, patterns, lens, 2, NULL, NULL);
    int32_t found = nfa_set_is_match(&set, hay, strlen(hay), 0);
    int32_t matched = nfa_set_matches(&set, hay, strlen(hay), 0, marks, 2);
    int32_t copied = nfa_set_clone(&set, &copy);
    *right = found == (code == NFA_OK ? (int32_t)NFA_FOUND : (int32_t)NFA_EMPTY);
    if (code == NFA_OK && matched == NFA_FOUND)
        *right = *right && marks[0] == 1 && marks[1] == 0;
    else
        *right = *right && matched == (code == NFA_OK ? NFA_MEMORY : NFA_EMPTY) && marks[0] == 9;
    *right = *right && (copied == NFA_OK) == (nfa_set_len(&copy) == 2);
    nfa_set_free(&set);
    nfa_set_free(&copy);
    return code == NFA_OK && matched != NFA_FOUND ? matched : code;
}

static int32_t make_texts(bool *right) {
    nfa_regex re = NFA_REGEX_INIT;
    char text[32] = "-";
    size_t count = 99;
    int32_t code = nfa_escape("a.b", 3, text, 32, &count);
    *right = code == NFA_OK ? count == 4 && text[1] == '\\' : count == 99 && text[0] == '-';
    if (code == NFA_OK) {
        code = nfa_capture_names("(?P<x>a)", 8, NULL, text, 32, &count);
        *right = *right && (code == NFA_OK ? count == 3 && text[1] == 'x' : count == 4 && text[0] == 'a');
    }
    if (code == NFA_OK)
        code = nfa_compile(&re, "[a-z]+", 6, NULL, NULL);
    if (code == NFA_OK) {
        code = nfa_replace_all(&re, hay, strlen(hay), "<$0>", 4, text, 32, &count);
        *right = *right && (code == NFA_OK ? count == 16 && text[0] == '<' : count == 3 && text[0] == '\n');
    }
    nfa_free(&re);
    return code;
}

static bool refuse_in_turn(const char *name, int32_t (*make)(bool *)) {
    long made = 0, refused = 0, count = 0;
    for (bool done = false; !done; count++) {
        bool right = false;
        left = count;
        int32_t code = make(&right);
        done = left > 0;
        left = -1;
        made += code == NFA_OK;
        refused += code == NFA_MEMORY;
        if (!right || (code != NFA_OK && code != NFA_MEMORY)) {
            printf("%s, request %ld: code %d\n", name, count, (int)code);
            return false;
        }
    }
    if (made < 1 || refused < 10)
        printf("%s: %ld made, %ld refused\n", name, made, refused);
    return made >= 1 && refused >= 10;
}

int main(void) {
    bool passed = refuse_in_turn("regex", make_regex);
    passed = refuse_in_turn("error", make_error) && passed;
    passed = refuse_in_turn("set", make_set) && passed;
    passed = refuse_in_turn("texts", make_texts) && passed;
    if (passed)
        printf("memory: passed\n");
    return passed ? 0 : 1;
}
