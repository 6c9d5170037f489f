/* The functions of the proved library, for wrappers in C and in languages that call C. Programs include nfa.h.
 *
 * Their proofs hold for every call that keeps to this:
 *   - No pointer is null, also where the length is 0. A length is at most PTRDIFF_MAX bytes, and the memory has it.
 *   - A handle is all zero at first, as by NFA_REGEX_INIT. Move it, but do not copy it: of two copies only one may be
 *     used. C does not write its fields.
 *   - What a function writes (handle, match, offset, slots, marks, texts, counts) overlaps nothing else that it is
 *     given. `from` and `to` are two handles.
 *   - One call at a time is made on a handle. Any thread may make it: between the calls of two threads there is a lock,
 *     the start or the join of one of them, or a sequentially consistent atomic.
 *   - malloc, realloc and free are of one allocator, and align to 16 bytes. No call is made from a signal handler, or
 *     in the child of a fork of a program with threads. */
#ifndef NFA_REGEX_H
#define NFA_REGEX_H

#include <stdbool.h>
#include <stddef.h>
#include <stdint.h>

#ifdef __cplusplus
extern "C" {
#endif

/* A regex, or nothing. */
typedef struct nfa_regex {
    bool ready;
    struct {
        void *at;
    } slot;
} nfa_regex;

#define NFA_REGEX_INIT { false, { NULL } }

/* A set of patterns, or nothing. */
typedef struct nfa_set {
    bool ready;
    struct {
        void *at;
    } slot;
} nfa_set;

#define NFA_SET_INIT { false, { NULL } }

/* A match: the number of its pattern, and byte offsets into the haystack. Of a regex of one pattern the number is 0. */
typedef struct nfa_match {
    size_t pattern, start, end;
} nfa_match;

/* What functions return. Those below 0 are errors: what was to be written is as it was, and a handle that was to be
 * filled is empty. */
enum {
    NFA_FOUND = 1,     /* there is a match, a group or a place */
    NFA_NONE = 0,      /* there is none */
    NFA_OK = 0,        /* done: the handle is full, or the text written */
    NFA_EMPTY = -1,    /* the handle is empty: never filled, or freed */
    NFA_RANGE = -2,    /* not start <= end <= len, or the ends of texts do not rise */
    NFA_MEMORY = -3,   /* allocation failed; never by a search for a match */
    NFA_UTF8 = -4,     /* a pattern, a name or a text is not UTF-8 */
    NFA_PATTERN = -5,  /* a text is not a pattern, or the pattern exceeds the size limit */
    NFA_ARGUMENT = -6, /* a pointer is null, or a length is above PTRDIFF_MAX; only of the functions without _regex_ */
    NFA_TEMPLATE = -7  /* a template names a group that the regex does not have, or its brace is not closed */
};

/* The value of a slot that no group has set. */
#define NFA_UNSET SIZE_MAX

/* Flags of nfa_options. */
enum {
    NFA_CASE_INSENSITIVE = 1,     /* letters match in both cases */
    NFA_MULTI_LINE = 2,           /* ^ and $ match at each line */
    NFA_DOT_MATCHES_NEW_LINE = 4, /* . matches a line feed, too */
    NFA_SWAP_GREED = 8,           /* x* and x*? mean each other */
    NFA_IGNORE_WHITESPACE = 16,   /* spaces and comments (# to the end of the line) in the pattern mean nothing */
    NFA_CRLF = 32,                /* \r\n ends a line */
    NFA_NO_UNICODE = 64,          /* \w, \d, \s, \b and case are those of ASCII */
    NFA_BYTES = 128,              /* the pattern may match bytes that are not UTF-8 */
    NFA_ANCHORED = 256,           /* a match begins where the search does */
    NFA_NO_DFA = 512,             /* searches do without the lazy DFA: slower, in less memory */
    NFA_OCTAL = 1024              /* \141 is the character of this octal number */
};

/* Settings. All zero is the default; so is each 0. */
typedef struct nfa_options {
    uint32_t flags;            /* the sum of some flags */
    size_t size_limit;         /* the most bytes that the tables of the pattern may take: 10485760 */
    size_t dfa_capacity;       /* the most bytes that the rows of the lazy DFA may take: 16777216 */
    size_t backtrack_capacity; /* the most bytes that the marks of one search by the backtracker may take */
} nfa_options;

#define NFA_OPTIONS_INIT { 0, 0, 0, 0 }

/* Why nothing was compiled. */
typedef struct nfa_error {
    int32_t code;       /* NFA_OK, or what the function returned */
    nfa_match place;    /* of NFA_PATTERN: the number of the pattern, and the bytes of it that are wrong. If that is
                           not known, as for a pattern that exceeds the size limit, all are NFA_UNSET. */
    char message[256];  /* a text that ends in a zero, cut to fit */
} nfa_error;

/* ---- One pattern ---- */

/* Compiles the pattern with the default settings, and frees what the handle had. NFA_OK, NFA_MEMORY, NFA_UTF8 or
 * NFA_PATTERN. */
int32_t nfa_regex_new(nfa_regex *re, const uint8_t *pattern, size_t pattern_len);

/* The same with these settings. */
int32_t nfa_regex_new_with(nfa_regex *re, const uint8_t *pattern, size_t pattern_len, const nfa_options *options);

/* Fills `to` with a copy, whose caches are its own, and frees what `to` had. NFA_OK, NFA_EMPTY if `from` is, or
 * NFA_MEMORY. */
int32_t nfa_regex_clone(nfa_regex *from, nfa_regex *to);

/* Empties the handle. An empty handle stays so. */
void nfa_regex_free(nfa_regex *re);

/* Whether [start, end) of the haystack has a match. Assertions (^ $ \b) see the whole haystack. NFA_FOUND, NFA_NONE,
 * NFA_EMPTY or NFA_RANGE, as the next three. */
int32_t nfa_regex_is_match(nfa_regex *re, const uint8_t *hay, size_t len, size_t start, size_t end);

/* Finds the first match, and writes it. */
int32_t nfa_regex_find(nfa_regex *re, const uint8_t *hay, size_t len, size_t start, size_t end, nfa_match *found);

/* Finds an offset at which a match is known, which may be before its end. Faster than nfa_regex_find. */
int32_t nfa_regex_shortest_match(nfa_regex *re, const uint8_t *hay, size_t len, size_t start, size_t end,
                                 size_t *offset);

/* Finds the first match, and writes where each group starts and ends: group k to slots 2k and 2k + 1. Group 0 is the
 * match. Slots of groups that did not match, and those past the last group, are NFA_UNSET. `slots` may be shorter. */
int32_t nfa_regex_captures(nfa_regex *re, const uint8_t *hay, size_t len, size_t start, size_t end, size_t *slots,
                           size_t slots_len);

/* Twice the number of groups, with group 0; 0 for an empty handle. */
size_t nfa_regex_slot_count(nfa_regex *re);

/* The number of patterns; 0 for an empty handle. */
size_t nfa_regex_pattern_count(nfa_regex *re);

/* Finds the group of this name of the pattern (0, if the handle has one), and writes its number. NFA_FOUND, NFA_NONE,
 * NFA_EMPTY or NFA_UTF8. */
int32_t nfa_regex_group_index(nfa_regex *re, size_t pattern, const uint8_t *name, size_t name_len, size_t *index);

/* Writes the names of the pattern's groups from group 0 on, a line for each, which is empty if the group has no name.
 * As all functions with `count`, it writes the whole length to it, and the text as far as there is room, with no zero
 * at the end. NFA_OK, NFA_MEMORY, NFA_UTF8 or NFA_PATTERN. */
int32_t nfa_regex_group_names(const uint8_t *pattern, size_t pattern_len, const nfa_options *options, uint8_t *names,
                              size_t room, size_t *count);

/* Writes the haystack with the template in place of each match. $1, $name and ${name} are the texts of groups, and $$
 * is a dollar. NFA_OK, NFA_EMPTY, NFA_MEMORY or NFA_TEMPLATE. */
int32_t nfa_regex_replace_all(nfa_regex *re, const uint8_t *hay, size_t len, const uint8_t *with, size_t with_len,
                              uint8_t *text, size_t room, size_t *count);

/* Writes a pattern that matches the text. NFA_OK, NFA_MEMORY or NFA_UTF8. */
int32_t nfa_regex_escape(const uint8_t *text, size_t len, uint8_t *pattern, size_t room, size_t *count);

/* Writes why the pattern cannot be compiled, as far as there is room, with no zero at the end. Returns the length of
 * the whole message; 0 if the pattern can be compiled. */
size_t nfa_regex_why(const uint8_t *pattern, size_t pattern_len, const nfa_options *options, uint8_t *message,
                     size_t room);

/* Writes which bytes of the pattern are wrong: NFA_FOUND. NFA_NONE if it can be compiled. NFA_MEMORY, NFA_UTF8 or
 * NFA_PATTERN if it cannot, and no bytes are known. */
int32_t nfa_regex_place(const uint8_t *pattern, size_t pattern_len, const nfa_options *options, nfa_match *place);

/* ---- Sets ---- */

/* Compiles a set of patterns, numbered from 0 on, and frees what the handle had. They are in one text, each from the
 * end of the one before it up to its own end. NFA_OK; NFA_RANGE if the ends do not rise or one is past the text;
 * NFA_UTF8 if they do, and a pattern is not UTF-8; NFA_MEMORY or NFA_PATTERN. */
int32_t nfa_regex_set_new_with(nfa_set *set, const uint8_t *text, size_t text_len, const size_t *ends, size_t count,
                               const nfa_options *options);

/* As nfa_regex_clone. */
int32_t nfa_regex_set_clone(nfa_set *from, nfa_set *to);

/* As nfa_regex_free. */
void nfa_regex_set_free(nfa_set *set);

/* The number of patterns; 0 for an empty handle. */
size_t nfa_regex_set_len(nfa_set *set);

/* Whether one of the patterns matches in [start, end). NFA_FOUND, NFA_NONE, NFA_EMPTY or NFA_RANGE. */
int32_t nfa_regex_set_is_match(nfa_set *set, const uint8_t *hay, size_t len, size_t start, size_t end);

/* Finds which patterns match in [start, end), in one pass, and writes a byte for each: 1 or 0. Further bytes are set to
 * 0. Returns the same, or NFA_MEMORY. */
int32_t nfa_regex_set_matches(nfa_set *set, const uint8_t *hay, size_t len, size_t start, size_t end, uint8_t *marks,
                              size_t marks_len);

/* As nfa_regex_why. The message has the number of the pattern that is wrong. */
size_t nfa_regex_set_why(const uint8_t *text, size_t text_len, const size_t *ends, size_t count,
                         const nfa_options *options, uint8_t *message, size_t room);

/* As nfa_regex_place, or NFA_RANGE. The place has the number of the pattern, and bytes of its own text. */
int32_t nfa_regex_set_place(const uint8_t *text, size_t text_len, const size_t *ends, size_t count,
                            const nfa_options *options, nfa_match *place);

#ifdef __cplusplus
}
#endif
#endif
