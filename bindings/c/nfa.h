/* Regular expressions by a proved engine, for C99 and C++. nfa(3) is the manual page, docs/BINDINGS.md the guide.
 *
 *     nfa_regex re = NFA_REGEX_INIT;
 *     nfa_iter iter = NFA_ITER_INIT;
 *     nfa_match m;
 *     if (nfa_compile(&re, "[0-9]+", 6, NULL, NULL) != NFA_OK)
 *         return 1;
 *     while (nfa_iter_next(&iter, &re, "a1 b22", 6, &m) == NFA_FOUND)
 *         printf("%zu..%zu\n", m.start, m.end);
 *     nfa_free(&re);
 *
 * Names are those of rure.h, with `nfa_` for `rure_`. The caller owns handles, slots and texts: nothing is returned
 * that has to be freed, and nothing aborts. Texts need no zero at their end, and offsets count bytes from the start of
 * the haystack. nfa_regex.h has the types and codes, what a caller must ensure, and the library's own functions. Those
 * here test null pointers and lengths, and call them: they return NFA_ARGUMENT, or what those say. They take null with
 * the length 0. */
#ifndef NFA_H
#define NFA_H

#include "nfa_regex.h"
#include <stdlib.h>
#include <string.h>

#ifdef __cplusplus
extern "C" {
#endif

/* A slice that the library may be given, for any pointer and length. Null, if there is none. */
static inline const uint8_t *nfa_slice(const void *bytes, size_t len) {
    if (len > PTRDIFF_MAX || (bytes == NULL && len != 0))
        return NULL;
    return (const uint8_t *)(bytes == NULL ? "" : bytes);
}

/* The same for bytes that are written. `none` stands for null. */
static inline uint8_t *nfa_room(void *bytes, size_t len, uint8_t *none) {
    if (len > PTRDIFF_MAX || (bytes == NULL && len != 0))
        return NULL;
    return bytes == NULL ? none : (uint8_t *)bytes;
}

/* ---- Compiling ---- */

/* Clears the error, for this code. */
static inline void nfa_error_begin(nfa_error *error, int32_t code) {
    error->code = code;
    error->place.pattern = error->place.start = error->place.end = NFA_UNSET;
    error->message[0] = 0;
}

/* Ends the message in a zero. It has `len` bytes, of which the room took as many as it had. */
static inline void nfa_error_end(nfa_error *error, size_t len) {
    size_t room = sizeof error->message - 1;
    error->message[len < room ? len : room] = 0;
}

/* Compiles the pattern, and frees what the handle had. Null options are the default. Writes why it fails, unless
 * `error` is null. */
static inline int32_t nfa_compile(nfa_regex *re, const void *pattern, size_t pattern_len, const nfa_options *options,
                                  nfa_error *error) {
    const uint8_t *text = nfa_slice(pattern, pattern_len);
    nfa_options none = NFA_OPTIONS_INIT;
    const nfa_options *set = options == NULL ? &none : options;
    int32_t code = re == NULL || text == NULL ? (int32_t)NFA_ARGUMENT : nfa_regex_new_with(re, text, pattern_len, set);
    if (error == NULL)
        return code;
    nfa_error_begin(error, code);
    if (code != NFA_OK && code != NFA_ARGUMENT) {
        nfa_error_end(error, nfa_regex_why(text, pattern_len, set, (uint8_t *)error->message,
                                           sizeof error->message - 1));
        nfa_regex_place(text, pattern_len, set, &error->place);
    }
    return code;
}

/* The message of an error: empty for none, and where memory was refused once, and then was there. */
static inline const char *nfa_error_message(const nfa_error *error) {
    return error == NULL ? "" : error->message;
}

/* Fills `to` with a copy whose caches are its own, and frees what `to` had. One handle for both is NFA_ARGUMENT. */
static inline int32_t nfa_clone(nfa_regex *from, nfa_regex *to) {
    return from == NULL || to == NULL || from == to ? (int32_t)NFA_ARGUMENT : nfa_regex_clone(from, to);
}

/* Empties the handle, and frees what it had. Null, or an empty handle, is left as it is. */
static inline void nfa_free(nfa_regex *re) {
    if (re != NULL)
        nfa_regex_free(re);
}

/* Writes why the pattern cannot be compiled, as far as there is room, with a zero at the end. Returns the length of the
 * whole message without that; 0 if the pattern can be compiled, or an argument is wrong. */
static inline size_t nfa_why(const void *pattern, size_t pattern_len, const nfa_options *options, char *message,
                             size_t room) {
    const uint8_t *text = nfa_slice(pattern, pattern_len);
    nfa_options none = NFA_OPTIONS_INIT;
    if (text == NULL || message == NULL || room == 0 || room > PTRDIFF_MAX)
        return 0;
    size_t len = nfa_regex_why(text, pattern_len, options == NULL ? &none : options, (uint8_t *)message, room - 1);
    message[len < room ? len : room - 1] = 0;
    return len;
}

/* ---- Searching, from `start` to the end of the haystack ---- */

/* Whether there is a match. As of the next three: NFA_FOUND, NFA_NONE, NFA_EMPTY, NFA_RANGE if the start is past the
 * end, or NFA_ARGUMENT. */
static inline int32_t nfa_is_match(nfa_regex *re, const void *hay, size_t len, size_t start) {
    const uint8_t *text = nfa_slice(hay, len);
    return re == NULL || text == NULL ? (int32_t)NFA_ARGUMENT : nfa_regex_is_match(re, text, len, start, len);
}

/* Finds the match that starts first and, among those, prefers the earlier alternative, and writes it. */
static inline int32_t nfa_find(nfa_regex *re, const void *hay, size_t len, size_t start, nfa_match *found) {
    const uint8_t *text = nfa_slice(hay, len);
    if (re == NULL || text == NULL || found == NULL)
        return NFA_ARGUMENT;
    return nfa_regex_find(re, text, len, start, len, found);
}

/* Finds an offset at which a match is known, which may be before its end, and writes it. */
static inline int32_t nfa_shortest_match(nfa_regex *re, const void *hay, size_t len, size_t start, size_t *end) {
    const uint8_t *text = nfa_slice(hay, len);
    if (re == NULL || text == NULL || end == NULL)
        return NFA_ARGUMENT;
    return nfa_regex_shortest_match(re, text, len, start, len, end);
}

/* Writes the slots of the groups, as nfa_regex_captures. Null slots with the length 0 ask only whether there is a
 * match. */
static inline int32_t nfa_find_captures(nfa_regex *re, const void *hay, size_t len, size_t start, size_t *slots,
                                        size_t slots_len) {
    const uint8_t *text = nfa_slice(hay, len);
    size_t none = 0;
    if (re == NULL || text == NULL || slots_len > PTRDIFF_MAX / sizeof *slots || (slots == NULL && slots_len != 0))
        return NFA_ARGUMENT;
    return nfa_regex_captures(re, text, len, start, len, slots == NULL ? &none : slots, slots_len);
}

/* ---- Groups ---- */

/* The number of groups, with group 0; 0 for null or an empty handle. Slots for all are twice as many. */
static inline size_t nfa_captures_len(nfa_regex *re) {
    return re == NULL ? 0 : nfa_regex_slot_count(re) / 2;
}

/* Reads a group of these slots. False if it did not match, or if there is none. */
static inline bool nfa_captures_at(const size_t *slots, size_t slots_len, size_t group, nfa_match *found) {
    if (slots == NULL || found == NULL || group >= slots_len / 2 || slots[2 * group] == NFA_UNSET)
        return false;
    found->pattern = 0;
    found->start = slots[2 * group];
    found->end = slots[2 * group + 1];
    return true;
}

/* Finds the group of this name, and writes its number: NFA_FOUND, NFA_NONE, NFA_EMPTY, NFA_UTF8 or NFA_ARGUMENT. */
static inline int32_t nfa_capture_name_index(nfa_regex *re, const void *name, size_t name_len, size_t *index) {
    const uint8_t *text = nfa_slice(name, name_len);
    if (re == NULL || text == NULL || index == NULL)
        return NFA_ARGUMENT;
    return nfa_regex_group_index(re, 0, text, name_len, index);
}

/* Writes the names of all groups of the pattern, a line for each: see nfa_regex_group_names. */
static inline int32_t nfa_capture_names(const void *pattern, size_t pattern_len, const nfa_options *options,
                                        char *names, size_t room, size_t *count) {
    const uint8_t *text = nfa_slice(pattern, pattern_len);
    nfa_options none = NFA_OPTIONS_INIT;
    uint8_t byte = 0, *to = nfa_room(names, room, &byte);
    if (text == NULL || to == NULL || count == NULL)
        return NFA_ARGUMENT;
    return nfa_regex_group_names(text, pattern_len, options == NULL ? &none : options, to, room, count);
}

/* The names in such a text, in order. */
typedef struct nfa_iter_capture_names {
    const char *at, *end;
} nfa_iter_capture_names;

/* Begins before the first of them. `count` is what nfa_capture_names wrote. */
static inline nfa_iter_capture_names nfa_iter_capture_names_new(const char *names, size_t count) {
    nfa_iter_capture_names iter = {names, names};
    if (names != NULL)
        iter.end += count;
    return iter;
}

/* The name of the next group, which has the length 0 if the group has none. False after the last one. */
static inline bool nfa_iter_capture_names_next(nfa_iter_capture_names *iter, const char **name, size_t *name_len) {
    const char *line;
    if (iter == NULL || name == NULL || name_len == NULL || iter->at == iter->end)
        return false;
    line = (const char *)memchr(iter->at, '\n', (size_t)(iter->end - iter->at));
    if (line == NULL)
        return false;
    *name = iter->at;
    *name_len = (size_t)(line - iter->at);
    iter->at = line + 1;
    return true;
}

/* ---- All matches ---- */

/* All matches, from left to right, which do not overlap. An empty match is not one if the last match ends there. Begin
 * with NFA_ITER_INIT, and give the same regex and haystack each time. After an error or the last match there is no
 * other. */
typedef struct nfa_iter {
    size_t at, last; /* where the next search begins, and where the last match ended */
} nfa_iter;

#define NFA_ITER_INIT { 0, NFA_UNSET }

/* Whether the match is empty, where the last one ended. Then the next search begins one further on. */
static inline bool nfa_iter_repeats(const nfa_iter *iter, size_t start, size_t end) {
    return start == end && end == iter->last;
}

/* Takes the match that this code says was found. From the end of an empty one a search would find it once more. */
static inline int32_t nfa_iter_step(nfa_iter *iter, int32_t code, size_t start, size_t end) {
    iter->last = code == NFA_FOUND ? end : NFA_UNSET;
    iter->at = code == NFA_FOUND && start == end ? end + 1 : iter->last;
    return code;
}

/* Finds the next match, and writes it. */
static inline int32_t nfa_iter_next(nfa_iter *iter, nfa_regex *re, const void *hay, size_t len, nfa_match *found) {
    nfa_match next = {0, 0, 0};
    if (iter == NULL || found == NULL)
        return NFA_ARGUMENT;
    if (iter->at > len)
        return NFA_NONE;
    int32_t code = nfa_find(re, hay, len, iter->at, &next);
    if (code == NFA_FOUND && nfa_iter_repeats(iter, next.start, next.end))
        code = iter->at == len ? (int32_t)NFA_NONE : nfa_find(re, hay, len, iter->at + 1, &next);
    if (code == NFA_FOUND)
        *found = next;
    return nfa_iter_step(iter, code, next.start, next.end);
}

/* Finds the next match, and writes the slots of its groups: two at least. If there is none, they mean nothing. */
static inline int32_t nfa_iter_next_captures(nfa_iter *iter, nfa_regex *re, const void *hay, size_t len, size_t *slots,
                                             size_t slots_len) {
    if (iter == NULL || slots == NULL || slots_len < 2)
        return NFA_ARGUMENT;
    if (iter->at > len)
        return NFA_NONE;
    int32_t code = nfa_find_captures(re, hay, len, iter->at, slots, slots_len);
    if (code == NFA_FOUND && nfa_iter_repeats(iter, slots[0], slots[1]))
        code = iter->at == len ? (int32_t)NFA_NONE
                               : nfa_find_captures(re, hay, len, iter->at + 1, slots, slots_len);
    return nfa_iter_step(iter, code, slots[0], slots[1]);
}

/* ---- Texts ---- */

/* Writes the haystack with the template in place of each match, as far as there is room, and its whole length to
 * `count`. Call it with the room 0 first, and then with as much as it asks for. */
static inline int32_t nfa_replace_all(nfa_regex *re, const void *hay, size_t len, const void *with, size_t with_len,
                                      char *text, size_t room, size_t *count) {
    const uint8_t *from = nfa_slice(hay, len), *filling = nfa_slice(with, with_len);
    uint8_t byte = 0, *to = nfa_room(text, room, &byte);
    if (re == NULL || from == NULL || filling == NULL || to == NULL || count == NULL)
        return NFA_ARGUMENT;
    return nfa_regex_replace_all(re, from, len, filling, with_len, to, room, count);
}

/* Writes a pattern that matches the text, likewise. */
static inline int32_t nfa_escape(const void *text, size_t len, char *pattern, size_t room, size_t *count) {
    const uint8_t *from = nfa_slice(text, len);
    uint8_t byte = 0, *to = nfa_room(pattern, room, &byte);
    if (from == NULL || to == NULL || count == NULL)
        return NFA_ARGUMENT;
    return nfa_regex_escape(from, len, to, room, count);
}

/* ---- Sets ---- */

/* Patterns one after the other, and where each ends. */
typedef struct nfa_joined {
    uint8_t *text;
    size_t *ends;
    size_t len;
} nfa_joined;

/* Joins these patterns. NFA_OK, NFA_ARGUMENT or NFA_MEMORY. */
static inline int32_t nfa_join(nfa_joined *all, const void *const *patterns, const size_t *lens, size_t count) {
    size_t k;
    all->len = 0;
    if (count > PTRDIFF_MAX / sizeof *lens || (count != 0 && (patterns == NULL || lens == NULL)))
        return NFA_ARGUMENT;
    for (k = 0; k < count; k++) {
        if (nfa_slice(patterns[k], lens[k]) == NULL || lens[k] > PTRDIFF_MAX - all->len)
            return NFA_ARGUMENT;
        all->len += lens[k];
    }
    all->text = (uint8_t *)malloc(all->len + 1);
    all->ends = (size_t *)malloc((count + 1) * sizeof *all->ends);
    if (all->text == NULL || all->ends == NULL) {
        free(all->text);
        free(all->ends);
        return NFA_MEMORY;
    }
    for (k = 0, all->len = 0; k < count; k++) {
        memcpy(all->text + all->len, nfa_slice(patterns[k], lens[k]), lens[k]);
        all->ends[k] = all->len += lens[k];
    }
    return NFA_OK;
}

/* As nfa_free. */
static inline void nfa_set_free(nfa_set *set) {
    if (set != NULL)
        nfa_regex_set_free(set);
}

/* Compiles a set of `count` patterns, numbered from 0 on, as nfa_compile does one. */
static inline int32_t nfa_compile_set(nfa_set *set, const void *const *patterns, const size_t *lens, size_t count,
                                      const nfa_options *options, nfa_error *error) {
    nfa_options none = NFA_OPTIONS_INIT;
    const nfa_options *own = options == NULL ? &none : options;
    nfa_joined all = {NULL, NULL, 0};
    int32_t code;
    nfa_set_free(set);
    code = set == NULL ? (int32_t)NFA_ARGUMENT : nfa_join(&all, patterns, lens, count);
    if (error != NULL)
        nfa_error_begin(error, code);
    if (code != NFA_OK)
        return code;
    code = nfa_regex_set_new_with(set, all.text, all.len, all.ends, count, own);
    if (code != NFA_OK && error != NULL) {
        error->code = code;
        nfa_error_end(error, nfa_regex_set_why(all.text, all.len, all.ends, count, own, (uint8_t *)error->message,
                                               sizeof error->message - 1));
        nfa_regex_set_place(all.text, all.len, all.ends, count, own, &error->place);
    }
    free(all.text);
    free(all.ends);
    return code;
}

/* As nfa_clone. */
static inline int32_t nfa_set_clone(nfa_set *from, nfa_set *to) {
    return from == NULL || to == NULL || from == to ? (int32_t)NFA_ARGUMENT : nfa_regex_set_clone(from, to);
}

/* The number of patterns; 0 for null or an empty handle. */
static inline size_t nfa_set_len(nfa_set *set) {
    return set == NULL ? 0 : nfa_regex_set_len(set);
}

/* Whether one of the patterns matches from `start` on. */
static inline int32_t nfa_set_is_match(nfa_set *set, const void *hay, size_t len, size_t start) {
    const uint8_t *text = nfa_slice(hay, len);
    return set == NULL || text == NULL ? (int32_t)NFA_ARGUMENT : nfa_regex_set_is_match(set, text, len, start, len);
}

/* Which patterns match from `start` on: a byte for each, 1 or 0. */
static inline int32_t nfa_set_matches(nfa_set *set, const void *hay, size_t len, size_t start, uint8_t *marks,
                                      size_t marks_len) {
    const uint8_t *text = nfa_slice(hay, len);
    uint8_t byte = 0, *to = nfa_room(marks, marks_len, &byte);
    if (set == NULL || text == NULL || to == NULL)
        return NFA_ARGUMENT;
    return nfa_regex_set_matches(set, text, len, start, len, to, marks_len);
}

#ifdef __cplusplus
}
#endif
#endif
