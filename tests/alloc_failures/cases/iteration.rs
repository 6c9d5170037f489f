//! Iterations that were refused memory: a beginning of the list, the refusal once, then nothing. The cache serves the
//! next search.

use super::{Seen, Wrong, engines, expect, made, searches};
use nfa_engines::backtrack::{BoundedBacktracker, Cache, TryFindMatches};
use nfa_engines::error::SearchError;
use nfa_engines::iter::Searcher;
use regex_search_core::{Input, Match};
use std::alloc::Global;
use test_support::samples::parts;

/// The matches of `words_numbers` in `abc 1 foo 4567 0 quux`: each one's pattern, start and end.
pub const WORDS_AND_NUMBERS: &[(usize, usize, usize)] = &[
    (0, 0, 3),
    (1, 4, 5),
    (0, 6, 9),
    (1, 10, 14),
    (1, 15, 16),
    (0, 17, 21),
];

// The items are these matches, or those before some place and the refusal of memory, and then nothing.
fn expect_beginning(
    seen: &mut Seen,
    matches: &mut TryFindMatches<'_, '_, '_>,
    all: &[(usize, usize, usize)],
) -> Result<(), Wrong> {
    for want in all {
        match matches.next() {
            Some(Ok(found)) => expect(parts(found) == *want, "an item")?,
            item => {
                seen.note(item == Some(Err(SearchError::Memory)))?;
                break;
            }
        }
    }
    let ended = matches.next().is_none() && matches.next().is_none();
    expect(ended, "an item behind the end")
}

/// The last word takes more memory than what comes before it, so a refusal may also come after a match.
pub const A_LONG_WORD: &str = "a 1 abcdefghijklmnopqrstuvwxyzabcdefghijklmnopqrstuvwxyz";

/// Its matches.
pub const LONG_WORD_LAST: &[(usize, usize, usize)] = &[(0, 0, 1), (1, 2, 3), (0, 4, 56)];

/// Lists of a text whose words are short, and of one that ends in a long one.
pub fn lists(alloc: Global, seen: &mut Seen) -> Result<(), Wrong> {
    lists_of_words(alloc, seen)?;
    expect_searcher()
}

fn lists_of_words(alloc: Global, seen: &mut Seen) -> Result<(), Wrong> {
    let engine = engines::backtracker(alloc, seen, "words_numbers")?;
    expect_lists(alloc, seen, &engine)
}

// A copy of a searcher takes no memory.
fn expect_searcher() -> Result<(), Wrong> {
    let searcher = Searcher::new(Input::new(b"ab"));
    expect(searcher.clone().is_ok(), "a refusal of a searcher's copy")
}

fn expect_lists(alloc: Global, seen: &mut Seen, engine: &BoundedBacktracker) -> Result<(), Wrong> {
    expect_list(
        alloc,
        seen,
        engine,
        "abc 1 foo 4567 0 quux",
        WORDS_AND_NUMBERS,
    )?;
    expect_list(alloc, seen, engine, A_LONG_WORD, LONG_WORD_LAST)
}

fn expect_list(
    alloc: Global,
    seen: &mut Seen,
    engine: &BoundedBacktracker,
    haystack: &str,
    all: &[(usize, usize, usize)],
) -> Result<(), Wrong> {
    expect_new_items(alloc, seen, engine, haystack.as_bytes(), all)?;
    expect_listed(alloc, seen, engine, haystack.as_bytes(), all)
}

fn expect_new_items(
    alloc: Global,
    seen: &mut Seen,
    engine: &BoundedBacktracker,
    haystack: &[u8],
    all: &[(usize, usize, usize)],
) -> Result<(), Wrong> {
    let mut cache = engine.create_cache(alloc);
    expect_items(seen, engine, &mut cache, haystack, all)
}

// The items, and then the first match once more by a search with the same cache.
fn expect_items(
    seen: &mut Seen,
    engine: &BoundedBacktracker,
    cache: &mut Cache,
    haystack: &[u8],
    all: &[(usize, usize, usize)],
) -> Result<(), Wrong> {
    let mut matches = engine.try_find_iter(cache, Input::new(haystack));
    expect_beginning(seen, &mut matches, all)?;
    let found = searches::found(seen, engine, cache, haystack)?;
    expect(
        found.map(parts) == all.first().copied(),
        "the match after an iteration",
    )
}

// As one value the list comes whole, or not at all.
fn expect_listed(
    alloc: Global,
    seen: &mut Seen,
    engine: &BoundedBacktracker,
    haystack: &[u8],
    all: &[(usize, usize, usize)],
) -> Result<(), Wrong> {
    let mut cache = engine.create_cache(alloc);
    expect_listed_with(alloc, seen, engine, &mut cache, haystack, all)
}

fn expect_listed_with(
    alloc: Global,
    seen: &mut Seen,
    engine: &BoundedBacktracker,
    cache: &mut Cache,
    haystack: &[u8],
    all: &[(usize, usize, usize)],
) -> Result<(), Wrong> {
    let listed = listed(alloc, seen, engine, cache, haystack)?;
    expect_matches(&listed, all)
}

fn listed(
    alloc: Global,
    seen: &mut Seen,
    engine: &BoundedBacktracker,
    cache: &mut Cache,
    haystack: &[u8],
) -> Result<Vec<Match>, Wrong> {
    made!(
        seen,
        SearchError::Memory,
        engine.try_find_all(alloc, cache, Input::new(haystack))
    )
}

fn expect_matches(listed: &[Match], all: &[(usize, usize, usize)]) -> Result<(), Wrong> {
    expect(listed.len() == all.len(), "the number of all matches")?;
    for (found, want) in listed.iter().zip(all) {
        expect(parts(*found) == *want, "one of all matches")?;
    }
    Ok(())
}
