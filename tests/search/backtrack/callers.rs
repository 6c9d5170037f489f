//! Functions of `callers` that use the lists of a backtracker, or list the pieces of a text.

use crate::tests::{engine_named, expect_matches, expect_text, with_capacity};
use callers::matches::{matched_len, tries_collected};
use callers::pieces::pieces;
use nfa_engines::error::SearchError;
use regex_search_core::{Input, Match};
use std::alloc::{AllocError, Global};
use std::test::Fail;
use test_support::text::write_item;

const HAYSTACK: &[u8] = b"abc 1 foo 4567 0 quux";

// The matches of `words_numbers` in it: each one's pattern, start and end.
const MATCHES: &[(usize, usize, usize)] = &[
    (0, 0, 3),
    (1, 4, 5),
    (0, 6, 9),
    (1, 10, 14),
    (1, 15, 16),
    (0, 17, 21),
];

// All items, each followed by a comma and a space.
fn items_text(alloc: Global, items: &[Result<Match, SearchError>]) -> Result<String, AllocError> {
    let mut text = String::new(alloc);
    for item in items {
        write_item(&mut text, *item)?;
    }
    Ok(text)
}

// All items of the haystack.
const ITEMS: &str = "0 0..3, 1 4..5, 0 6..9, 1 10..14, 1 15..16, 0 17..21, ";

#[test]
fn callers_list_all_matches(rt: HostRuntime) -> Result<(), Fail> {
    let alloc = rt.alloc();
    let engine = engine_named(&rt, "words_numbers");
    let mut cache = engine.create_cache(alloc);
    let items = tries_collected(alloc, &engine, &mut cache, HAYSTACK)?;
    expect_text(&rt, &"a list", items_text(alloc, &items), ITEMS);
    let all = engine.try_find_all(alloc, &mut cache, Input::new(HAYSTACK))?;
    expect_matches(&rt, &all, MATCHES);
    assert_eq!(rt; matched_len(&engine, &mut cache, HAYSTACK)?, 16);
    Ok(())
}

const REFUSAL: SearchError = SearchError::HaystackTooLong { len: 3 };

#[test]
fn callers_list_the_refusal_alone(rt: HostRuntime) -> Result<(), Fail> {
    let alloc = rt.alloc();
    let engine = with_capacity(&rt, "alnum100", 10);
    let mut cache = engine.create_cache(alloc);
    let items = tries_collected(alloc, &engine, &mut cache, b"abc")?;
    expect_text(
        &rt,
        &"a list",
        items_text(alloc, &items),
        "HaystackTooLong { len: 3 }, ",
    );
    let all = engine.try_find_all(alloc, &mut cache, Input::new(b"abc"));
    assert_eq!(rt; all.err(), Some(REFUSAL));
    let mut matches = engine.try_find_iter(&mut cache, Input::new(b"abc"));
    assert_eq!(rt; matches.next(), Some(Err(REFUSAL)));
    assert!(rt; matches.next().is_none() && matches.next().is_none());
    Ok(())
}

// A haystack, the length of a piece, and all pieces.
const PIECES: &[(&str, usize, &str)] = &[
    ("abcdefgh", 3, "0 0..3, 0 3..6, 0 6..8, "),
    ("abcd", 2, "0 0..2, 0 2..4, "),
    ("ab", 0, "0 0..0, 0 1..1, 0 2..2, "),
    ("", 1, "0 0..0, "),
];

#[test]
fn lists_all_pieces(rt: HostRuntime) -> Result<(), Fail> {
    let alloc = rt.alloc();
    for &(haystack, len, want) in PIECES {
        let items = pieces(alloc, haystack.as_bytes(), len)?;
        expect_text(&rt, &haystack, items_text(alloc, &items), want);
    }
    Ok(())
}
