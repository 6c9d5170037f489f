//! Tests of searches that fill captures, and of the iterators over captures: lists, refusals, and callers.

mod callers;
mod groups;
mod others;
mod refused;
mod table;
mod texts;

use regex_search_core::Captures;
use std::process::Abort;

// The slots of `date` in `2010-03-14`.
const DATE_SLOTS: &[Option<usize>] = &[
    Some(0),
    Some(10),
    Some(0),
    Some(4),
    Some(5),
    Some(7),
    Some(8),
    Some(10),
];

// Expects this pattern and these slots. The name is that of the row.
fn expect_captures(
    rt: &(impl Abort + AllocGlobal),
    captures: &Captures,
    pattern: Option<usize>,
    slots: &[Option<usize>],
    name: &str,
) {
    let found = captures.pattern().map(|pattern| pattern.as_usize());
    assert_eq!(rt; found, pattern, "{name}");
    let found: Vec<Option<usize>> = captures
        .slots()
        .iter()
        .map(|slot| slot.map(|offset| offset.get()))
        .collect(rt.alloc())
        .expect(rt, "memory");
    assert_eq!(rt; found.as_slice(), slots, "{name}");
}
