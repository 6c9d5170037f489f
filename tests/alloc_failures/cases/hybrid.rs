//! A hybrid never fails, whatever memory is refused: if the lazy DFA has none, the PikeVM answers.

use super::iteration::WORDS_AND_NUMBERS;
use super::{Seen, Wrong, engines, expect};
use nfa_choice::hybrid::Hybrid;
use nfa_engines::error::SearchError;
use regex_search_core::{HalfMatch, Input};
use std::alloc::Global;

/// Each search answers, whatever is refused, and again with what is left in the cache.
pub fn searches(alloc: Global, seen: &mut Seen) -> Result<(), Wrong> {
    let mut hybrid = engines::hybrid(alloc, seen, "foo_bar")?;
    expect_bar(&mut hybrid)?;
    expect_bar(&mut hybrid)
}

fn ending(half: HalfMatch) -> (usize, usize) {
    (half.pattern().as_usize(), half.offset())
}

fn expect_bar(hybrid: &mut Hybrid) -> Result<(), Wrong> {
    let half = hybrid.find_half(Input::new(b"xbarfoo")).map(ending);
    expect(half == Some((1, 4)), "the half match of a hybrid")?;
    let earliest = hybrid.find_half(Input::new(b"foobar").earliest(true));
    expect(
        earliest.map(ending) == Some((0, 3)),
        "the earliest half match of a hybrid",
    )?;
    let is_match = hybrid.is_match(Input::new(b"xbarfoo"));
    expect(is_match, "whether a hybrid matches")?;
    let is_match = hybrid.is_match(Input::new(b"xxx"));
    expect(!is_match, "whether a hybrid matches nothing")
}

/// The list is whole, whatever is refused.
pub fn lists(alloc: Global, seen: &mut Seen) -> Result<(), Wrong> {
    let mut hybrid = engines::hybrid(alloc, seen, "words_numbers")?;
    expect_list(&mut hybrid)
}

fn expect_list(hybrid: &mut Hybrid) -> Result<(), Wrong> {
    let mut wants = WORDS_AND_NUMBERS.iter();
    for half in hybrid.half_matches(Input::new(b"abc 1 foo 4567 0 quux")) {
        let want = wants.next().map(|&(pattern, _, end)| (pattern, end));
        expect(want == Some(ending(half)), "an item of a hybrid")?;
    }
    expect(wants.next().is_none(), "the length of the list of a hybrid")
}

/// A refused replacement changes nothing.
pub fn replacements(alloc: Global, seen: &mut Seen) -> Result<(), Wrong> {
    let mut hybrid = engines::hybrid(alloc, seen, "abc")?;
    expect_replacement(alloc, seen, &mut hybrid)?;
    expect_bar(&mut hybrid)
}

fn expect_replacement(alloc: Global, seen: &mut Seen, hybrid: &mut Hybrid) -> Result<(), Wrong> {
    expect_abc(hybrid, "the old half match")?;
    if is_refused(alloc, seen, hybrid)? {
        expect_abc(hybrid, "the old half match after a refusal")?;
        let again = is_refused(alloc, seen, hybrid)?;
        expect(!again, "two refusals of a replacement in a hybrid")?;
    }
    Ok(())
}

fn expect_abc(hybrid: &mut Hybrid, wrong: &'static str) -> Result<(), Wrong> {
    let half = hybrid.find_half(Input::new(b"abc")).map(ending);
    expect(half == Some((0, 3)), wrong)
}

// Whether the replacement was refused memory.
fn is_refused(alloc: Global, seen: &mut Seen, hybrid: &mut Hybrid) -> Result<bool, Wrong> {
    let nfa = engines::nfa(alloc, seen, "foo_bar")?;
    match hybrid.replace(nfa) {
        Ok(()) => Ok(false),
        Err(error) => {
            seen.note(error == SearchError::Memory)?;
            Ok(true)
        }
    }
}

/// Searches whose rows are in the cache make no request.
pub fn warm(alloc: Global, seen: &mut Seen) -> Result<(), Wrong> {
    let mut hybrid = engines::hybrid(alloc, seen, "foo_bar")?;
    expect_warm(alloc, seen, &mut hybrid)
}

fn expect_warm(alloc: Global, seen: &mut Seen, hybrid: &mut Hybrid) -> Result<(), Wrong> {
    expect_bar(hybrid)?;
    seen.opens(alloc, "warm searches of a hybrid");
    let searched = expect_bar(hybrid);
    seen.closes(alloc, "warm searches of a hybrid");
    searched
}
