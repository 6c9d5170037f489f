//! The engine that chooses never fails, whatever memory is refused.

use super::iteration::{A_LONG_WORD, LONG_WORD_LAST, WORDS_AND_NUMBERS};
use super::searches::are_groups;
use super::{Seen, Wrong, engines, expect};
use nfa_choice::choose::Choice;
use nfa_engines::error::SearchError;
use regex_search_core::{Captures, Input, NonMaxUsize};
use std::alloc::Global;
use test_support::samples::parts;

/// Each search answers, whatever is refused.
pub fn searches(alloc: Global, seen: &mut Seen) -> Result<(), Wrong> {
    finds(alloc, seen)?;
    asks(alloc, seen)?;
    fills(alloc, seen)?;
    catches(alloc, seen)
}

fn finds(alloc: Global, seen: &mut Seen) -> Result<(), Wrong> {
    let mut choice = engines::choice(alloc, seen, "groups")?;
    let found = choice.find(Input::new(b"ab")).map(parts);
    expect(found == Some((0, 0, 2)), "the chosen match")
}

fn asks(alloc: Global, seen: &mut Seen) -> Result<(), Wrong> {
    let mut choice = engines::choice(alloc, seen, "groups")?;
    let is_match = choice.is_match(Input::new(b"ab"));
    expect(is_match, "whether there is a chosen match")
}

fn fills(alloc: Global, seen: &mut Seen) -> Result<(), Wrong> {
    let mut choice = engines::choice(alloc, seen, "groups")?;
    expect_groups(&mut choice, "the chosen slots")
}

fn expect_groups(choice: &mut Choice, wrong: &'static str) -> Result<(), Wrong> {
    let mut slots = [NonMaxUsize::new(7); 6];
    let pattern = choice.search_slots(&Input::new(b"ab"), &mut slots);
    expect(are_groups(pattern, &slots), wrong)
}

fn catches(alloc: Global, seen: &mut Seen) -> Result<(), Wrong> {
    let mut choice = engines::choice(alloc, seen, "groups")?;
    expect_catch(alloc, seen, &mut choice)
}

fn expect_catch(alloc: Global, seen: &mut Seen, choice: &mut Choice) -> Result<(), Wrong> {
    let mut captures = engines::captures(alloc, seen, choice.get_nfa().group_info())?;
    expect_caught(choice, &mut captures)
}

fn expect_caught(choice: &mut Choice, captures: &mut Captures) -> Result<(), Wrong> {
    choice.search(&Input::new(b"ab"), captures);
    expect(
        are_groups(captures.pattern(), captures.slots()),
        "the chosen captures",
    )
}

/// The list is whole, whatever is refused: before its first match, or behind one.
pub fn lists(alloc: Global, seen: &mut Seen) -> Result<(), Wrong> {
    expect_new_list(alloc, seen, b"abc 1 foo 4567 0 quux", WORDS_AND_NUMBERS)?;
    expect_new_list(alloc, seen, A_LONG_WORD.as_bytes(), LONG_WORD_LAST)
}

fn expect_new_list(
    alloc: Global,
    seen: &mut Seen,
    text: &[u8],
    all: &[(usize, usize, usize)],
) -> Result<(), Wrong> {
    let mut choice = engines::choice(alloc, seen, "words_numbers")?;
    expect_list(&mut choice, text, all)
}

fn expect_list(
    choice: &mut Choice,
    text: &[u8],
    all: &[(usize, usize, usize)],
) -> Result<(), Wrong> {
    let mut wants = all.iter();
    for found in choice.find_iter(Input::new(text)) {
        expect(wants.next() == Some(&parts(found)), "a chosen item")?;
    }
    expect(wants.next().is_none(), "the length of the chosen list")
}

/// A refused replacement changes nothing: by an NFA of more slots, and by one of more states, slots and patterns, so
/// that the cache of the PikeVM fits neither.
pub fn replacements(alloc: Global, seen: &mut Seen) -> Result<(), Wrong> {
    replaced_by_groups(alloc, seen)?;
    replaced_by_foo_bar(alloc, seen)
}

fn replaced_by_groups(alloc: Global, seen: &mut Seen) -> Result<(), Wrong> {
    let mut choice = engines::choice(alloc, seen, "abc")?;
    expect_groups_after(alloc, seen, &mut choice)
}

fn expect_groups_after(alloc: Global, seen: &mut Seen, choice: &mut Choice) -> Result<(), Wrong> {
    expect_replacement(alloc, seen, choice, "groups")?;
    expect_groups(choice, "the new slots")
}

fn replaced_by_foo_bar(alloc: Global, seen: &mut Seen) -> Result<(), Wrong> {
    let mut choice = engines::choice(alloc, seen, "abc")?;
    expect_foo_after(alloc, seen, &mut choice)
}

fn expect_foo_after(alloc: Global, seen: &mut Seen, choice: &mut Choice) -> Result<(), Wrong> {
    expect_replacement(alloc, seen, choice, "foo_bar")?;
    expect_foo(choice)
}

fn expect_replacement(
    alloc: Global,
    seen: &mut Seen,
    choice: &mut Choice,
    name: &str,
) -> Result<(), Wrong> {
    expect_abc(choice, "the old match")?;
    if is_refused(alloc, seen, choice, name)? {
        expect_abc(choice, "the old match after a refusal")?;
        let again = is_refused(alloc, seen, choice, name)?;
        expect(!again, "two refusals of a replacement")?;
    }
    Ok(())
}

// By both engines, of which the PikeVM looks for the earliest match.
fn expect_foo(choice: &mut Choice) -> Result<(), Wrong> {
    let input = Input::new(b"xbarfoo");
    let found = choice.find(input).map(parts);
    expect(found == Some((1, 1, 4)), "the new match")?;
    let found = choice.find(Input::new(b"foobar").earliest(true)).map(parts);
    expect(found == Some((0, 0, 3)), "the new earliest match")
}

fn expect_abc(choice: &mut Choice, wrong: &'static str) -> Result<(), Wrong> {
    let found = choice.find(Input::new(b"abc")).map(parts);
    expect(found == Some((0, 0, 3)), wrong)
}

// Whether the replacement by the sample was refused memory.
fn is_refused(
    alloc: Global,
    seen: &mut Seen,
    choice: &mut Choice,
    name: &str,
) -> Result<bool, Wrong> {
    let nfa = engines::nfa(alloc, seen, name)?;
    match choice.replace(nfa) {
        Ok(()) => Ok(false),
        Err(error) => {
            seen.note(error == SearchError::Memory)?;
            Ok(true)
        }
    }
}
