//! Single searches that fill captures, also those of another NFA: with all slots, with only those of the matches, and
//! with none.

use super::{DATE_SLOTS, expect_captures};
use crate::tests::{engine_named, threads, vm_named};
use nfa_engines::{Captures, Input};
use std::process::Abort;
use std::test::Fail;
use test_support::samples::nfa_named;

// Which slots captures have: none, those of each match, or those of each group.
#[derive(Clone, Copy, Debug)]
enum Kept {
    Nothing,
    Matches,
    Groups,
}

use Kept::{Groups, Matches, Nothing};

// The sample that is searched, the one that the captures are of, which slots they have, the haystack, and the pattern
// and the slots after the search.
type Row = (
    &'static str,
    &'static str,
    Kept,
    &'static [u8],
    Option<usize>,
    &'static [Option<usize>],
);

// The slots are the first ones of the search. Slots that the NFA does not have are not set.
const ROWS: &[Row] = &[
    (
        "abc",
        "groups",
        Groups,
        b"xabc",
        Some(0),
        &[Some(1), Some(4), None, None, None, None],
    ),
    (
        "abc",
        "groups",
        Matches,
        b"xabc",
        Some(0),
        &[Some(1), Some(4)],
    ),
    ("abc", "groups", Nothing, b"xabc", Some(0), &[]),
    ("abc", "groups", Groups, b"xab", None, &[None; 6]),
    ("abc", "groups", Matches, b"xab", None, &[None; 2]),
    ("abc", "groups", Nothing, b"xab", None, &[]),
    (
        "groups",
        "date",
        Groups,
        b"ab",
        Some(0),
        &[Some(0), Some(2), None, None, Some(0), Some(2), None, None],
    ),
    (
        "groups",
        "groups",
        Groups,
        b"ab",
        Some(0),
        &[Some(0), Some(2), None, None, Some(0), Some(2)],
    ),
    (
        "groups",
        "groups",
        Matches,
        b"ab",
        Some(0),
        &[Some(0), Some(2)],
    ),
    ("groups", "groups", Nothing, b"ab", Some(0), &[]),
    ("date", "date", Groups, b"2010-03-14", Some(0), DATE_SLOTS),
    // The second pattern matches, and the captures have slots only for the first one.
    (
        "words_numbers",
        "abc",
        Groups,
        b"4567",
        Some(1),
        &[None, None],
    ),
];

fn captures_of(rt: &(impl Abort + AllocGlobal), name: &str, kept: Kept) -> Captures {
    let alloc = rt.alloc();
    let nfa = nfa_named(alloc, name).expect(rt, name);
    let groups = nfa.group_info().clone().expect(rt, "memory");
    let captures = match kept {
        Nothing => Captures::empty(alloc, groups),
        Matches => Captures::matches(alloc, groups),
        Groups => Captures::all(alloc, groups),
    };
    captures.expect(rt, "memory")
}

// Expects no pattern, and `count` slots that are not set.
fn expect_no_match(rt: &impl Abort, captures: &Captures, count: usize, name: &str) {
    assert!(rt; !captures.is_match(), "{name}");
    assert_eq!(rt; captures.slots().len(), count, "{name}");
    assert!(rt;
        captures.slots().iter().all(|slot| slot.is_none()),
        "{name}"
    );
}

// Searches with the input by reference and by value, and between them one that finds nothing.
#[test]
fn the_pikevm_fills_them(rt: HostRuntime) {
    for &(name, of, kept, haystack, pattern, slots) in ROWS {
        let vm = vm_named(&rt, name);
        let mut cache = threads(&rt, &vm);
        let mut captures = captures_of(&rt, of, kept);
        vm.search(&mut cache, &Input::new(haystack), &mut captures);
        expect_captures(&rt, &captures, pattern, slots, name);
        vm.search(&mut cache, &Input::new(b""), &mut captures);
        expect_no_match(&rt, &captures, slots.len(), name);
        vm.captures(&mut cache, Input::new(haystack), &mut captures);
        expect_captures(&rt, &captures, pattern, slots, name);
    }
}

#[test]
fn the_backtracker_fills_them(rt: HostRuntime) -> Result<(), Fail> {
    for &(name, of, kept, haystack, pattern, slots) in ROWS {
        let engine = engine_named(&rt, name);
        let mut cache = engine.create_cache(rt.alloc());
        let mut captures = captures_of(&rt, of, kept);
        engine.try_search(&mut cache, &Input::new(haystack), &mut captures)?;
        expect_captures(&rt, &captures, pattern, slots, name);
        engine.try_search(&mut cache, &Input::new(b""), &mut captures)?;
        expect_no_match(&rt, &captures, slots.len(), name);
        engine.try_captures(&mut cache, Input::new(haystack), &mut captures)?;
        expect_captures(&rt, &captures, pattern, slots, name);
    }
    Ok(())
}
