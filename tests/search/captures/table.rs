//! Lists of captures of the sample NFAs, of both engines.
use super::{DATE_SLOTS, expect_captures};
use crate::tests::{engine_named, threads, vm_named};
use callers::capture_lists::{collected, collected_with, tries_collected, tries_collected_with};
use nfa_engines::error::SearchError;
use nfa_engines::{Captures, Input};
use std::process::Abort;
use std::test::Fail;

// A pattern, and its slots.
type Row = (usize, &'static [Option<usize>]);

const FOOS: &[u8] = b"foo1 foo12 foo123";

const FOO_ROWS: &[Row] = &[
    (0, &[Some(0), Some(4), Some(3), Some(4)]),
    (0, &[Some(5), Some(10), Some(8), Some(10)]),
    (0, &[Some(11), Some(17), Some(14), Some(17)]),
];

// A name, a haystack, and the list of its captures.
const LISTS: &[(&str, &[u8], &[Row])] = &[
    ("a_bare", b"a", &[]),
    ("foo_num", FOOS, FOO_ROWS),
    ("date", b"2010-03-14", &[(0, DATE_SLOTS)]),
    (
        "groups",
        b"abac",
        &[
            (0, &[Some(0), Some(2), None, None, Some(0), Some(2)]),
            (0, &[Some(2), Some(4), Some(2), Some(3), None, None]),
        ],
    ),
    ("backwards", b"aa", &[]),
    (
        "snowman",
        b"a\xE2\x98\x83b\xE2\x98\x83",
        &[(0, &[Some(1), Some(4)]), (0, &[Some(5), Some(8)])],
    ),
    (
        "empty",
        b"a\xE2\x98\x83z",
        &[
            (0, &[Some(0), Some(0)]),
            (0, &[Some(1), Some(1)]),
            (0, &[Some(4), Some(4)]),
            (0, &[Some(5), Some(5)]),
        ],
    ),
    (
        "words_numbers",
        b"abc 1 foo 4567 0 quux",
        &[
            (0, &[Some(0), Some(3), None, None]),
            (1, &[None, None, Some(4), Some(5)]),
            (0, &[Some(6), Some(9), None, None]),
            (1, &[None, None, Some(10), Some(14)]),
            (1, &[None, None, Some(15), Some(16)]),
            (0, &[Some(17), Some(21), None, None]),
        ],
    ),
    ("a_or_empty", b"a\x80", &[(0, &[Some(2), Some(2)])]),
    ("a_or_empty", b"\x80a", &[(0, &[Some(1), Some(2)])]),
];

fn expect_items(
    rt: &(impl Abort + AllocGlobal),
    items: &[Result<Captures, SearchError>],
    rows: &[Row],
    name: &str,
) {
    assert_eq!(rt; items.len(), rows.len(), "{name}");
    for (item, &(pattern, slots)) in items.iter().zip(rows) {
        let captures = item.as_ref().expect(rt, name);
        expect_captures(rt, captures, Some(pattern), slots, name);
    }
}

fn expect_all(rt: &(impl Abort + AllocGlobal), all: &[Captures], rows: &[Row], name: &str) {
    assert_eq!(rt; all.len(), rows.len(), "{name}");
    for (captures, &(pattern, slots)) in all.iter().zip(rows) {
        expect_captures(rt, captures, Some(pattern), slots, name);
    }
}

// The list of each row, with a new engine and cache, item by item and as one value.
#[test]
fn pikevm_gives_the_lists(rt: HostRuntime) {
    for &(name, text, rows) in LISTS {
        let vm = vm_named(&rt, name);
        let mut cache = threads(&rt, &vm);
        let items = collected(rt.alloc(), &vm, &mut cache, text).expect(&rt, "memory");
        expect_items(&rt, &items, rows, name);
        expect_all(&rt, &all_piked(&rt, name, text), rows, name);
    }
}

pub(super) fn all_piked(rt: &(impl Abort + AllocGlobal), name: &str, text: &[u8]) -> Vec<Captures> {
    let vm = vm_named(rt, name);
    let mut cache = threads(rt, &vm);
    vm.captures_all(rt.alloc(), &mut cache, Input::new(text))
        .expect(rt, "memory")
}

#[test]
fn backtracker_gives_the_lists(rt: HostRuntime) {
    for &(name, text, rows) in LISTS {
        let engine = engine_named(&rt, name);
        let mut cache = engine.create_cache(rt.alloc());
        let items = tries_collected(rt.alloc(), &engine, &mut cache, text).expect(&rt, "memory");
        expect_items(&rt, &items, rows, name);
        expect_all(&rt, &all_backtracked(&rt, name, text), rows, name);
    }
}

pub(super) fn all_backtracked(
    rt: &(impl Abort + AllocGlobal),
    name: &str,
    text: &[u8],
) -> Vec<Captures> {
    let engine = engine_named(rt, name);
    let mut cache = engine.create_cache(rt.alloc());
    engine
        .try_captures_all(rt.alloc(), &mut cache, Input::new(text))
        .expect(rt, "captures")
}

#[test]
fn pikevm_gives_them_with_captures_of_the_caller(rt: HostRuntime) -> Result<(), Fail> {
    let alloc = rt.alloc();
    let vm = vm_named(&rt, "foo_num");
    let mut cache = threads(&rt, &vm);
    let captures = vm.create_captures(alloc)?;
    let items = collected_with(alloc, &vm, &mut cache, captures, FOOS).expect(&rt, "memory");
    expect_items(&rt, &items, FOO_ROWS, "foo_num");
    Ok(())
}

#[test]
fn backtracker_gives_them_with_captures_of_the_caller(rt: HostRuntime) -> Result<(), Fail> {
    let alloc = rt.alloc();
    let engine = engine_named(&rt, "foo_num");
    let mut cache = engine.create_cache(alloc);
    let captures = engine.create_captures(alloc)?;
    let items = tries_collected_with(alloc, &engine, &mut cache, captures, FOOS).expect(
        &rt, "memory",
    );
    expect_items(&rt, &items, FOO_ROWS, "foo_num");
    Ok(())
}
