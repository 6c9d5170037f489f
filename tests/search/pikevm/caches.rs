//! Which caches fit which engines, and searches with them.

use crate::tests::{expect_text, threads, vm_named};
use nfa_engines::pikevm::{Cache, PikeVM};
use nfa_samples::answers::OF_SLOT_LENS;
use regex_search_core::{Anchored, Input, PatternID};
use std::alloc::Global;
use std::process::Abort;
use std::test::Fail;
use test_support::machine::Machine;
use test_support::samples::MakeError;
use test_support::text::{piked_match, piked_slots};

// Expects this answer with the cache, in `slot_len` slots.
fn expect_slots(
    rt: &(impl Abort + AllocGlobal),
    vm: &PikeVM,
    cache: &mut Cache,
    (input, slot_len): (Input<'_>, usize),
    want: &str,
) {
    assert!(rt; cache.fits(vm));
    let text = piked_slots(rt.alloc(), vm, cache, &input, slot_len);
    expect_text(rt, &(input, slot_len), text, want);
}

fn expect_abc(rt: &(impl Abort + AllocGlobal), abc: &PikeVM, cache: &mut Cache) {
    for &(haystack, slot_len, want) in OF_SLOT_LENS {
        let input = Input::new(haystack.as_bytes()).anchored(Anchored::Yes);
        expect_slots(rt, abc, cache, (input, slot_len), want);
    }
    let unknown = PatternID::new(5).expect(rt, "a pattern's number");
    let input = Input::new(b"abc").anchored(Anchored::Pattern(unknown));
    expect_slots(rt, abc, cache, (input, 4), "none - - - -");
}

// A cache for `groups` works with `abc` too, also after a reset for `abc`.
#[test]
fn a_cache_fits_smaller_engines(rt: HostRuntime) -> Result<(), Fail> {
    let groups = vm_named(&rt, "groups");
    let abc = vm_named(&rt, "abc");
    let mut cache = threads(&rt, &groups);
    let input = Input::new(b"ab");
    expect_slots(&rt, &groups, &mut cache, (input, 6), "0 0 2 - - 0 2");
    expect_abc(&rt, &abc, &mut cache);
    abc.reset_cache(&mut cache)?;
    assert!(rt; !cache.fits(&groups));
    expect_abc(&rt, &abc, &mut cache);
    Ok(())
}

// The sample that a cache is made for, the one that it is used with, and whether it fits.
const FITS: &[(&str, &str, bool)] = &[
    ("loop", "a_star", true),
    ("a_star", "loop", false),
    ("foo_bar", "abc_ab", true),
    ("snowman", "abc_a", true),
    ("snowman", "three_digits", true),
    ("abc_a", "snowman", true),
    ("abc", "groups", false),
    // Each lacks only one thing: patterns, stack frames, or states. No cache of a sample lacks only slots.
    ("date", "b_a", false),
    ("alnum100", "a_star", false),
    ("loop", "abc", false),
];

#[test]
fn each_number_of_a_cache_counts(rt: HostRuntime) {
    for &(made_for, used_with, want) in FITS {
        let cache = threads(&rt, &vm_named(&rt, made_for));
        let vm = vm_named(&rt, used_with);
        assert_eq!(rt; cache.fits(&vm), want, "{made_for}, {used_with}");
    }
}

// A PikeVM of three states, and of a pattern with `explicit` explicit groups.
fn with_groups(alloc: Global, explicit: usize) -> Result<PikeVM, MakeError> {
    let mut machine = Machine::new(alloc);
    machine.capture(0, 1)?;
    machine.capture(1, 2)?;
    machine.accept(0)?;
    machine.pattern(0)?;
    machine.groups(explicit)?;
    Ok(PikeVM::new_from_nfa(machine.build(0, 0)?)?)
}

// The number of groups that a cache is made for, the number that it is used with, and whether it fits.
const FITS_GROUPS: &[(usize, usize, bool)] = &[
    (0, 0, true),
    (1, 0, true),
    (0, 1, false),
    (1, 2, false),
];

#[test]
fn the_number_of_slots_alone_counts(rt: HostRuntime) -> Result<(), Fail> {
    let alloc = rt.alloc();
    for &(made_for, used_with, want) in FITS_GROUPS {
        let cache = threads(&rt, &with_groups(alloc, made_for)?);
        let vm = with_groups(alloc, used_with)?;
        assert_eq!(rt; cache.fits(&vm), want, "{made_for}, {used_with}");
    }
    Ok(())
}

// The sample that a cache is made for; then samples that search with it, each with a haystack and the match.
const ONE_CACHE: &[(&str, &[(&str, &str, &str)])] = &[
    ("loop", &[("a_star", "aaa", "0 0..3")]),
    (
        "snowman",
        &[
            ("abc_a", "abc", "0 0..3"),
            ("three_digits", "123", "0 0..3"),
            ("snowman", "a☃b", "0 1..4"),
        ],
    ),
    ("abc_a", &[("snowman", "a☃b", "0 1..4")]),
];

#[test]
fn one_cache_serves_one_engine_after_the_other(rt: HostRuntime) {
    for &(made_for, searches) in ONE_CACHE {
        let mut cache = threads(&rt, &vm_named(&rt, made_for));
        for &(name, haystack, want) in searches {
            let vm = vm_named(&rt, name);
            assert!(rt; cache.fits(&vm), "{name}");
            let input = Input::new(haystack.as_bytes());
            let text = piked_match(rt.alloc(), &vm, &mut cache, input);
            expect_text(&rt, &name, text, want);
        }
    }
}
