//! Nothing returns `Memory` while there is memory. Each row catches code that gives up too early.

use super::expected::{Ask, engines_of, expect_answer, expect_answer_of, expect_is_match};
use super::shapes::{Shape, nfa_of};
use nfa_engines::backtrack::{self, BoundedBacktracker};
use nfa_engines::pikevm::PikeVM;
use regex_search_core::{Anchored, Input, PatternID, PatternSet};
use std::test::Fail;
use test_support::TestRuntime;
use test_support::engines::{Engines, fitting};
use test_support::samples::{backtracker, nfa_named, pikevm, with_capacity};
use test_support::text::{backtracked_list, backtracked_match, backtracked_slots};
use thompson_nfa::NFA;

#[test]
fn no_length_wants_memory(rt: HostRuntime) -> Result<(), Fail> {
    let alloc = rt.alloc();
    let engine = backtracker(alloc, "abc_a")?;
    let dots = vec![in alloc; b'.'; 209715]?;
    for len in (0..301).chain(209714..209716) {
        let want = if len < 209715 {
            "none - -"
        } else {
            "HaystackTooLong { len: 209715 } - -"
        };
        let input = Input::new(&dots).range(0..len);
        let mut cache = engine.create_cache(alloc);
        let text = backtracked_slots(alloc, &engine, &mut cache, &input, 2)?;
        assert_eq!(rt; text.as_str(), want, "{len}");
    }
    Ok(())
}

#[test]
fn no_number_of_matches_wants_memory(rt: HostRuntime) -> Result<(), Fail> {
    let mut want = String::new(rt.alloc());
    for at in 0..300usize {
        write!(want, "0 {at}..{}, ", at + 1)?;
    }
    let ones = Input::new(&[b'a'; 300]);
    expect_answer(&rt, "abc_a", ones, Ask::List, want.as_str());
    let split = Input::new(&[0x80; 8]);
    expect_answer(&rt, "empty", split, Ask::List, "0 8..8, ");
    Ok(())
}

// The default is 262144 bytes of marks.
#[test]
fn a_greater_capacity_is_used(rt: HostRuntime) -> Result<(), Fail> {
    let alloc = rt.alloc();
    let engine = with_capacity(alloc, "abc_a", 400000)?;
    let mut cache = engine.create_cache(alloc);
    let dots = vec![in alloc; b'.'; 300000]?;
    let found = backtracked_match(alloc, &engine, &mut cache, Input::new(&dots))?;
    assert_eq!(rt; found.as_str(), "none");
    let all = backtracked_list(alloc, &engine, &mut cache, Input::new(&dots))?;
    assert_eq!(rt; all.as_str(), "");
    Ok(())
}

const BARE: &str = "0 - - - - - - - - - - - -";

const FULL: &str = "0 0 0 0 0 0 0 0 0 0 0 0 0";

// A shape whose search goes deep or wide, a haystack, and the pattern and twelve slots.
const DEEP: &[(Shape, &[u8], &str)] = &[
    (Shape::Chain(300), b"", BARE),
    (Shape::Chain(10000), b"", BARE),
    (Shape::Captures(300), b"", FULL),
    (Shape::Captures(10000), b"", FULL),
    // The backtracker's stack then has more than 300,000 frames.
    (Shape::Captures(300000), b"", FULL),
    (Shape::Fan(10000), b"a", BARE),
    (Shape::Word(1000), &[b'a'; 999], BARE),
];

#[test]
fn no_depth_wants_memory(rt: HostRuntime) -> Result<(), Fail> {
    for &(shape, haystack, want) in DEEP {
        let mut engines = Engines::new(rt.alloc(), nfa_of(rt.alloc(), shape)?)?;
        let input = Input::new(haystack);
        expect_answer_of(&rt, &mut engines, "deep", input, Ask::Slots(12), want);
        expect_is_match(&rt, &mut engines, "deep", input, true);
    }
    Ok(())
}

#[test]
fn no_number_of_slots_wants_memory(rt: HostRuntime) -> Result<(), Fail> {
    let alloc = rt.alloc();
    let mut engines = engines_of(&rt, "groups");
    let input = Input::new(b"ab");
    for slot_len in [11, 12, 64, 1000] {
        let unset = " -".repeat(alloc, slot_len - 6)?;
        let want = format!(in alloc; "0 0 2 - - 0 2{unset}")?;
        let ask = Ask::Slots(slot_len);
        expect_answer_of(&rt, &mut engines, "groups", input, ask, want.as_str());
    }
    Ok(())
}

#[test]
fn anchored_searches_want_no_memory(rt: HostRuntime) {
    let mut engines = engines_of(&rt, "six");
    let second = PatternID::new(1).expect(&rt, "a pattern's number");
    let input = Input::new(b"foo123").anchored(Anchored::Pattern(second));
    expect_answer_of(&rt, &mut engines, "six", input, Ask::Match, "1 0..6");
    let input = input.anchored(Anchored::Yes);
    expect_is_match(&rt, &mut engines, "six", input, true);
}

const LONG: &[u8] = &[b'.'; 1000];

#[test]
fn copies_want_no_memory(rt: HostRuntime) -> Result<(), Fail> {
    let alloc = rt.alloc();
    expect_copies(&rt, &nfa_named(alloc, "groups")?)?;
    expect_copies(&rt, &nfa_named(alloc, "alnum100")?)?;
    expect_copies(&rt, &nfa_of(alloc, Shape::Word(1000))?)
}

// Copies of both engines and of their caches find no match.
fn expect_copies(rt: &impl TestRuntime, nfa: &NFA) -> Result<(), Fail> {
    let engine = BoundedBacktracker::new_from_nfa(nfa.clone()?)?;
    let same = engine.clone()?;
    let mut cache = engine.create_cache(rt.alloc());
    assert!(rt; !engine.try_is_match(&mut cache, Input::new(LONG))?);
    let mut copy = cache.clone()?;
    assert_eq!(rt; copy.memory_usage(), cache.memory_usage());
    assert!(rt; !same.try_is_match(&mut copy, Input::new(LONG))?);

    let vm = PikeVM::new_from_nfa(nfa.clone()?)?;
    let same = vm.clone()?;
    // Made for a small NFA.
    let mut cache = pikevm(rt.alloc(), "a_pair")?.create_cache(rt.alloc())?;
    vm.reset_cache(&mut cache)?;
    let mut copy = cache.clone()?;
    assert!(rt; copy.fits(&vm));
    assert!(rt; !same.is_match(fitting(&same, &mut copy), Input::new(LONG)));
    Ok(())
}

// Both engines make captures of eight slots.
#[test]
fn captures_want_no_memory(rt: HostRuntime) -> Result<(), Fail> {
    for name in ["date", "foo_bar"] {
        let captures = backtracker(rt.alloc(), name)?.create_captures(rt.alloc())?;
        assert_eq!(rt; captures.slots().len(), 8, "{name}");
        let captures = pikevm(rt.alloc(), name)?.create_captures(rt.alloc())?;
        assert_eq!(rt; captures.slots().len(), 8, "{name}");
    }
    Ok(())
}

#[test]
fn a_set_wants_no_memory(rt: HostRuntime) -> Result<(), Fail> {
    let mut set = PatternSet::new(rt.alloc(), 1000)?;
    let last = PatternID::new(999).expect(&rt, "a pattern's number");
    assert_eq!(rt; set.try_insert(last), Some(true));
    assert!(rt; set.contains(last));
    Ok(())
}

#[test]
fn what_is_not_set_is_the_default(rt: HostRuntime) -> Result<(), Fail> {
    let engine = BoundedBacktracker::builder()
        .configure(backtrack::Config::new())
        .build_from_nfa(nfa_named(rt.alloc(), "abc_a")?)?;
    assert_eq!(rt; engine.max_haystack_len(), 209714);
    Ok(())
}
