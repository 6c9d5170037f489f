//! NFAs that no regular expression is compiled to, and odd inputs.

use super::expected::{Ask, engines_of, expect_answer_of, expect_is_match};
use super::shapes::{Shape, nfa_of};
use nfa_engines::pikevm::{Config, PikeVM};
use regex_search_core::{Anchored, Input, MatchKind, PatternID, PatternSet};
use std::test::Fail;
use test_support::engines::{Engines, fitting};
use test_support::samples::NAMES;

// Anchored to the pattern of this number, which need not exist, or unanchored.
fn mode(pattern: Option<usize>) -> Anchored {
    match pattern.and_then(PatternID::new) {
        Some(pattern) => Anchored::Pattern(pattern),
        None => Anchored::No,
    }
}

// A shape, a haystack, the pattern that the search is anchored to, the pattern and four slots, the match, all matches,
// and whether there is a match.
type Row = (
    Shape,
    &'static [u8],
    Option<usize>,
    &'static str,
    &'static str,
    &'static str,
    bool,
);

// `TwoWays` has more than 2 to the power 60 paths here, so the test ends only if no pair is tried twice.
const ROWS: &[Row] = &[
    (Shape::TwoBare, b"a", None, "0 - - - -", "none", "", true),
    (Shape::TwoBare, b"a", Some(0), "0 - - - -", "none", "", true),
    (Shape::TwoBare, b"a", Some(1), "1 - - - -", "none", "", true),
    (
        Shape::TwoBare,
        b"a",
        Some(2),
        "none - - - -",
        "none",
        "",
        false,
    ),
    (Shape::UnionLoop, b"", None, "0 - - - -", "none", "", true),
    (
        Shape::TwoWays,
        &[b'a'; 60],
        None,
        "none - - - -",
        "none",
        "",
        false,
    ),
];

#[test]
fn odd_automata_are_searched(rt: HostRuntime) -> Result<(), Fail> {
    for &(shape, haystack, pattern, slots, found, list, is_match) in ROWS {
        let mut engines = Engines::new(rt.alloc(), nfa_of(rt.alloc(), shape)?)?;
        let input = Input::new(haystack).anchored(mode(pattern));
        expect_answer_of(&rt, &mut engines, "odd", input, Ask::Slots(4), slots);
        expect_answer_of(&rt, &mut engines, "odd", input, Ask::Match, found);
        expect_answer_of(&rt, &mut engines, "odd", input, Ask::List, list);
        expect_is_match(&rt, &mut engines, "odd", input, is_match);
    }
    Ok(())
}

#[test]
fn bare_patterns_overlap(rt: HostRuntime) -> Result<(), Fail> {
    let nfa = nfa_of(rt.alloc(), Shape::TwoBare)?;
    let config = Config::new().match_kind(MatchKind::All);
    let vm = PikeVM::builder().configure(config).build_from_nfa(nfa)?;
    let mut cache = vm.create_cache(rt.alloc())?;
    let mut set = PatternSet::new(rt.alloc(), 2)?;
    vm.which_overlapping_matches(fitting(&vm, &mut cache), &Input::new(b"a"), &mut set);
    assert!(rt; set.is_full());
    Ok(())
}

const DONE: &[&[u8]] = &[b"aa", b"\xE2\x98\x83"];

#[test]
fn a_done_input_has_no_match(rt: HostRuntime) -> Result<(), Fail> {
    let alloc = rt.alloc();
    for &name in NAMES {
        for &haystack in DONE {
            let mut engines = engines_of(&rt, name);
            let input = Input::new(haystack).range(2..1);
            let unset = " -".repeat(alloc, engines.slot_len())?;
            let none = format!(in alloc; "none{unset}")?;
            expect_answer_of(&rt, &mut engines, name, input, Ask::AllSlots, none.as_str());
            expect_answer_of(&rt, &mut engines, name, input, Ask::Slots(0), "none");
            expect_answer_of(&rt, &mut engines, name, input, Ask::Match, "none");
            expect_answer_of(&rt, &mut engines, name, input, Ask::List, "");
            expect_is_match(&rt, &mut engines, name, input, false);
        }
    }
    Ok(())
}

// Where a search may start: anywhere, or at the start of the span, for every pattern or for one.
#[derive(Clone, Copy, Debug)]
enum Bound {
    Anywhere,
    Start,
    Pattern(usize),
}

// A name, a haystack, where the search may start, and the pattern and ten slots.
const TEN_SLOTS: &[(&str, &[u8], Bound, &str)] = &[
    ("groups", b"ab", Bound::Anywhere, "0 0 2 - - 0 2 - - - -"),
    ("loop", b"", Bound::Anywhere, "0 0 0 - - - - - - - -"),
    ("a_bare", b"a", Bound::Anywhere, "0 - - - - - - - - - -"),
    ("backwards", b"a", Bound::Anywhere, "0 1 0 - - - - - - - -"),
    ("abc", b"abc", Bound::Start, "0 0 3 - - - - - - - -"),
    ("abc", b"abx", Bound::Start, "none - - - - - - - - - -"),
    ("abc", b"abc", Bound::Pattern(0), "0 0 3 - - - - - - - -"),
    ("abc", b"abc", Bound::Pattern(5), "none - - - - - - - - - -"),
    (
        "groups",
        b"ab",
        Bound::Pattern(5),
        "none - - - - - - - - - -",
    ),
    (
        "empty",
        b"\x80\x80",
        Bound::Anywhere,
        "0 2 2 - - - - - - - -",
    ),
];

fn bound_to<'h>(input: Input<'h>, bound: Bound) -> Input<'h> {
    match bound {
        Bound::Anywhere => input,
        Bound::Start => input.anchored(Anchored::Yes),
        Bound::Pattern(pattern) => input.anchored(mode(Some(pattern))),
    }
}

// Each answer is the beginning of the row's, with the pattern and `slot_len` slots.
#[test]
fn each_number_of_slots_cuts_the_same_answer(rt: HostRuntime) -> Result<(), Fail> {
    for &(name, haystack, bound, want) in TEN_SLOTS {
        let mut engines = engines_of(&rt, name);
        let input = bound_to(Input::new(haystack), bound);
        for slot_len in 0..11 {
            for text in &engines.slots_texts(rt.alloc(), &input, slot_len)? {
                let slots = text.as_str().split(' ').count() - 1;
                assert_eq!(rt; slots, slot_len, "{name}");
                assert!(rt; want.starts_with(text.as_str()), "{name}: {text}");
            }
        }
    }
    Ok(())
}
