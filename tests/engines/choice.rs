//! Searches of `Choice`, with the engine that runs.

mod grid;
mod lists;

use nfa_choice::choose::{Choice, Engine};
use nfa_engines::error::SearchError;
use nfa_engines::{backtrack, pikevm};
use regex_search_core::{Captures, Input, MatchKind, NonMaxUsize};
use std::test::Fail;
use test_support::TestRuntime;
use test_support::samples::nfa_named;
use test_support::text::{match_text, slots_text, write_item};
use thompson_nfa::NFA;

fn choice_of(rt: &impl TestRuntime, nfa: NFA) -> Choice {
    let (back, pike) = (backtrack::Config::new(), pikevm::Config::new());
    Choice::new(rt.alloc(), nfa, back, pike).expect(rt, "memory")
}

// A `Choice` of the sample, with this number of bytes of marks, or the default.
fn configured(rt: &impl TestRuntime, name: &str, marks: Option<usize>, kind: MatchKind) -> Choice {
    let nfa = nfa_named(rt.alloc(), name).expect(rt, "a sample");
    let back = match marks {
        Some(bytes) => backtrack::Config::new().visited_capacity(bytes),
        None => backtrack::Config::new(),
    };
    let pike = pikevm::Config::new().match_kind(kind);
    Choice::new(rt.alloc(), nfa, back, pike).expect(rt, "memory")
}

// Captures of all groups.
fn captures_of(rt: &impl TestRuntime, choice: &Choice) -> Captures {
    let groups = choice.get_nfa().group_info().clone().expect(rt, "memory");
    Captures::all(rt.alloc(), groups).expect(rt, "memory")
}

// The pattern and the slots of the captures, and which engine ran.
fn captures_text(rt: &impl TestRuntime, captures: &Captures, choice: &Choice) -> String {
    let row = slots_text(rt.alloc(), captures.pattern(), captures.slots()).expect(rt, "memory");
    format!(in rt.alloc(); "{row} {:?}", choice.ran()).expect(rt, "memory")
}

// Expects this pattern and span of `find`, or `none`, and then which engine ran.
fn expect_found(rt: &impl TestRuntime, choice: &mut Choice, input: Input<'_>, want: &str) {
    let found = match_text(rt.alloc(), choice.find(input)).expect(rt, "memory");
    let text = format!(in rt.alloc(); "{found} {:?}", choice.ran()).expect(rt, "memory");
    assert_eq!(rt; text.as_str(), want, "{input:?}");
}

// Expects this answer of `search_slots` with six slots, and then which engine ran.
fn expect_six_slots(rt: &impl TestRuntime, choice: &mut Choice, input: Input<'_>, want: &str) {
    let mut slots = [NonMaxUsize::new(7); 6];
    let pattern = choice.search_slots(&input, &mut slots);
    let row = slots_text(rt.alloc(), pattern, &slots).expect(rt, "memory");
    let text = format!(in rt.alloc(); "{row} {:?}", choice.ran()).expect(rt, "memory");
    assert_eq!(rt; text.as_str(), want, "{input:?}");
}

// A choice, a search, and its answers: by `find`, with the engine that ran, and by `is_match`.
struct Row {
    name: &'static str,
    capacity: Option<usize>,
    kind: MatchKind,
    haystack: &'static [u8],
    earliest: bool,
    found: &'static str,
    is_match: bool,
}

const LEFTMOST: Row = Row {
    name: "abcd_b",
    capacity: None,
    kind: MatchKind::LeftmostFirst,
    haystack: b"abcd",
    earliest: false,
    found: "0 0..4 Some(Backtracker)",
    is_match: true,
};

const ROWS: &[Row] = &[
    LEFTMOST,
    Row {
        earliest: true,
        found: "0 1..2 Some(PikeVM)",
        ..LEFTMOST
    },
    Row {
        name: "alnum100",
        capacity: Some(10),
        haystack: b"abc",
        found: "none Some(PikeVM)",
        is_match: false,
        ..LEFTMOST
    },
    Row {
        name: "alnum100",
        capacity: Some(10),
        haystack: &[b'a'; 100],
        found: "0 0..100 Some(PikeVM)",
        ..LEFTMOST
    },
    Row {
        name: "a_pair",
        capacity: Some(1),
        haystack: &[b'a'; 32],
        found: "none Some(PikeVM)",
        ..LEFTMOST
    },
    Row {
        name: "snowman",
        haystack: b"a\xE2\x98\x83b",
        earliest: true,
        found: "none Some(PikeVM)",
        ..LEFTMOST
    },
    Row {
        name: "abc_a",
        kind: MatchKind::All,
        haystack: b"abca",
        found: "0 3..4 Some(PikeVM)",
        ..LEFTMOST
    },
];

#[test]
fn answers_whichever_engine_runs(rt: HostRuntime) {
    for row in ROWS {
        let mut choice = configured(&rt, row.name, row.capacity, row.kind);
        assert!(rt; choice.ran().is_none(), "{}", row.name);
        let input = Input::new(row.haystack).earliest(row.earliest);
        expect_found(&rt, &mut choice, input, row.found);
        assert_eq!(rt; choice.is_match(input), row.is_match, "{}", row.name);
    }
}

#[test]
fn finds_a_pattern_without_a_span(rt: HostRuntime) {
    let mut pair = configured(&rt, "a_pair", Some(1), MatchKind::LeftmostFirst);
    let input = Input::new(&[b'a'; 32]);
    expect_six_slots(&rt, &mut pair, input, "0 - - - - - - Some(PikeVM)");
}

// A text with six matches of `words_numbers`.
const WORDS_AND_NUMBERS: &[u8] = b"abc 1 foo 4567 0 quux";

#[test]
fn gives_all_matches(rt: HostRuntime) -> Result<(), Fail> {
    let mut words = choice_of(&rt, nfa_named(rt.alloc(), "words_numbers")?);
    let mut text = String::new(rt.alloc());
    for found in words.find_iter(Input::new(WORDS_AND_NUMBERS)) {
        write_item(&mut text, Ok(found))?;
    }
    write!(text, " {:?}", words.ran())?;
    let want = "0 0..3, 1 4..5, 0 6..9, 1 10..14, 1 15..16, 0 17..21,  Some(Backtracker)";
    assert_eq!(rt; text.as_str(), want);
    Ok(())
}

// A replacement changes the NFA, but not which engine ran last.
#[test]
fn searches_another_nfa(rt: HostRuntime) -> Result<(), Fail> {
    let alloc = rt.alloc();
    let mut choice = choice_of(&rt, nfa_named(alloc, "groups")?);
    choice.replace(nfa_named(alloc, "abc")?)?;
    assert_eq!(rt; choice.ran(), None);
    let whole = Input::new(b"abc");
    expect_found(&rt, &mut choice, whole, "0 0..3 Some(Backtracker)");
    let part = Input::new(b"ab");
    expect_found(&rt, &mut choice, part, "none Some(Backtracker)");
    expect_found(&rt, &mut choice, part.earliest(true), "none Some(PikeVM)");
    choice.replace(nfa_named(alloc, "abc")?)?;
    assert_eq!(rt; choice.ran(), Some(Engine::PikeVM));
    // An NFA with more slots and states replaces a smaller one. If allocation fails, the old one stays.
    match choice.replace(nfa_named(alloc, "groups")?) {
        Ok(()) => {
            let want = "0 0 2 - - 0 2 Some(Backtracker)";
            expect_six_slots(&rt, &mut choice, part, want);
            let mut captures = captures_of(&rt, &choice);
            choice.search(&part, &mut captures);
            let text = captures_text(&rt, &captures, &choice);
            assert_eq!(rt; text.as_str(), want);
        }
        Err(error) => {
            assert_eq!(rt; error, SearchError::Memory);
            expect_found(&rt, &mut choice, whole, "0 0..3 Some(Backtracker)");
        }
    }
    Ok(())
}

// The `Debug` text of a new choice of the NFA that never matches.
const NEVER: &str = "Choice { \
back: BoundedBacktracker { config: Config { visited_capacity: None }, mark_limit: 2097152, first: FirstBytes { .. }, \
nfa: NFA { states: [Fail], anchored: StateID(0), unanchored: StateID(0), patterns: [], \
groups: GroupInfo { names: [], slot_len: 0 }, has_empty: false, utf8: false } }, \
pike: PikeVM { config: Config { match_kind: None }, first: FirstBytes { .. }, \
nfa: NFA { states: [Fail], anchored: StateID(0), unanchored: StateID(0), patterns: [], \
groups: GroupInfo { names: [], slot_len: 0 }, has_empty: false, utf8: false } }, \
back_cache: Cache { scratch: Scratch { stack: [], \
visited: Visited { blocks: [], used: 0, turns: Counter }, scans: Counter }, slots: [], \
answered: Counter, refused: Counter, past_scans: Counter, past_turns: Counter }, \
pike_cache: Cache { threads: Threads { frames: [Explore { sid: StateID(0) }], \
curr: ActiveStates { parts: Parts { kept: [StateID(0), StateID(0)], rows: [], len: 0, width: 0 } }, \
reached: ClosureOutput { seen: Seen { stamps: [0], newest: 1, turns: Counter }, \
next: ActiveStates { parts: Parts { kept: [StateID(0), StateID(0)], rows: [], len: 0, width: 0 } } }, \
scans: Counter }, found: [], slots: 0, patterns: 0, past_scans: Counter, past_turns: Counter }, \
ran: None }";

// A choice shows both engines, their caches and which one ran. An iterator shows the choice and its own state.
#[test]
fn a_choice_and_its_matches_are_shown(rt: HostRuntime) -> Result<(), Fail> {
    let alloc = rt.alloc();
    let mut choice = choice_of(&rt, NFA::never_match(alloc)?);
    let shown = format!(in alloc; "{choice:?}")?;
    assert_eq!(rt; shown.as_str(), NEVER);
    let input = Input::new(b"a");
    choice.is_match(input);
    let shown = format!(in alloc; "{choice:?}")?;
    let ran = shown.as_str().ends_with(" }, ran: Some(Backtracker) }");
    assert!(rt; ran, "{shown}");
    let want = format!(in alloc;
        "ChoiceMatches {{ choice: {shown}, steps: Steps {{ searcher: Searcher {{ input: {input:?}, \
        last_match_end: None }}, backend: ByRule, done: false }} }}"
    )?;
    let matches = format!(in alloc; "{:?}", choice.find_iter(input))?;
    assert_eq!(rt; matches, want);
    Ok(())
}
