//! Tests of NFAs: how they are made and read.
use super::fixtures::{id, pattern};
use super::shown::expect_shown;
use std::alloc::Global;
use std::process::Abort;
use std::test::Fail;
use test_support::machine::Machine;
use test_support::samples::MakeError;
use thompson_nfa::{BuildError, Look, NFA};

/// An NFA with a state of each kind. Its two patterns start at 1 and 2 and have no explicit groups. Searches start at 0
/// and 8.
fn one_of_each(alloc: Global) -> Result<NFA, MakeError> {
    let mut machine = Machine::new(alloc);
    machine.set_flags(true, false);
    machine.union(&[1, 2])?;
    machine.bytes(0x61, 0x7A, 9)?;
    machine.sparse(&[(0x61, 0x7A, 9)])?;
    machine.dense(0, &[None, Some(9)])?;
    machine.assert(Look::Start, 9)?;
    machine.either(3, 4)?;
    machine.capture(3, 9)?;
    machine.fail()?;
    machine.either(0, 5)?;
    machine.accept(1)?;
    machine.pattern(1)?;
    machine.groups(0)?;
    machine.pattern(2)?;
    machine.groups(0)?;
    machine.build(0, 8)
}

#[test]
fn reads(rt: HostRuntime) -> Result<(), Fail> {
    let made = one_of_each(rt.alloc())?;
    expect_one_of_each(&rt, &made);
    expect_one_of_each(&rt, &made.clone()?);
    Ok(())
}

fn expect_one_of_each(rt: &(impl Abort + AllocGlobal), nfa: &NFA) {
    assert_eq!(rt; nfa.states().len(), 10);
    assert_eq!(rt; nfa.start_anchored(), id(rt, 0));
    assert_eq!(rt; nfa.start_unanchored(), id(rt, 8));
    assert!(rt; !nfa.is_always_start_anchored());
    assert_eq!(rt; nfa.pattern_len(), 2);
    assert_eq!(rt; nfa.start_pattern(pattern(rt, 1)), Some(id(rt, 2)));
    assert_eq!(rt; nfa.start_pattern(pattern(rt, 2)), None);
    assert!(rt; nfa.has_empty() && !nfa.is_utf8());
    assert_eq!(rt; nfa.group_info().slot_len(), 4);
    let last = nfa.state(nfa.start_unanchored());
    let want = "BinaryUnion { alt1: StateID(0), alt2: StateID(5) }";
    expect_shown(rt, last, want);
}

const ALWAYS: &str = "[Capture { next: StateID(1), slot: 0 }, \
    Capture { next: StateID(2), slot: 1 }, Match { pattern_id: PatternID { index: 0 } }]";

const NEVER: &str =
    "NFA { states: [Fail], anchored: StateID(0), unanchored: StateID(0), patterns: [], \
    groups: GroupInfo { names: [], slot_len: 0 }, has_empty: false, utf8: false }";

#[test]
fn the_nfa_that_always_matches(rt: HostRuntime) -> Result<(), Fail> {
    let always = NFA::always_match(rt.alloc())?;
    expect_simple(&rt, &always, true, 1);
    expect_shown(&rt, &always.states(), ALWAYS);
    Ok(())
}

#[test]
fn the_nfa_that_never_matches(rt: HostRuntime) -> Result<(), Fail> {
    let never = NFA::never_match(rt.alloc())?;
    expect_simple(&rt, &never, false, 0);
    expect_shown(&rt, &never.states(), "[Fail]");
    expect_shown(&rt, &never, NEVER);
    Ok(())
}

// An anchored NFA that is not in UTF-8 mode, with `patterns` patterns of two slots. The first starts at state 0.
fn expect_simple(rt: &impl Abort, nfa: &NFA, has_empty: bool, patterns: usize) {
    assert!(rt; nfa.is_always_start_anchored() && !nfa.is_utf8());
    assert_eq!(rt; nfa.has_empty(), has_empty);
    assert_eq!(rt; nfa.pattern_len(), patterns);
    assert_eq!(rt; nfa.group_info().pattern_len(), patterns);
    assert_eq!(rt; nfa.group_info().slot_len(), patterns * 2);
    let first = if patterns > 0 { Some(id(rt, 0)) } else { None };
    assert_eq!(rt; nfa.start_pattern(pattern(rt, 0)), first);
}

const LOOKS: &[(Look, &str)] = &[
    (Look::Start, "Start"),
    (Look::End, "End"),
    (Look::StartLF, "StartLF"),
    (Look::EndLF, "EndLF"),
    (Look::StartCRLF, "StartCRLF"),
    (Look::EndCRLF, "EndCRLF"),
    (Look::WordAscii, "WordAscii"),
    (Look::WordAsciiNegate, "WordAsciiNegate"),
    (Look::WordUnicode, "WordUnicode"),
    (Look::WordUnicodeNegate, "WordUnicodeNegate"),
    (Look::WordStartAscii, "WordStartAscii"),
    (Look::WordEndAscii, "WordEndAscii"),
    (Look::WordStartUnicode, "WordStartUnicode"),
    (Look::WordEndUnicode, "WordEndUnicode"),
    (Look::WordStartHalfAscii, "WordStartHalfAscii"),
    (Look::WordEndHalfAscii, "WordEndHalfAscii"),
    (Look::WordStartHalfUnicode, "WordStartHalfUnicode"),
    (Look::WordEndHalfUnicode, "WordEndHalfUnicode"),
];

#[test]
fn debug_texts(rt: HostRuntime) {
    for (look, want) in LOOKS {
        expect_shown(&rt, look, want);
    }
    expect_shown(&rt, &BuildError::Empty, "Empty");
}

const STATES: &[&str] = &[
    "Union { alternates: [StateID(1), StateID(2)] }",
    "ByteRange { trans: Transition { start: 97, end: 122, next: StateID(9) } }",
    "Sparse([Transition { start: 97, end: 122, next: StateID(9) }])",
    "Dense([None, Some(StateID(9))])",
    "Look { look: Start, next: StateID(9) }",
    "BinaryUnion { alt1: StateID(3), alt2: StateID(4) }",
    "Capture { next: StateID(9), slot: 3 }",
    "Fail",
    "BinaryUnion { alt1: StateID(0), alt2: StateID(5) }",
    "Match { pattern_id: PatternID { index: 1 } }",
];

#[test]
fn debug_texts_of_states(rt: HostRuntime) -> Result<(), Fail> {
    let nfa = one_of_each(rt.alloc())?;
    assert_eq!(rt; nfa.states().len(), STATES.len());
    for (state, want) in nfa.states().iter().zip(STATES) {
        expect_shown(&rt, state, want);
        expect_shown(&rt, &state.clone()?, want);
    }
    Ok(())
}
