//! Tests of the flaws for which an NFA is refused.
use super::fixtures::{id, pattern, plain_groups};
use super::shown::expect_told;
use std::process::Abort;
use thompson_nfa::{BuildError, Flaw, NFA, Referrer, State, Transition, first_flaw};

/// A state, by the only number that matters.
enum One {
    Fail,
    /// A `ByteRange` to this state.
    Byte(usize),
    /// A `Capture` of this slot.
    Capture(usize),
    /// A `Match` of this pattern.
    Match(usize),
}

/// The parts of an NFA of one pattern: its states; the anchored start, the unanchored one and that of the pattern; and
/// the number of patterns that groups are given for.
type Parts = (&'static [One], [usize; 3], usize);

// Parts of an NFA, the error, the first flaw, and its text.
const REFUSALS: &[(Parts, BuildError, Flaw, &str)] = &[
    (
        (&[], [0, 0, 0], 0),
        BuildError::Empty,
        Flaw::Empty,
        "the NFA has no states",
    ),
    (
        (&[One::Fail], [1, 1, 1], 2),
        BuildError::State,
        Flaw::State(Referrer::Anchored),
        "the anchored start refers to a state that does not exist",
    ),
    (
        (&[One::Fail], [0, 1, 1], 0),
        BuildError::State,
        Flaw::State(Referrer::Unanchored),
        "the unanchored start refers to a state that does not exist",
    ),
    (
        (&[One::Byte(1)], [0, 0, 1], 0),
        BuildError::State,
        Flaw::State(Referrer::Pattern(0)),
        "the start of pattern 0 refers to a state that does not exist",
    ),
    (
        (&[One::Byte(1)], [0, 0, 0], 0),
        BuildError::State,
        Flaw::State(Referrer::State(0)),
        "state 0 refers to a state that does not exist",
    ),
    // The slot of the first state is out of range too, but the numbers of all states are checked first.
    (
        (&[One::Capture(4), One::Byte(2)], [0, 0, 0], 1),
        BuildError::State,
        Flaw::State(Referrer::State(1)),
        "state 1 refers to a state that does not exist",
    ),
    (
        (&[One::Match(1), One::Capture(2)], [0, 0, 0], 1),
        BuildError::Slot,
        Flaw::Slot { state: 1, slot: 2 },
        "state 1 writes slot 2, which belongs to no group",
    ),
    (
        (&[One::Capture(0)], [0, 0, 0], 0),
        BuildError::Slot,
        Flaw::Slot { state: 0, slot: 0 },
        "state 0 writes slot 0, which belongs to no group",
    ),
    (
        (&[One::Match(0), One::Match(1)], [0, 0, 0], 2),
        BuildError::Pattern,
        Flaw::Pattern {
            state: 1,
            pattern: 1,
        },
        "state 1 matches pattern 1, which has no start state",
    ),
    (
        (&[One::Match(1)], [0, 0, 0], 0),
        BuildError::Pattern,
        Flaw::Pattern {
            state: 0,
            pattern: 1,
        },
        "state 0 matches pattern 1, which has no start state",
    ),
    (
        (&[One::Match(0)], [0, 0, 0], 2),
        BuildError::Groups,
        Flaw::Groups {
            groups: 2,
            patterns: 1,
        },
        "groups are given for 2 patterns, but start states for 1",
    ),
];

#[test]
fn refusals(rt: HostRuntime) {
    for (parts, error, flaw, want) in REFUSALS {
        expect_made(&rt, parts, Some(*error), Some(*flaw));
        expect_told(&rt, flaw, want);
    }
}

const FLAWLESS: &[Parts] = &[
    (&[One::Match(0)], [0, 0, 0], 0),
    (&[One::Capture(1), One::Byte(0)], [0, 1, 1], 1),
];

#[test]
fn no_flaw(rt: HostRuntime) {
    for parts in FLAWLESS {
        expect_made(&rt, parts, None, None);
    }
}

fn state_of(rt: &impl Abort, one: &One) -> State {
    match one {
        One::Fail => State::Fail,
        One::Byte(to) => State::ByteRange {
            trans: Transition {
                start: 0x61,
                end: 0x61,
                next: id(rt, *to),
            },
        },
        One::Capture(slot) => State::Capture {
            next: id(rt, 0),
            slot: *slot,
        },
        One::Match(number) => State::Match {
            pattern_id: pattern(rt, *number),
        },
    }
}

// Makes an NFA of these parts, and compares the error and the first flaw.
fn expect_made(
    rt: &(impl Abort + AllocGlobal),
    parts: &Parts,
    error: Option<BuildError>,
    flaw: Option<Flaw>,
) {
    let alloc = rt.alloc();
    let (ones, [anchored, unanchored, start], groups) = *parts;
    let mut states = Vec::new(alloc);
    for one in ones {
        states.push(state_of(rt, one)).expect(rt, "memory");
    }
    let (anchored, unanchored) = (id(rt, anchored), id(rt, unanchored));
    let patterns = vec![in alloc; id(rt, start)].expect(rt, "memory");
    let groups = plain_groups(rt, groups);
    let found = first_flaw(&states, anchored, unanchored, &patterns, &groups);
    assert_eq!(rt; found, flaw);
    let made = NFA::from_states(states, anchored, unanchored, patterns, groups, false, false);
    assert_eq!(rt; made.err(), error);
}

const TOLD: &[(BuildError, &str)] = &[
    (BuildError::Memory, "out of memory"),
    (BuildError::Empty, "the NFA has no states"),
    (
        BuildError::State,
        "a start or a state refers to a state that does not exist",
    ),
    (
        BuildError::Slot,
        "a state writes a slot that belongs to no group",
    ),
    (
        BuildError::Pattern,
        "a state matches a pattern that has no start state",
    ),
    (
        BuildError::Groups,
        "groups and start states are given for different numbers of patterns",
    ),
];

#[test]
fn errors_are_told(rt: HostRuntime) {
    for (error, want) in TOLD {
        expect_told(&rt, error, want);
    }
}
