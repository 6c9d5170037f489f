//! Whether NFAs record the bounds of their matches: the samples, and NFAs with mistakes.
use super::fixtures::named;
use Row::{Byte, Capture, Either, Match};
use nfa_facts::records_match_spans;
use std::alloc::Global;
use std::test::Fail;
use test_support::machine::Machine;
use test_support::samples::MakeError;
use thompson_nfa::NFA;

// A sample, and whether it writes both slots of a pattern on each path to its match. `a_bare` and `a_pair` have no
// captures, and `backwards` writes the end before the byte and the start after it. In `loop` a group lacks its end,
// which is not a bound of the match.
const SAMPLES: &[(&str, bool)] = &[
    ("abc", true),
    ("ab_b", true),
    ("ab_abc", true),
    ("abc_ab", true),
    ("abc_b", true),
    ("foo_bar", true),
    ("b_a", true),
    ("abc_a", true),
    ("a_or_empty", true),
    ("empty_or_a", true),
    ("empty", true),
    ("empty_bytes", true),
    ("empty_anchored", true),
    ("a_star", true),
    ("a_star_bytes", true),
    ("groups", true),
    ("loop", true),
    ("a_bare", false),
    ("a_pair", false),
    ("backwards", false),
    ("snowman", true),
    ("three_digits", true),
    ("alnum100", true),
    ("words_numbers", true),
    ("abcd_b", true),
    ("foo_num", true),
    ("date", true),
    ("six", true),
];

#[test]
fn samples_that_write_their_bounds(rt: HostRuntime) -> Result<(), Fail> {
    let alloc = rt.alloc();
    for &(name, want) in SAMPLES {
        let nfa = named(&rt, name);
        assert_eq!(rt; records_match_spans(alloc, &nfa)?, want, "{name}");
    }
    Ok(())
}

// A state: a byte, a slot that is written, or one of two, each with the numbers of its next states; or a match.
#[derive(Clone, Copy)]
enum Row {
    Byte(u8, usize),
    Capture(usize, usize),
    Either(usize, usize),
    Match(usize),
}

// The NFA of these rows. State 0 is the start, and each of `starts` is the start of a pattern.
fn nfa_of(alloc: Global, rows: &[Row], starts: &[usize]) -> Result<NFA, MakeError> {
    let mut machine = Machine::new(alloc);
    machine.set_flags(false, true);
    for &row in rows {
        match row {
            Byte(byte, next) => machine.bytes(byte, byte, next)?,
            Capture(slot, next) => machine.capture(slot, next)?,
            Either(first, second) => machine.either(first, second)?,
            Match(pattern) => machine.accept(pattern)?,
        }
    }
    for &start in starts {
        machine.pattern(start)?;
        machine.groups(0)?;
    }
    machine.build(0, 0)
}

// What an NFA is, whether it records its bounds, its states, and the starts of its patterns.
const BY_HAND: &[(&str, bool, &[Row], &[usize])] = &[
    (
        "`a|b`, whose second branch passes over the capture of the end",
        false,
        &[
            Capture(0, 1),
            Either(2, 3),
            Byte(b'a', 4),
            Byte(b'b', 5),
            Capture(1, 5),
            Match(0),
        ],
        &[0],
    ),
    (
        "`a` and `b`, of which the second has its slots swapped",
        false,
        &[
            Either(1, 5),
            Capture(0, 2),
            Byte(b'a', 3),
            Capture(1, 4),
            Match(0),
            Capture(3, 6),
            Byte(b'b', 7),
            Capture(2, 8),
            Match(1),
        ],
        &[1, 5],
    ),
    (
        "`a`, with the start written twice before the byte, and a match behind it to which nothing leads",
        true,
        &[
            Capture(0, 1),
            Capture(0, 2),
            Byte(b'a', 3),
            Capture(1, 4),
            Match(0),
            Match(0),
        ],
        &[0],
    ),
];

#[test]
fn mistakes_by_hand_are_found(rt: HostRuntime) -> Result<(), Fail> {
    let alloc = rt.alloc();
    for &(what, want, rows, starts) in BY_HAND {
        let nfa = nfa_of(alloc, rows, starts)?;
        assert_eq!(rt; records_match_spans(alloc, &nfa)?, want, "{what}");
    }
    Ok(())
}
