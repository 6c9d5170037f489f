//! Tests of the tables of the samples.
use super::fixtures::named;
use nfa_samples::sample;
use regex_search_core::PatternID;
use std::alloc::{AllocError, Global};
use std::process::Abort;
use std::test::Fail;
use thompson_nfa::{NFA, State, Transition};

// A name, the number of states, and the names of the explicit groups of each pattern.
const STATE_COUNTS: &[(&str, usize, &str)] = &[
    ("abc", 8, "[[]]"),
    ("ab_b", 12, "[[], []]"),
    ("ab_abc", 14, "[[], []]"),
    ("abc_ab", 14, "[[], []]"),
    ("abc_b", 13, "[[], []]"),
    ("foo_bar", 33, "[[], [], [], []]"),
    ("b_a", 11, "[[], []]"),
    ("abc_a", 10, "[[]]"),
    ("a_or_empty", 7, "[[]]"),
    ("empty_or_a", 7, "[[]]"),
    ("empty", 5, "[[]]"),
    ("empty_bytes", 5, "[[]]"),
    ("empty_anchored", 3, "[[]]"),
    ("a_star", 7, "[[]]"),
    ("a_star_bytes", 7, "[[]]"),
    ("groups", 14, "[[None, None]]"),
    ("loop", 7, "[[None]]"),
    ("a_bare", 4, "[]"),
    ("a_pair", 2, "[]"),
    ("backwards", 6, "[[]]"),
    ("snowman", 10, "[[]]"),
    ("three_digits", 10, "[[]]"),
    ("alnum100", 105, "[[]]"),
    ("words_numbers", 13, "[[], []]"),
    ("abcd_b", 11, "[[]]"),
    ("foo_num", 12, "[[Some(\"numbers\")]]"),
    ("date", 21, "[[None, None, None]]"),
    ("six", 21, "[[], []]"),
];

// A name; the two starts, the pattern starts, the number of slots and the flags; and the states, as `write_state`
// writes them.
const SHAPES: &[(&str, &str, &str)] = &[
    (
        "abc",
        "0 6 [0] 2 utf8",
        "c0>1 61>2 62>3 63>4 c1>5 m0 e0|7 00-FF>6",
    ),
    (
        "ab_b",
        "0 10 [1,6] 4 utf8",
        "e1|6 c0>2 61>3 62>4 c1>5 m0 c2>7 62>8 c3>9 m1 e0|11 00-FF>10",
    ),
    (
        "ab_abc",
        "0 12 [1,6] 4 utf8",
        "e1|6 c0>2 61>3 62>4 c1>5 m0 c2>7 61>8 62>9 63>10 c3>11 m1 e0|13 00-FF>12",
    ),
    (
        "abc_ab",
        "0 12 [1,7] 4 utf8",
        "e1|7 c0>2 61>3 62>4 63>5 c1>6 m0 c2>8 61>9 62>10 c3>11 m1 e0|13 00-FF>12",
    ),
    (
        "abc_b",
        "0 11 [1,7] 4 utf8",
        "e1|7 c0>2 61>3 62>4 63>5 c1>6 m0 c2>8 62>9 c3>10 m1 e0|12 00-FF>11",
    ),
    (
        "foo_bar",
        "0 31 [1,7,13,22] 8 utf8",
        concat!(
            "u1|7|13|22 c0>2 66>3 6F>4 6F>5 c1>6 m0 c2>8 62>9 61>10 72>11 c3>12 m1 c4>14 62>15 61>16 72>17 ",
            "66>18 6F>19 6F>20 c5>21 m2 c6>23 66>24 6F>25 6F>26 62>27 61>28 72>29 c7>30 m3 e0|32 00-FF>31",
        ),
    ),
    (
        "b_a",
        "0 9 [1,5] 4 utf8",
        "e5|1 c0>2 62>3 c1>4 m0 c2>6 61>7 c3>8 m1 e0|10 00-FF>9",
    ),
    (
        "abc_a",
        "0 8 [0] 2 utf8",
        "c0>3 c1>2 m0 e5|4 61>1 61>6 62>7 63>1 e0|9 00-FF>8",
    ),
    (
        "a_or_empty",
        "0 5 [0] 2 empty utf8",
        "c0>1 e2|3 61>3 c1>4 m0 e0|6 00-FF>5",
    ),
    (
        "empty_or_a",
        "0 5 [0] 2 empty utf8",
        "c0>1 e3|2 61>3 c1>4 m0 e0|6 00-FF>5",
    ),
    ("empty", "0 3 [0] 2 empty utf8", "c0>1 c1>2 m0 e0|4 00-FF>3"),
    (
        "empty_bytes",
        "0 3 [0] 2 empty",
        "c0>1 c1>2 m0 e0|4 00-FF>3",
    ),
    ("empty_anchored", "0 0 [0] 2 empty utf8", "c0>1 c1>2 m0"),
    (
        "a_star",
        "0 5 [0] 2 empty utf8",
        "c0>1 e2|3 61>1 c1>4 m0 e0|6 00-FF>5",
    ),
    (
        "a_star_bytes",
        "0 5 [0] 2 empty",
        "c0>1 e2|3 61>1 c1>4 m0 e0|6 00-FF>5",
    ),
    (
        "groups",
        "0 12 [0] 6 utf8",
        "c0>1 e2|6 c2>3 61>4 c3>5 63>10 c4>7 61>8 62>9 c5>10 c1>11 m0 e0|13 00-FF>12",
    ),
    (
        "loop",
        "0 5 [0] 4 empty utf8",
        "c0>1 e2|3 c2>1 c1>4 m0 e0|6 00-FF>5",
    ),
    ("a_bare", "0 2 [0] 0 utf8", "61>1 m0 e0|3 00-FF>2"),
    ("a_pair", "0 0 [0] 0 utf8", "61>1 m0"),
    (
        "backwards",
        "0 4 [0] 2 utf8",
        "c1>1 61>2 c0>3 m0 e0|5 00-FF>4",
    ),
    (
        "snowman",
        "0 8 [0] 2 empty utf8",
        "c0>1 e2|5 E2>3 98>4 83>6 WordAsciiNegate>6 c1>7 m0 e0|9 00-FF>8",
    ),
    (
        "three_digits",
        "0 8 [0] 2 utf8",
        "c0>1 WordUnicode>2 30-39>3 30-39>4 30-39>5 WordUnicode>6 c1>7 m0 e0|9 00-FF>8",
    ),
    (
        "words_numbers",
        "0 11 [1,6] 4 utf8",
        "e1|6 c0>2 61-7A>3 e2|4 c1>5 m0 c2>7 30-39>8 e7|9 c3>10 m1 e0|12 00-FF>11",
    ),
    (
        "abcd_b",
        "0 9 [0] 2 utf8",
        "c0>1 e2|6 61>3 62>4 63>5 64>7 62>7 c1>8 m0 e0|10 00-FF>9",
    ),
    (
        "foo_num",
        "0 10 [0] 4 utf8",
        "c0>1 66>2 6F>3 6F>4 c2>5 30-39>6 e5|7 c3>8 c1>9 m0 e0|11 00-FF>10",
    ),
    (
        "date",
        "0 0 [0] 8 utf8",
        concat!(
            "c0>1 Start>2 c2>3 30-39>4 30-39>5 30-39>6 30-39>7 c3>8 2D>9 c4>10 30-39>11 30-39>12 c5>13 2D>14 ",
            "c6>15 30-39>16 30-39>17 c7>18 End>19 c1>20 m0",
        ),
    ),
    (
        "six",
        "0 19 [1,10] 4 utf8",
        concat!(
            "e1|10 c0>2 30-39>3|61-7A>3 30-39>4|61-7A>4 30-39>5|61-7A>5 30-39>6|61-7A>6 30-39>7|61-7A>7 ",
            "30-39>8|61-7A>8 c1>9 m0 c2>11 61-7A>12 30-39>13|61-7A>13 30-39>14|61-7A>14 30-39>15|61-7A>15 ",
            "30-39>16|61-7A>16 30-39>17|61-7A>17 c3>18 m1 e0|20 00-FF>19",
        ),
    ),
];

#[test]
fn each_name_has_so_many_states_and_these_groups(rt: HostRuntime) -> Result<(), Fail> {
    for &(name, count, groups) in STATE_COUNTS {
        let nfa = named(&rt, name);
        assert_eq!(rt; nfa.states().len(), count, "{name}");
        let shown = format!(in rt.alloc(); "{:?}", nfa.group_info())?;
        let start = format!(in rt.alloc(); "GroupInfo {{ names: {groups}, slot_len: ")?;
        assert!(rt;
            shown.as_str().starts_with(start.as_str()),
            "{name}: {shown}"
        );
    }
    Ok(())
}

const UNKNOWN: &[&str] = &["", "nothing", "ABC", "abc ", "ab"];

#[test]
fn other_names_are_unknown(rt: HostRuntime) -> Result<(), Fail> {
    for &name in UNKNOWN {
        assert!(rt; sample(rt.alloc(), name)?.is_none(), "{name}");
    }
    Ok(())
}

#[test]
fn each_name_has_these_states(rt: HostRuntime) -> Result<(), Fail> {
    for &(name, head, states) in SHAPES {
        expect_shape(&rt, name, head, states)?;
    }
    Ok(())
}

#[test]
fn alnum100_is_a_chain(rt: HostRuntime) -> Result<(), Fail> {
    let mut want = String::from_str(rt.alloc(), "c0>1")?;
    for next in 2..102 {
        write!(want, " 30-39>{next}|41-5A>{next}|61-7A>{next}")?;
    }
    want.push_str(" c1>102 m0 e0|104 00-FF>103")?;
    expect_shape(&rt, "alnum100", "0 103 [0] 2 utf8", want.as_str())
}

fn expect_shape(
    rt: &(impl Abort + AllocGlobal),
    name: &str,
    head: &str,
    states: &str,
) -> Result<(), Fail> {
    let nfa = named(rt, name);
    let shown = shown_head(rt.alloc(), &nfa)?;
    assert_eq!(rt; shown.as_str(), head, "{name}");
    let shown = shown_states(rt.alloc(), nfa.states())?;
    assert_eq!(rt; shown.as_str(), states, "{name}");
    Ok(())
}

fn shown_head(alloc: Global, nfa: &NFA) -> Result<String, AllocError> {
    let anchored = nfa.start_anchored().as_usize();
    let unanchored = nfa.start_unanchored().as_usize();
    let mut text = format!(in alloc; "{anchored} {unanchored} [")?;
    for index in 0..nfa.pattern_len() {
        let pattern = PatternID::new(index);
        if let Some(start) = pattern.and_then(|pattern| nfa.start_pattern(pattern)) {
            text.push_str(if index == 0 { "" } else { "," })?;
            write!(text, "{}", start.as_usize())?;
        }
    }
    write!(text, "] {}", nfa.group_info().slot_len())?;
    text.push_str(if nfa.has_empty() { " empty" } else { "" })?;
    text.push_str(if nfa.is_utf8() { " utf8" } else { "" })?;
    Ok(text)
}

fn shown_states(alloc: Global, states: &[State]) -> Result<String, AllocError> {
    let mut text = String::new(alloc);
    for state in states {
        text.push_str(if text.is_empty() { "" } else { " " })?;
        write_state(&mut text, state)?;
    }
    Ok(text)
}

// A byte or a range in hexadecimal, `c` and a slot, or an assertion, each followed by `>` and the next state; `e` for
// either of two states and `u` for a union; `m` and a pattern.
fn write_state(text: &mut String, state: &State) -> Result<(), AllocError> {
    match state {
        State::ByteRange { trans } => write_transition(text, trans),
        State::Sparse(transitions) => {
            for (index, trans) in transitions.iter().enumerate() {
                text.push_str(if index == 0 { "" } else { "|" })?;
                write_transition(text, trans)?;
            }
            Ok(())
        }
        State::BinaryUnion { alt1, alt2 } => {
            write!(text, "e{}|{}", alt1.as_usize(), alt2.as_usize())
        }
        State::Union { alternates } => {
            for (index, id) in alternates.iter().enumerate() {
                text.push_str(if index == 0 { "u" } else { "|" })?;
                write!(text, "{}", id.as_usize())?;
            }
            Ok(())
        }
        State::Capture { next, slot } => write!(text, "c{slot}>{}", next.as_usize()),
        State::Look { look, next } => write!(text, "{look:?}>{}", next.as_usize()),
        State::Match { pattern_id } => write!(text, "m{}", pattern_id.as_usize()),
        State::Dense(_) | State::Fail => text.push_str("in no sample"),
    }
}

fn write_transition(text: &mut String, trans: &Transition) -> Result<(), AllocError> {
    write!(text, "{:02X}", trans.start)?;
    if trans.start != trans.end {
        write!(text, "-{:02X}", trans.end)?;
    }
    write!(text, ">{}", trans.next.as_usize())
}
