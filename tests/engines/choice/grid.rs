//! Both engines and `Choice` over each sample: each span of some haystacks, four ways to search it, and three capacities
//! of `Choice`. All give the same pattern and slots, and `Choice` runs the engine that it has to. Both engines have ample
//! memory, so neither refuses a search.

use super::super::expected::engines_of;
use super::configured;
use nfa_choice::choose::{Choice, Engine};
use regex_search_core::{Input, MatchKind, NonMaxUsize, PatternID};
use test_support::TestRuntime;
use test_support::engines::Engines;
use test_support::samples::NAMES;
use test_support::searches::searches_of;

const HAYSTACKS: &[&[u8]] = &[
    b"",
    b"a",
    b"ab",
    b"abba",
    b"abcabc",
    b"a\xE2\x98\x83b",
    b"foobar 123",
    b"\x80a\xE2\x98",
];

// The bytes of marks, and the number of marks: none, ten bytes, which make two blocks, and the default.
const CAPACITIES: [(Option<usize>, usize); 3] = [(Some(0), 0), (Some(10), 128), (None, 2097152)];

// As many slots as any sample has, and two more.
type Slots = [Option<NonMaxUsize>; 10];

// Both engines of a sample, and a `Choice` of each capacity with the number of its marks.
#[derive(Drop)]
struct Five {
    engines: Engines,
    choices: Vec<(Choice, usize)>,
}

impl Five {
    fn of_sample(rt: &impl TestRuntime, name: &str) -> Five {
        let mut choices = Vec::new(rt.alloc());
        for (bytes, marks) in CAPACITIES {
            let choice = configured(rt, name, bytes, MatchKind::LeftmostFirst);
            choices.push((choice, marks)).expect(rt, "memory");
        }
        let engines = engines_of(rt, name);
        Five { engines, choices }
    }
}

// The engine that has to answer: the backtracker, unless the span is too long for its marks or the search is
// `earliest`.
fn engine_for(choice: &Choice, marks: usize, input: &Input<'_>) -> Engine {
    let pairs = choice.get_nfa().states().len() * (input.end() - input.start() + 1);
    if input.get_earliest() || pairs > marks {
        Engine::PikeVM
    } else {
        Engine::Backtracker
    }
}

// What the engines answer: the pattern and the slots, and whether there is a match.
#[derive(Drop)]
struct Answers {
    pattern: Option<PatternID>,
    slots: Slots,
    is_match: bool,
}

// The right engine answers `search_slots`, `find` and `is_match`, and as the engines do.
fn expect_chosen(
    rt: &impl TestRuntime,
    (choice, marks): &mut (Choice, usize),
    input: &Input<'_>,
    answers: &Answers,
) {
    let engine = Some(engine_for(choice, *marks, input));
    let mut slots: Slots = [NonMaxUsize::new(7); 10];
    let pattern = choice.search_slots(input, &mut slots);
    assert_eq!(rt;
        (pattern, choice.ran()),
        (answers.pattern, engine),
        "{input:?}"
    );
    assert_eq!(rt; slots.as_slice(), answers.slots.as_slice(), "{input:?}");
    let found = choice.find(*input);
    assert_eq!(rt; choice.ran(), engine, "{input:?}");
    let is_match = choice.is_match(*input);
    assert_eq!(rt;
        (is_match, choice.ran()),
        (answers.is_match, engine),
        "{input:?}"
    );
    assert!(rt; is_match || found.is_none(), "{input:?}");
}

// All five answer alike. Each slot held another number before. The backtracker does not end with the earliest match.
fn expect_same(rt: &impl TestRuntime, five: &mut Five, input: &Input<'_>) {
    let mut backtracked: Slots = [NonMaxUsize::new(5); 10];
    let mut slots: Slots = [NonMaxUsize::new(6); 10];
    let engines = &mut five.engines;
    let patterns = engines.search_slots(input, &mut backtracked, &mut slots);
    let [first, pattern] = patterns.expect(rt, "an answer");
    if !input.get_earliest() {
        assert_eq!(rt; first, pattern, "{input:?}");
        assert_eq!(rt; backtracked.as_slice(), slots.as_slice(), "{input:?}");
    }
    let [first, is_match] = engines.are_matches(*input).expect(rt, "an answer");
    assert_eq!(rt; first, is_match, "{input:?}");
    let answers = Answers {
        pattern,
        slots,
        is_match,
    };
    for choice in &mut five.choices {
        expect_chosen(rt, choice, input, &answers);
    }
}

fn expect_samples(rt: &impl TestRuntime, names: &[&str]) {
    for &name in names {
        let mut five = Five::of_sample(rt, name);
        for &haystack in HAYSTACKS {
            let inputs = searches_of(rt.alloc(), haystack).expect(rt, "memory");
            for input in &inputs {
                expect_same(rt, &mut five, input);
            }
        }
    }
}

// In two parts, since a test may run for at most a minute.
#[test]
fn all_answer_alike_over_the_first_samples(rt: HostRuntime) {
    expect_samples(&rt, &NAMES[..16]);
}

#[test]
fn all_answer_alike_over_the_last_samples(rt: HostRuntime) {
    expect_samples(&rt, &NAMES[16..]);
}
