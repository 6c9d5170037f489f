//! Both engines and `Choice` over each sample: each span of some haystacks, four ways to search it, both match kinds,
//! and each call that searches. All searches share caches and captures.

use super::alike::{expect_backtracked_alike, expect_piked_alike};
use super::sums::{SEED, Shared, fold, sum_backtracked, sum_chosen, sum_of_set, sum_piked};
use nfa_choice::choose::Choice;
use nfa_engines::backtrack::{self, BoundedBacktracker};
use nfa_engines::pikevm::{self, PikeVM};
use regex_search_core::{Input, MatchKind};
use test_support::TestRuntime;
use test_support::samples::nfa_named;
use test_support::searches::searches_of;
use thompson_nfa::NFA;

// A name, and the sum of the answers to all searches. The sums come from the answers of regex-automata 0.4.18 to single
// searches. If two sums are equal, both NFAs give the same answers to all these searches.
const SUMS: &[(&str, u64)] = &[
    ("abc", 17516175631079300615),
    ("ab_b", 6894780911169050394),
    ("ab_abc", 12381740789710117786),
    ("abc_ab", 11552538315505256877),
    ("abc_b", 11022516316879595909),
    ("foo_bar", 7006202980359745874),
    ("b_a", 3502911699200836149),
    ("abc_a", 9866610612080122747),
    ("a_or_empty", 16536383585529144902),
    ("empty_or_a", 7284594230990085406),
    ("empty", 2742246494218379518),
    ("empty_bytes", 16808830373173163099),
    ("empty_anchored", 1176097564338130375),
    ("a_star", 16536383585529144902),
    ("a_star_bytes", 573636244362043246),
    ("groups", 14810672378800699162),
    ("loop", 2742246494218379518),
    ("a_bare", 12626060101572329597),
    ("a_pair", 1161528303385072519),
    ("backwards", 8257819088920617213),
    ("snowman", 4895690902187105514),
    ("three_digits", 12266436829090903393),
    ("alnum100", 3622190962064771015),
    ("words_numbers", 13694683024024072936),
    ("abcd_b", 15273916744139087911),
    ("foo_num", 3622190962064771015),
    ("date", 11975556875213426183),
    ("six", 3161911822617016002),
];

// Haystacks of which each span is searched.
const HAYSTACKS: &[&[u8]] = &[
    b"",
    b"abba",
    b"xabca",
    b"a\xE2\x98\x83b",
    b"foobar1",
    b" 123",
    b"\x80a\xE2\x98",
];

// The engines over one NFA, which have to give the same answers.
#[derive(Drop)]
struct Trio<'a> {
    back: &'a BoundedBacktracker,
    vm: PikeVM,
    choice: Choice,
}

impl<'a> Trio<'a> {
    fn new(rt: &impl TestRuntime, back: &'a BoundedBacktracker, kind: MatchKind) -> Trio<'a> {
        let nfa = back.get_nfa();
        let pike = pikevm::Config::new().match_kind(kind);
        // No marks, or 64 or 128 of them, so that `Choice` runs one engine, or the other, or each for its lengths.
        let marks = backtrack::Config::new().visited_capacity(nfa.states().len() % 3 * 8);
        let copy = nfa.clone().expect(rt, "memory");
        let vm = PikeVM::builder().configure(pike).build_from_nfa(copy);
        let copy = nfa.clone().expect(rt, "memory");
        Trio {
            back,
            vm: vm.expect(rt, "memory"),
            choice: Choice::new(rt.alloc(), copy, marks, pike).expect(rt, "memory"),
        }
    }

    fn is_leftmost(&self) -> bool {
        self.vm.get_config().get_match_kind() == MatchKind::LeftmostFirst
    }

    // Whether regex-automata may give another set of overlapping matches. It gives all of them in an unanchored
    // search of the kind `All` without `earliest`.
    fn is_unlike(&self, input: &Input<'_>) -> bool {
        self.is_leftmost()
            || input.get_earliest()
            || input.get_anchored().is_anchored()
            || self.vm.get_nfa().is_always_start_anchored()
    }
}

// Whether the span begins or ends where the haystack does.
fn is_at_edge(input: &Input<'_>) -> bool {
    input.start() == 0 || input.end() == input.haystack().len()
}

// Adds the answers to one search to the sum. All engines have to agree.
fn fold_search(
    rt: &impl TestRuntime,
    trio: &mut Trio<'_>,
    shared: &mut Shared,
    sum: u64,
    input: &Input<'_>,
) -> u64 {
    let piked = sum_piked(&trio.vm, input, shared);
    let chosen = sum_chosen(&mut trio.choice, input, shared);
    assert_eq!(rt; chosen, piked, "{input:?}");
    // The other calls take most of the time, so not each span is theirs.
    let captured = if is_at_edge(input) {
        Some(expect_piked_alike(rt, &trio.vm, input, shared))
    } else {
        None
    };
    if trio.is_leftmost() && !input.get_earliest() {
        let backtracked = sum_backtracked(rt, trio.back, input, shared);
        assert_eq!(rt; backtracked, piked, "{input:?}");
        if let Some(captured) = captured {
            let backtracked = expect_backtracked_alike(rt, trio.back, input, shared);
            assert_eq!(rt; backtracked, captured, "{input:?}");
        }
    }
    let sum = fold(sum, piked);
    let set = sum_of_set(rt, &trio.vm, &mut shared.threads, input);
    // A cache of the least size has to give the same set.
    let mut own = trio.vm.create_cache(rt.alloc()).expect(rt, "memory");
    let by_own = sum_of_set(rt, &trio.vm, &mut own, input);
    assert_eq!(rt; by_own, set, "{input:?}");
    if trio.is_unlike(input) {
        sum
    } else {
        fold(sum, set)
    }
}

/// Adds the answers to all searches of the NFA to the sum: leftmost first, then those of the kind `All`.
pub fn fold_nfa(
    rt: &impl TestRuntime,
    nfa: NFA,
    shared: &mut Shared,
    mut sum: u64,
    haystacks: &[&[u8]],
) -> u64 {
    let back = BoundedBacktracker::new_from_nfa(nfa).expect(rt, "memory");
    for kind in [MatchKind::LeftmostFirst, MatchKind::All] {
        let mut trio = Trio::new(rt, &back, kind);
        if !shared.threads.fits(&trio.vm) {
            trio.vm
                .reset_cache(&mut shared.threads)
                .expect(rt, "memory");
        }
        for &haystack in haystacks {
            let inputs = searches_of(rt.alloc(), haystack).expect(rt, "memory");
            for input in &inputs {
                sum = fold_search(rt, &mut trio, shared, sum, input);
            }
        }
    }
    sum
}

fn expect_samples(rt: &impl TestRuntime, sums: &[(&str, u64)]) {
    let mut shared = Shared::new(rt);
    for &(name, want) in sums {
        let nfa = nfa_named(rt.alloc(), name).expect(rt, "a sample");
        let sum = fold_nfa(rt, nfa, &mut shared, SEED, HAYSTACKS);
        assert_eq!(rt; sum, want, "{name}");
    }
}

const PARTS: usize = 14;

// In parts, since a test may run for at most a minute.
fn expect_part(rt: &impl TestRuntime, part: usize) {
    let (start, end) = (SUMS.len() * part, SUMS.len() * (part + 1));
    expect_samples(rt, &SUMS[start / PARTS..end / PARTS]);
}

#[test]
fn all_calls_answer_as_upstream_over_part_0(rt: HostRuntime) {
    expect_part(&rt, 0);
}

#[test]
fn all_calls_answer_as_upstream_over_part_1(rt: HostRuntime) {
    expect_part(&rt, 1);
}

#[test]
fn all_calls_answer_as_upstream_over_part_2(rt: HostRuntime) {
    expect_part(&rt, 2);
}

#[test]
fn all_calls_answer_as_upstream_over_part_3(rt: HostRuntime) {
    expect_part(&rt, 3);
}

#[test]
fn all_calls_answer_as_upstream_over_part_4(rt: HostRuntime) {
    expect_part(&rt, 4);
}

#[test]
fn all_calls_answer_as_upstream_over_part_5(rt: HostRuntime) {
    expect_part(&rt, 5);
}

#[test]
fn all_calls_answer_as_upstream_over_part_6(rt: HostRuntime) {
    expect_part(&rt, 6);
}

#[test]
fn all_calls_answer_as_upstream_over_part_7(rt: HostRuntime) {
    expect_part(&rt, 7);
}

#[test]
fn all_calls_answer_as_upstream_over_part_8(rt: HostRuntime) {
    expect_part(&rt, 8);
}

#[test]
fn all_calls_answer_as_upstream_over_part_9(rt: HostRuntime) {
    expect_part(&rt, 9);
}

#[test]
fn all_calls_answer_as_upstream_over_part_10(rt: HostRuntime) {
    expect_part(&rt, 10);
}

#[test]
fn all_calls_answer_as_upstream_over_part_11(rt: HostRuntime) {
    expect_part(&rt, 11);
}

#[test]
fn all_calls_answer_as_upstream_over_part_12(rt: HostRuntime) {
    expect_part(&rt, 12);
}

#[test]
fn all_calls_answer_as_upstream_over_part_13(rt: HostRuntime) {
    expect_part(&rt, 13);
}
