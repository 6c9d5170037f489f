//! Half matches: by a searcher that calls an engine at each step, and by an iterator that stores the finder.

use super::{engine_named, threads, vm_named};
use nfa_engines::iter::Searcher;
use regex_search_core::{HalfMatch, Input};
use std::process::Abort;
use std::test::Fail;

// A sample, a haystack, and the ends of all matches, followed by `None`.
type Ends = (&'static str, &'static str, &'static [Option<usize>]);

const ENDS: &[Ends] = &[
    (
        "a_or_empty",
        "abba",
        &[Some(1), Some(2), Some(4), None, None],
    ),
    (
        "empty",
        "a☃z",
        &[Some(0), Some(1), Some(4), Some(5), None, None],
    ),
];

fn offset(half: HalfMatch) -> usize {
    half.offset()
}

fn expect_backtracked(rt: &(impl Abort + AllocGlobal), row: &Ends) -> Result<(), Fail> {
    let (name, haystack, wants) = *row;
    let engine = engine_named(rt, name);
    let mut cache = engine.create_cache(rt.alloc());
    let mut searcher = Searcher::new(Input::new(haystack.as_bytes()));
    for want in wants {
        let finder = |input: &Input<'_>| engine.try_find_half(&mut cache, *input);
        let half = searcher.try_advance_half(finder)?;
        assert_eq!(rt; half.map(offset), *want, "{name}");
    }
    Ok(())
}

fn expect_piked(rt: &(impl Abort + AllocGlobal), row: &Ends) -> Result<(), Fail> {
    let (name, haystack, wants) = *row;
    let vm = vm_named(rt, name);
    let mut cache = threads(rt, &vm);
    let searcher = Searcher::new(Input::new(haystack.as_bytes()));
    let finder = |input: &Input<'_>| Ok(vm.find_half(&mut cache, *input));
    let mut halves = searcher.into_half_matches_iter(finder);
    for want in wants {
        let half = halves.next().transpose()?;
        assert_eq!(rt; half.map(offset), *want, "{name}");
    }
    Ok(())
}

#[test]
fn halves_are_the_ends_of_all_matches(rt: HostRuntime) -> Result<(), Fail> {
    for row in ENDS {
        expect_backtracked(&rt, row)?;
        expect_piked(&rt, row)?;
    }
    Ok(())
}
