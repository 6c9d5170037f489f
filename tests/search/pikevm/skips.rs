//! Skipping empty matches that split a codepoint, with a PikeVM that finds them.

use crate::tests::{of_kind, threads, vm_named};
use nfa_engines::empty::{skip_splits_fwd, skip_splits_rev};
use nfa_engines::pikevm::{Cache, PikeVM};
use regex_search_core::{Input, MatchKind};
use std::test::Fail;
use test_support::engines::fitting;
use test_support::samples::input_in;

// The end of the match that the engine finds, as the value of the answer and as its offset.
fn placed(vm: &PikeVM, cache: &mut Cache, input: &Input<'_>) -> Option<(usize, usize)> {
    let end = vm.find_half(fitting(vm, cache), *input)?.offset();
    Some((end, end))
}

// The snowman is in bytes 1 to 3.
const HAYSTACK: &str = "a☃z";

// A span, whether the search is anchored, and the end of the first empty match in it that splits no codepoint.
type Skip = (usize, usize, bool, Option<usize>);

const FORWARD: &[Skip] = &[
    (0, 5, false, Some(0)),
    (1, 5, false, Some(1)),
    (2, 5, false, Some(4)),
    (3, 4, false, Some(4)),
    (2, 3, false, None),
    (1, 5, true, Some(1)),
    (2, 5, true, None),
];

// The end of the last such match: under `All` the engine prefers the match that ends last.
const BACKWARD: &[Skip] = &[
    (0, 5, false, Some(5)),
    (0, 4, false, Some(4)),
    (0, 3, false, Some(1)),
    (1, 2, false, Some(1)),
    (2, 3, false, None),
    (3, 4, true, None),
    (4, 5, true, Some(4)),
];

#[test]
fn skips_forward(rt: HostRuntime) -> Result<(), Fail> {
    let vm = vm_named(&rt, "empty_bytes");
    let mut cache = threads(&rt, &vm);
    for row in FORWARD {
        let &(start, end, anchored, want) = row;
        let input = input_in(HAYSTACK.as_bytes(), start, end, anchored).expect(&rt, "a span");
        let found = match placed(&vm, &mut cache, &input) {
            Some((end, offset)) => {
                let find = |input: &Input<'_>| Ok(placed(&vm, &mut cache, input));
                skip_splits_fwd(&input, end, offset, find)?
            }
            None => None,
        };
        assert_eq!(rt; found, want, "{row:?}");
    }
    Ok(())
}

#[test]
fn skips_backward(rt: HostRuntime) -> Result<(), Fail> {
    let vm = of_kind(&rt, "empty_bytes", MatchKind::All);
    let mut cache = threads(&rt, &vm);
    for row in BACKWARD {
        let &(start, end, anchored, want) = row;
        let input = input_in(HAYSTACK.as_bytes(), start, end, anchored).expect(&rt, "a span");
        let found = match placed(&vm, &mut cache, &input) {
            Some((end, offset)) => {
                let find = |input: &Input<'_>| Ok(placed(&vm, &mut cache, input));
                skip_splits_rev(&input, end, offset, find)?
            }
            None => None,
        };
        assert_eq!(rt; found, want, "{row:?}");
    }
    Ok(())
}
