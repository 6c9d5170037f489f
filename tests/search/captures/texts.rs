//! The `Debug` texts of iterators over captures.

use crate::tests::{expect_shown, threads};
use nfa_engines::Input;
use nfa_engines::backtrack::BoundedBacktracker;
use nfa_engines::pikevm::PikeVM;
use std::test::Fail;

const FRESH: &str =
    "Searcher { input: Input { haystack: [97], span: Span { start: 0, end: 1 }, anchored: No, \
    earliest: false }, last_match_end: None }";

const NEVER: &str =
    "Captures { group_info: GroupInfo { names: [], slot_len: 0 }, pattern: None, slots: [] }";

#[test]
fn captures_of_a_backtracker_are_shown(rt: HostRuntime) -> Result<(), Fail> {
    let alloc = rt.alloc();
    let engine = BoundedBacktracker::never_match(alloc)?;
    let mut cache = engine.create_cache(alloc);
    let want = format!(in alloc;
        "TryCapturesMatches {{ cache: {cache:?}, steps: Steps {{ searcher: {FRESH}, \
        backend: CapturesFinder {{ engine: {engine:?}, captures: {NEVER} }}, done: false }} }}"
    )?;
    let items = engine.try_captures_iter(alloc, &mut cache, Input::new(b"a"))?;
    expect_shown(&rt, &items, want.as_str());
    Ok(())
}

#[test]
fn captures_of_a_pikevm_are_shown(rt: HostRuntime) -> Result<(), Fail> {
    let alloc = rt.alloc();
    let vm = PikeVM::never_match(alloc)?;
    let mut cache = threads(&rt, &vm);
    let want = format!(in alloc;
        "CapturesMatches {{ cache: {cache:?}, steps: Steps {{ searcher: {FRESH}, \
        backend: CapturesFinder {{ engine: {vm:?}, captures: {NEVER} }}, done: false }} }}"
    )?;
    let items = vm.captures_iter(alloc, &mut cache, Input::new(b"a"))?;
    expect_shown(&rt, &items, want.as_str());
    Ok(())
}
