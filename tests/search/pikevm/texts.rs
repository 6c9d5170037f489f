//! The `Debug` texts of an engine, its cache and an iterator.

use crate::tests::{expect_shown, threads};
use nfa_engines::pikevm::PikeVM;
use regex_search_core::Input;
use std::test::Fail;

const NEVER: &str =
    "PikeVM { config: Config { match_kind: None }, first: FirstBytes { .. }, nfa: NFA { states: [Fail], \
    anchored: StateID(0), unanchored: StateID(0), patterns: [], groups: GroupInfo { names: [], slot_len: 0 }, \
    has_empty: false, utf8: false } }";

// A cache for this engine, before any search.
const CACHE: &str = "Cache { threads: Threads { frames: [Explore { sid: StateID(0) }], \
curr: ActiveStates { parts: Parts { kept: [StateID(0), StateID(0)], rows: [], len: 0, width: 0 } }, \
reached: ClosureOutput { seen: Seen { stamps: [0], newest: 1, turns: Counter }, \
next: ActiveStates { parts: Parts { kept: [StateID(0), StateID(0)], rows: [], len: 0, width: 0 } } }, \
scans: Counter }, found: [], slots: 0, patterns: 0, past_scans: Counter, past_turns: Counter }";

// The iterator shows the cache, the state of the iteration, and the engine.
const MATCHES: &str =
    "FindMatches { cache: Cache { threads: Threads { frames: [Explore { sid: StateID(0) }], \
curr: ActiveStates { parts: Parts { kept: [StateID(0), StateID(0)], rows: [], len: 0, width: 0 } }, \
reached: ClosureOutput { seen: Seen { stamps: [0], newest: 1, turns: Counter }, \
next: ActiveStates { parts: Parts { kept: [StateID(0), StateID(0)], rows: [], len: 0, width: 0 } } }, \
scans: Counter }, found: [], slots: 0, patterns: 0, past_scans: Counter, past_turns: Counter }, \
steps: Steps { searcher: Searcher { input: Input { haystack: [97], span: Span { start: 0, end: 1 }, anchored: No, \
earliest: false }, last_match_end: None }, backend: Finder { engine: PikeVM { config: Config { match_kind: None }, \
first: FirstBytes { .. }, nfa: NFA { states: [Fail], anchored: StateID(0), unanchored: StateID(0), patterns: [], \
groups: GroupInfo { names: [], slot_len: 0 }, has_empty: false, utf8: false } }, known: None }, done: false } }";

#[test]
fn an_engine_its_cache_and_its_matches_are_shown(rt: HostRuntime) -> Result<(), Fail> {
    let vm = PikeVM::never_match(rt.alloc())?;
    expect_shown(&rt, &vm, NEVER);
    let mut cache = threads(&rt, &vm);
    expect_shown(&rt, &cache, CACHE);
    let matches = vm.find_iter(&mut cache, Input::new(b"a"));
    expect_shown(&rt, &matches, MATCHES);
    Ok(())
}
