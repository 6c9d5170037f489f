//! Tests of each engine by itself, and of the captures of both.

mod backtrack;
mod captures;
mod halves;
mod pikevm;

use nfa_engines::backtrack::BoundedBacktracker;
use nfa_engines::pikevm::{self as pike, PikeVM};
use regex_search_core::{Captures, Match, MatchKind};
use std::alloc::AllocError;
use std::fmt::Debug;
use std::process::Abort;
use test_support::samples as made;
use test_support::samples::parts;

// A backtracker of the sample.
fn engine_named(rt: &(impl Abort + AllocGlobal), name: &str) -> BoundedBacktracker {
    made::backtracker(rt.alloc(), name).expect(rt, name)
}

// A backtracker with this visited capacity, in bytes.
fn with_capacity(rt: &(impl Abort + AllocGlobal), name: &str, bytes: usize) -> BoundedBacktracker {
    made::with_capacity(rt.alloc(), name, bytes).expect(rt, name)
}

// A PikeVM of the sample.
fn vm_named(rt: &(impl Abort + AllocGlobal), name: &str) -> PikeVM {
    made::pikevm(rt.alloc(), name).expect(rt, name)
}

// A PikeVM with this match kind.
fn of_kind(rt: &(impl Abort + AllocGlobal), name: &str, kind: MatchKind) -> PikeVM {
    made::of_kind(rt.alloc(), name, kind).expect(rt, name)
}

// A cache for the PikeVM, which fits it.
fn threads(rt: &(impl Abort + AllocGlobal), vm: &PikeVM) -> pike::Cache {
    let cache = vm.create_cache(rt.alloc()).expect(rt, "a cache");
    assert!(rt; cache.fits(vm));
    cache
}

// Expects this text. `of` identifies its row in the message.
fn expect_text(rt: &impl Abort, of: &impl Debug, text: Result<String, AllocError>, want: &str) {
    let text = text.expect(rt, "memory for a text");
    assert_eq!(rt; text.as_str(), want, "{of:?}");
}

// Expects this `Debug` text.
fn expect_shown(rt: &(impl Abort + AllocGlobal), value: &impl Debug, want: &str) {
    let text = format!(in rt.alloc(); "{value:?}").expect(rt, "memory for a text");
    assert_eq!(rt; text.as_str(), want);
}

// None of three groups has matched.
fn expect_six_unset(rt: &impl Abort, captures: &Captures) {
    assert_eq!(rt; captures.slots(), [None; 6].as_slice());
    assert!(rt; !captures.is_match());
}

// The matches have these patterns, starts and ends.
fn expect_matches(rt: &impl Abort, all: &[Match], wants: &[(usize, usize, usize)]) {
    assert_eq!(rt; all.len(), wants.len());
    for (found, want) in all.iter().zip(wants) {
        assert_eq!(rt; parts(*found), *want);
    }
}
