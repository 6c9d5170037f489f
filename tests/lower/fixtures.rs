//! Numbers, groups, captures and NFAs that several tests use.

use nfa_samples::sample;
use regex_search_core::{Captures, GroupInfo, NonMaxUsize, PatternID, StateID};
use std::process::Abort;
use thompson_nfa::NFA;

pub fn id(rt: &impl Abort, number: usize) -> StateID {
    StateID::new(number).expect(rt, "a state's number")
}

pub fn pattern(rt: &impl Abort, number: usize) -> PatternID {
    PatternID::new(number).expect(rt, "a pattern's number")
}

/// Groups of this many patterns, without explicit groups.
pub fn plain_groups(rt: &(impl Abort + AllocGlobal), patterns: usize) -> GroupInfo {
    let alloc = rt.alloc();
    let mut names = Vec::new(alloc);
    for _ in 0..patterns {
        names.push(Vec::new(alloc)).expect(rt, "memory");
    }
    GroupInfo::new(names).expect(rt, "groups")
}

/// Captures of one pattern with these two slots, but without a match.
pub fn captures_at(rt: &(impl Abort + AllocGlobal), start: usize, end: usize) -> Captures {
    let mut captures = Captures::matches(rt.alloc(), plain_groups(rt, 1)).expect(rt, "captures");
    let slots = captures.slots_mut();
    slots[0] = NonMaxUsize::new(start);
    slots[1] = NonMaxUsize::new(end);
    captures
}

/// The sample of this name.
pub fn named(rt: &(impl Abort + AllocGlobal), name: &str) -> NFA {
    sample(rt.alloc(), name)
        .expect(rt, "memory")
        .expect(rt, name)
}
