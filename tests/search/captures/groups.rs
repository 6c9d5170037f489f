//! The groups of captures, by name and by number.

use super::table::{all_backtracked, all_piked};
use nfa_engines::{Captures, Span};
use std::process::Abort;

const FOOS: &[u8] = b"foo1 foo12 foo123";

// The span of the group `numbers` in each match in that text.
const NUMBERS: &[(usize, usize)] = &[(3, 4), (8, 10), (14, 17)];

fn bounds(span: Span) -> (usize, usize) {
    (span.start, span.end)
}

fn expect_each_numbered(rt: &impl Abort, all: &[Captures]) {
    assert_eq!(rt; all.len(), NUMBERS.len());
    for (captures, want) in all.iter().zip(NUMBERS) {
        let span = captures.get_group_by_name("numbers");
        assert_eq!(rt; span.map(bounds), Some(*want));
    }
}

const DATE: &[u8] = b"2010-03-14";

// The groups of `date` in it: the whole, the year, the month and the day, and no more.
const DATE_GROUPS: &[Option<(usize, usize)>] = &[
    Some((0, 10)),
    Some((0, 4)),
    Some((5, 7)),
    Some((8, 10)),
    None,
];

fn expect_date(rt: &impl Abort, all: &[Captures]) {
    assert_eq!(rt; all.len(), 1);
    for (index, want) in DATE_GROUPS.iter().enumerate() {
        let span = all[0].get_group(index);
        assert_eq!(rt; span.map(bounds), *want, "group {index}");
    }
}

#[test]
fn captures_have_named_groups(rt: HostRuntime) {
    expect_each_numbered(&rt, &all_piked(&rt, "foo_num", FOOS));
    expect_each_numbered(&rt, &all_backtracked(&rt, "foo_num", FOOS));
}

#[test]
fn captures_have_numbered_groups(rt: HostRuntime) {
    expect_date(&rt, &all_piked(&rt, "date", DATE));
    expect_date(&rt, &all_backtracked(&rt, "date", DATE));
}
