//! Tests of the values that all engines use.
mod captured;
mod texts;

use super::fixtures::pattern;
use regex_search_core::{
    Anchored, Captures, GroupInfo, HalfMatch, Input, Match, MatchKind, NonMaxUsize, PatternID,
    PatternSet, Span, StateID,
};
use std::process::Abort;
use std::test::Fail;

fn span(start: usize, end: usize) -> Span {
    Span { start, end }
}

/// Two patterns of two explicit groups. The first names only its second group, the second gives both the same name.
fn two_patterns(rt: &(impl Abort + AllocGlobal)) -> GroupInfo {
    let alloc = rt.alloc();
    let first = vec![in alloc; None, Some(text(rt, "numbers"))].expect(rt, "memory");
    let second = vec![in alloc; Some(text(rt, "a")), Some(text(rt, "a"))].expect(rt, "memory");
    let names = vec![in alloc; first, second].expect(rt, "memory");
    GroupInfo::new(names).expect(rt, "groups")
}

fn text(rt: &(impl Abort + AllocGlobal), text: &str) -> String {
    String::from_str(rt.alloc(), text).expect(rt, "memory")
}

// A number, and whether it is that of a pattern and of a state.
const NUMBERS: &[(usize, bool)] = &[
    (0, true),
    (2147483646, true),
    (2147483647, false),
    (usize::MAX, false),
];

#[test]
fn numbers_at_their_limits(rt: HostRuntime) {
    for &(number, fits) in NUMBERS {
        let want = if fits { Some(number) } else { None };
        assert_eq!(rt; PatternID::new(number).map(PatternID::as_usize), want);
        assert_eq!(rt; StateID::new(number).map(StateID::as_usize), want);
    }
    let last = usize::MAX - 1;
    assert_eq!(rt; NonMaxUsize::new(last).map(NonMaxUsize::get), Some(last));
    assert_eq!(rt; NonMaxUsize::new(usize::MAX), None);
}

#[test]
fn inputs(rt: HostRuntime) {
    let input = Input::new(b"abc");
    assert_eq!(rt; input.haystack(), b"abc".as_slice());
    assert_eq!(rt; input.get_span(), span(0, 3));
    assert_eq!(rt; input.get_anchored(), Anchored::No);
    assert!(rt; !input.get_earliest() && !input.is_done());

    let mut input = input
        .span(span(1, 2))
        .anchored(Anchored::Yes)
        .earliest(true);
    assert_eq!(rt; input.get_span(), span(1, 2));
    assert!(rt; input.get_anchored().is_anchored() && input.get_earliest());
    input = input.range(1..3);
    assert_eq!(rt; (input.start(), input.end()), (1, 3));
    input.set_end(2);
    input.set_start(3);
    assert!(rt; input.is_done());
    assert_eq!(rt; input.get_span().len(), 0);
    assert_eq!(rt; span(1, 3).len(), 2);
    input.set_span(span(0, 1));
    assert_eq!(rt; input.get_range(), 0..1);
    input.set_range(2..3);
    assert_eq!(rt; input.get_span(), span(2, 3));
    input.set_anchored(Anchored::Pattern(pattern(&rt, 1)));
    input.set_earliest(false);
    assert_eq!(rt; input.get_anchored().pattern(), Some(pattern(&rt, 1)));
    assert!(rt; !input.get_earliest() && Anchored::Yes.pattern().is_none());
    assert!(rt; Anchored::Pattern(pattern(&rt, 1)).is_anchored());
    assert!(rt; !Anchored::No.is_anchored());
    assert!(rt; MatchKind::All.continue_past_first_match());
    assert!(rt; !MatchKind::LeftmostFirst.continue_past_first_match());
}

// A span, and whether it is empty.
const EMPTY_SPANS: &[(usize, usize, bool)] = &[(1, 3, false), (3, 3, true), (3, 1, true)];

#[test]
fn spans(rt: HostRuntime) {
    for &(start, end, empty) in EMPTY_SPANS {
        let span = span(start, end);
        assert_eq!(rt; span.is_empty(), empty);
        assert_eq!(rt; span.range(), start..end);
        assert_eq!(rt; span.offset(4).range(), start + 4..end + 4);
    }
}

// A haystack, and whether each offset is a boundary, also past its end.
const BOUNDARIES: &[(&[u8], &[bool])] = &[
    (
        b"a\xE2\x98\x83b",
        &[true, true, false, false, true, true, false],
    ),
    (
        b"\x00\x7F\x80\xBF\xC0\xFF",
        &[true, true, false, false, true, true, true],
    ),
];

#[test]
fn boundaries(rt: HostRuntime) {
    for (haystack, wants) in BOUNDARIES {
        let input = Input::new(haystack);
        for (offset, want) in wants.iter().enumerate() {
            assert_eq!(rt;
                input.is_char_boundary(offset),
                *want,
                "{haystack:?}, {offset}"
            );
        }
    }
}

// The slots of four patterns. `usize::MAX` is a slot that is not set.
const SLOTS: [usize; 8] = [1, 3, 4, usize::MAX, 6, 5, 2, 2];

// A pattern, and the ends of its match.
const SLOT_ENDS: &[(usize, Option<(usize, usize)>)] = &[
    (0, Some((1, 3))),
    (1, None),
    (2, None),
    (3, Some((2, 2))),
    (4, None),
    (2147483646, None),
];

#[test]
fn matches_of_slots(rt: HostRuntime) {
    let row = SLOTS.map(|offset| NonMaxUsize::new(offset));
    for &(number, want) in SLOT_ENDS {
        let found = Match::from_slots(pattern(&rt, number), &row);
        assert_eq!(rt;
            found.map(|found| (found.start(), found.end())),
            want,
            "{number}"
        );
    }
    assert_eq!(rt; Match::from_slots(pattern(&rt, 0), &row[..1]), None);
}

#[test]
fn matches_have_their_parts(rt: HostRuntime) {
    let found = Match::new(pattern(&rt, 5), span(2, 4));
    assert_eq!(rt; found.pattern(), pattern(&rt, 5));
    assert_eq!(rt; (found.start(), found.end()), (2, 4));
    assert!(rt; !found.is_empty());
    assert_eq!(rt; (found.range(), found.len()), (2..4, 2));
    assert!(rt; Match::new(pattern(&rt, 5), span(2, 2)).is_empty());
    let half = HalfMatch::new(pattern(&rt, 5), 4);
    assert_eq!(rt; (half.pattern(), half.offset()), (pattern(&rt, 5), 4));
}

// A pattern, and the result of its insertion.
const INSERTED: &[(usize, Option<bool>)] = &[
    (2, Some(true)),
    (0, Some(true)),
    (2, Some(false)),
    (3, None),
];

// A pattern, and whether it was in the set.
const REMOVED: &[(usize, bool)] = &[(1, true), (1, false), (2147483646, false)];

#[test]
fn sets(rt: HostRuntime) -> Result<(), Fail> {
    let mut set = PatternSet::new(rt.alloc(), 3)?;
    assert!(rt; set.is_empty() && !set.is_full());
    for &(number, want) in INSERTED {
        assert_eq!(rt; set.try_insert(pattern(&rt, number)), want, "{number}");
    }
    assert_eq!(rt; (set.len(), set.capacity()), (2, 3));
    assert!(rt; set.contains(pattern(&rt, 2)) && !set.contains(pattern(&rt, 1)));
    assert!(rt; !set.contains(pattern(&rt, 3)));
    assert!(rt; set.contains_number(2) && !set.contains_number(usize::MAX));
    expect_members(&rt, &set, &[0, 2]);

    assert_eq!(rt; set.try_insert(pattern(&rt, 1)), Some(true));
    assert!(rt; set.is_full() && !set.is_empty());
    expect_members(&rt, &set, &[0, 1, 2]);

    for &(number, want) in REMOVED {
        assert_eq!(rt; set.remove(pattern(&rt, number)), want, "{number}");
    }
    assert_eq!(rt; (set.len(), set.capacity()), (2, 3));
    expect_members(&rt, &set, &[0, 2]);
    set.clear();
    expect_members(&rt, &set, &[]);
    Ok(())
}

// The set has these patterns, by `collect`.
fn expect_members(rt: &(impl Abort + AllocGlobal), set: &PatternSet, want: &[usize]) {
    let found: Vec<PatternID> = set.iter().collect(rt.alloc()).expect(rt, "memory");
    assert_eq!(rt; found.len(), want.len());
    for (found, want) in found.iter().zip(want) {
        assert_eq!(rt; found.as_usize(), *want);
    }
}

#[test]
fn a_set_takes_patterns_below_its_capacity(rt: HostRuntime) -> Result<(), Fail> {
    let mut set = PatternSet::new(rt.alloc(), 1)?;
    assert_eq!(rt; set.capacity(), 1);
    assert!(rt; set.insert(pattern(&rt, 0)));
    assert!(rt; !set.insert(pattern(&rt, 0)));
    Ok(())
}

#[test]
fn a_set_of_no_patterns_is_full(rt: HostRuntime) -> Result<(), Fail> {
    let set = PatternSet::new(rt.alloc(), 0)?;
    assert!(rt; set.is_full());
    Ok(())
}

// A pattern, a group, and the slot of its start.
const GROUP_SLOTS: &[(usize, usize, Option<usize>)] = &[
    (0, 0, Some(0)),
    (1, 0, Some(2)),
    (0, 1, Some(4)),
    (0, 2, Some(6)),
    (1, 1, Some(8)),
    (1, 2, Some(10)),
    (0, 3, None),
    (1, usize::MAX, None),
    (2, 0, None),
];

// A pattern, a name, and the group of this name.
const NAMED: &[(usize, &str, Option<usize>)] = &[
    (0, "numbers", Some(2)),
    (1, "a", Some(1)),
    (0, "a", None),
    (0, "number", None),
    (2, "a", None),
];

#[test]
fn groups(rt: HostRuntime) -> Result<(), Fail> {
    let made = two_patterns(&rt);
    expect_two_patterns(&rt, &made);
    expect_two_patterns(&rt, &made.clone()?);
    Ok(())
}

fn expect_two_patterns(rt: &impl Abort, groups: &GroupInfo) {
    assert_eq!(rt; groups.pattern_len(), 2);
    assert_eq!(rt; groups.implicit_slot_len(), 4);
    assert_eq!(rt; groups.slot_len(), 12);
    for &(number, group, want) in GROUP_SLOTS {
        let slot = groups.slot(pattern(rt, number), group);
        assert_eq!(rt; slot, want, "{number}, {group}");
    }
    for (number, want) in [3, 3, 0].iter().enumerate() {
        assert_eq!(rt; groups.group_len(pattern(rt, number)), *want, "{number}");
    }
    for &(number, name, want) in NAMED {
        let group = groups.to_index(pattern(rt, number), name);
        assert_eq!(rt; group, want, "{number}, {name}");
    }
}

#[test]
fn captures_have_their_slots(rt: HostRuntime) -> Result<(), Fail> {
    let alloc = rt.alloc();
    let groups = two_patterns(&rt);
    assert_eq!(rt; Captures::matches(alloc, groups.clone()?)?.slots().len(), 4);
    assert_eq!(rt; Captures::empty(alloc, groups.clone()?)?.slots().len(), 0);
    let captures = Captures::all(alloc, groups)?;
    assert_eq!(rt; captures.slots().len(), 12);
    assert_eq!(rt; captures.group_info().slot_len(), 12);
    assert!(rt; !captures.is_match());
    assert_eq!(rt; captures.pattern(), None);
    assert_eq!(rt; captures.get_match(), None);
    assert_eq!(rt; captures.get_group(0), None);
    Ok(())
}

#[test]
fn captures_tell_what_was_written(rt: HostRuntime) -> Result<(), Fail> {
    let captures = written(&rt);
    expect_match(&rt, captures.clone()?);
    expect_match(&rt, captures);
    Ok(())
}

const WRITTEN: &[(usize, usize)] = &[(0, 1), (1, 8), (6, 2), (7, 4)];

// Captures with a match of the first pattern from 1 to 8, and its second group from 2 to 4.
fn written(rt: &(impl Abort + AllocGlobal)) -> Captures {
    let mut captures = Captures::all(rt.alloc(), two_patterns(rt)).expect(rt, "memory");
    captures.set_pattern(Some(pattern(rt, 0)));
    let slots = captures.slots_mut();
    for &(slot, offset) in WRITTEN {
        slots[slot] = NonMaxUsize::new(offset);
    }
    captures
}

// The captures have that match, and no second group once its start is after its end.
fn expect_match(rt: &impl Abort, mut captures: Captures) {
    assert!(rt; captures.is_match());
    assert_eq!(rt; captures.pattern(), Some(pattern(rt, 0)));
    let found = Match::new(pattern(rt, 0), span(1, 8));
    assert_eq!(rt; captures.get_match(), Some(found));
    assert_eq!(rt; captures.get_group(0), Some(span(1, 8)));
    assert_eq!(rt; captures.get_group(1), None);
    assert_eq!(rt; captures.get_group(2), Some(span(2, 4)));
    assert_eq!(rt; captures.get_group(3), None);
    assert_eq!(rt; captures.get_group_by_name("numbers"), Some(span(2, 4)));
    assert_eq!(rt; captures.get_group_by_name("a"), None);
    assert_eq!(rt; captures.slots().len(), 12);
    captures.slots_mut()[6] = NonMaxUsize::new(7);
    assert_eq!(rt; captures.get_group(2), None);
}
