//! Tests of the groups of captures.

use super::{span, two_patterns, written};
use crate::tests::fixtures::pattern;
use regex_search_core::{Captures, Span};
use std::process::Abort;
use std::test::Fail;

// A haystack, a group, and its text.
const TEXTS: &[(&[u8], usize, Option<&[u8]>)] = &[
    (b"abcdefgh", 0, Some(b"bcdefgh")),
    (b"abcdefgh", 1, None),
    (b"abcdefgh", 2, Some(b"cd")),
    (b"abcdefgh", 3, None),
    (b"abcdefg", 0, None),
    (b"abcd", 2, Some(b"cd")),
    (b"abc", 2, None),
];

#[test]
fn captures_show_their_groups(rt: HostRuntime) {
    let mut captures = written(&rt);
    expect_groups(&rt, &captures, &[Some(span(1, 8)), None, Some(span(2, 4))]);
    for &(haystack, group, want) in TEXTS {
        assert_eq!(rt;
            captures.group_text(haystack, group),
            want,
            "{haystack:?}, {group}"
        );
    }
    let texts: &[(&[u8], &str, Option<&[u8]>)] = &[
        (b"abcdefgh", "numbers", Some(b"cd")),
        (b"abc", "numbers", None),
        (b"abcdefgh", "a", None),
    ];
    for &(haystack, name, want) in texts {
        assert_eq!(rt;
            captures.group_text_by_name(haystack, name),
            want,
            "{haystack:?}, {name}"
        );
    }
    captures.set_pattern(Some(pattern(&rt, 1)));
    expect_groups(&rt, &captures, &[None, None, None]);
    captures.set_pattern(Some(pattern(&rt, 2)));
    expect_groups(&rt, &captures, &[]);
    captures.clear();
    expect_groups(&rt, &captures, &[]);
    captures.set_pattern(Some(pattern(&rt, 0)));
    expect_groups(&rt, &captures, &[None, None, None]);
}

// The pattern that is set has these groups, by `group_len` and by `collect`.
fn expect_groups(rt: &(impl Abort + AllocGlobal), captures: &Captures, want: &[Option<Span>]) {
    assert_eq!(rt; captures.group_len(), want.len());
    let found: Vec<Option<Span>> = captures.iter().collect(rt.alloc()).expect(rt, "memory");
    assert_eq!(rt; found.as_slice(), want);
}

#[test]
fn captures_of_fewer_slots_have_all_groups(rt: HostRuntime) -> Result<(), Fail> {
    let mut captures = Captures::matches(rt.alloc(), two_patterns(&rt))?;
    captures.set_pattern(Some(pattern(&rt, 0)));
    expect_groups(&rt, &captures, &[None, None, None]);
    Ok(())
}
