//! What a regex keeps of its texts, and what it says of its groups.
ghost use Rattle.std.specs.Prelude.{[]};

use nfa_engines::{Captures, Input, Span};
use nfa_meta::{NoExpand, Regex, RegexSet, Replacer, extract};
use std::alloc::AllocError;
use std::test::Fail;
use test_support::TestRuntime;

#[test]
fn texts_are_kept(rt: HostRuntime) -> Result<(), Fail> {
    let alloc = rt.alloc();
    let mut regex = Regex::new(alloc, r"(\w+)\n")?;
    assert!(rt; regex.is_match(Input::new(b"a b\n")));
    assert_eq!(rt; regex.as_str(), Some(r"(\w+)\n"));
    let copy = regex.clone(alloc)?;
    assert_eq!(rt; copy.as_str(), Some(r"(\w+)\n"));
    let shown = format!(in alloc; "{copy}")?;
    assert_eq!(rt; shown.as_str(), r"(\w+)\n");
    // As the crate `regex` prints it.
    let shown = format!(in alloc; "{copy:?}")?;
    assert_eq!(rt; shown.as_str(), r#"Regex("(\\w+)\\n")"#);
    Ok(())
}

#[test]
fn lists_of_texts_are_kept(rt: HostRuntime) -> Result<(), Fail> {
    let alloc = rt.alloc();
    let regex = Regex::new_many(alloc, &["a", "", "b+"])?;
    assert_eq!(rt; regex.as_str(), None);
    assert_eq!(rt; regex.patterns().len(), 3);
    let shown = format!(in alloc; "{regex} {regex:?}")?;
    assert_eq!(rt; shown.as_str(), r#"["a", "", "b+"] Regex(["a", "", "b+"])"#);
    let set = RegexSet::new(alloc, &["foo", r"\d"])?;
    let set = set.clone(alloc)?;
    assert_eq!(rt; set.patterns().len(), 2);
    let shown = format!(in alloc; "{set:?}")?;
    assert_eq!(rt; shown.as_str(), r#"RegexSet(["foo", "\\d"])"#);
    let none = RegexSet::new_from_nfa(alloc, set.get_nfa().clone()?)?;
    assert!(rt; none.patterns().is_empty());
    Ok(())
}

// Patterns, and the number of groups that each match sets, as the crate `regex` says it.
const STATIC: &[(&str, Option<usize>)] = &[
    ("a", Some(1)),
    ("(a)", Some(2)),
    ("(a)(b)", Some(3)),
    ("a|(b)", None),
    ("(a)|b", None),
    ("(b)*", None),
    ("(b)+", Some(2)),
    ("(b){2,5}c(d)", Some(3)),
    ("(a)?", None),
    (r"^(\w+)=(\S*)$", Some(3)),
    (r"(?<y>[0-9]{4})-(?<m>[0-9]{2})(?:-(?<d>[0-9]{2}))?", None),
];

// Each match sets as many groups, but not the same ones.
const OTHER_GROUPS: &[&str] = &["(a)|(b)", "(a)(b)|(c)(d)", "(?:(a)b|c(d))(e)"];

#[test]
fn groups_of_each_match_are_counted(rt: HostRuntime) -> Result<(), Fail> {
    let alloc = rt.alloc();
    for &(pattern, wanted) in STATIC {
        let regex = Regex::new(alloc, pattern)?;
        assert_eq!(rt; regex.static_captures_len(alloc)?, wanted, "{pattern}");
    }
    for pattern in OTHER_GROUPS {
        let regex = Regex::new(alloc, pattern)?;
        assert_eq!(rt; regex.static_captures_len(alloc)?, None, "{pattern}");
    }
    let several = Regex::new_many(alloc, &["(a)", "(b)"])?;
    assert_eq!(rt; several.static_captures_len(alloc)?, None);
    Ok(())
}

#[test]
fn spans_of_groups_are_extracted(rt: HostRuntime) -> Result<(), Fail> {
    let alloc = rt.alloc();
    let mut regex = Regex::new(alloc, r"([0-9]{4})-([0-9]{2})(x)?")?;
    let mut captures = regex.create_captures(alloc)?;
    let text = b"on 2010-03x";
    regex.captures(Input::new(text), &mut captures);
    let (found, groups) = extract::<3>(&captures).ok_or("three groups")?;
    assert_eq!(rt; found, Span { start: 3, end: 11 });
    assert_eq!(rt; groups[0], Span { start: 3, end: 7 });
    assert_eq!(rt; groups[1], Span { start: 8, end: 10 });
    assert_eq!(rt; groups[2], Span { start: 10, end: 11 });
    assert!(rt; extract::<2>(&captures).is_none());
    assert!(rt; extract::<4>(&captures).is_none());
    // The third group takes no part, or nothing matches.
    for text in [b"on 2010-03".as_slice(), b"never"] {
        regex.captures(Input::new(text), &mut captures);
        assert!(rt; extract::<3>(&captures).is_none());
        assert!(rt; extract::<0>(&captures).is_none());
    }
    Ok(())
}

// A replacer of a caller's own: the match in brackets.
struct Bracketed;

impl Replacer for Bracketed {
    ghost appends = { λ _ _ _. [] };

    fn replace_append(
        &self,
        haystack: &[u8],
        captures: &Captures,
        output: &mut Vec<u8>,
    ) -> Result<(), AllocError> {
        output.extend_from_slice(b"[")?;
        output.extend_from_slice(captures.group_text(haystack, 0).unwrap_or(b""))?;
        output.extend_from_slice(b"]")
    }
}

#[test]
fn replacers_are_put_in_place(rt: HostRuntime) -> Result<(), Fail> {
    let alloc = rt.alloc();
    let mut regex = Regex::new(alloc, "([0-9])([0-9]*)")?;
    let text = b"1 and 23, 4";
    let output = regex.replace_all_by(alloc, text, &NoExpand(b"$1"))?;
    assert_eq!(rt; output.as_slice(), b"$1 and $1, $1".as_slice());
    let template = regex.parse_template(alloc, b"$2$1")?;
    let output = regex.replacen_by(alloc, text, 2, &template)?;
    assert_eq!(rt; output.as_slice(), b"1 and 32, 4".as_slice());
    let output = regex.replacen_by(alloc, text, 0, &Bracketed)?;
    assert_eq!(rt; output.as_slice(), b"[1] and [23], [4]".as_slice());
    Ok(())
}
