//! Regexes that keep fewer groups, beside the same regex with all groups: what does not need a group stays the same.

use WhichCaptures::{All, Implicit, None};
use nfa_engines::{HalfMatch, Input, Match, NonMaxUsize, PatternSet};
use nfa_meta::{Builder, Config, Regex, WhichCaptures};
use std::test::Fail;
use test_support::TestRuntime;

const PATTERNS: &[&[&str]] = &[
    &["([a-z]+) ([a-z]+)"],
    &[r"(\w+)=(\S+)"],
    &[r"(\d{4})-(\d\d)"],
    &["(a)|(b)"],
    &["(a*)(b*)"],
    &["(a|aa)+$"],
    &["()"],
    &[r"\b(\w)(\w*)\b"],
    &["(?m)(^)[a-z]?($)"],
    &["[a-z]+"],
    &["(a)b", "(ab)", "([a-z])(.)"],
    &["x(?:a|(b))", "-(-)?(a|b)", "(b+)"],
];

const HAYSTACKS: &[&str] = &[
    "",
    "ab",
    "aaab ab",
    "foo bar=12 baz",
    "2024-01-02 x",
    "\u{e9}\u{2603} \u{3b1}\u{3b2}=x",
    "--a--b\n\nxb",
];

/// Settings with which each engine comes to search.
fn settings() -> [Config; 3] {
    let config = Regex::config();
    let whole = config.hybrid(false);
    [config, whole, whole.backtrack_visited_capacity(0)]
}

fn keeping(config: Config, which: WhichCaptures) -> Builder {
    Regex::builder().configure(config.which_captures(which))
}

fn halves_of(
    rt: &impl TestRuntime,
    regex: &mut Regex,
    input: Input<'_>,
) -> Result<Vec<HalfMatch>, Fail> {
    Ok(regex.half_matches(input).collect(rt.alloc())?)
}

fn overlapping(
    rt: &impl TestRuntime,
    regex: &mut Regex,
    input: &Input<'_>,
) -> Result<PatternSet, Fail> {
    let mut set = PatternSet::new(rt.alloc(), regex.pattern_len())?;
    regex.which_overlapping_matches(input, &mut set);
    Ok(set)
}

/// What needs no group is the same of both.
fn expect_alike(
    rt: &impl TestRuntime,
    all: &mut Regex,
    some: &mut Regex,
    input: Input<'_>,
) -> Result<(), Fail> {
    assert_eq!(rt; some.is_match(input), all.is_match(input), "{input:?}");
    assert_eq!(rt; some.find_half(input), all.find_half(input), "{input:?}");
    let halves = halves_of(rt, some, input)?;
    let wanted = halves_of(rt, all, input)?;
    assert_eq!(rt; halves.as_slice(), wanted.as_slice(), "{input:?}");
    let set = overlapping(rt, some, &input)?;
    let wanted = overlapping(rt, all, &input)?;
    assert_eq!(rt; set.len(), wanted.len(), "{input:?}");
    let all_are_there = wanted.iter().all(|pattern| set.contains(pattern));
    assert!(rt; all_are_there, "{input:?}");
    let pattern = some.search_slots(&input, &mut []);
    assert_eq!(rt; pattern, all.search_slots(&input, &mut []), "{input:?}");
    Ok(())
}

/// So is what needs the start of a match, if group 0 is kept. Otherwise it finds nothing.
fn expect_matches(
    rt: &impl TestRuntime,
    all: &mut Regex,
    some: &mut Regex,
    input: Input<'_>,
) -> Result<(), Fail> {
    let matches = some.find_all(rt.alloc(), input)?;
    let wanted = all.find_all(rt.alloc(), input)?;
    if some.group_info().slot_len() == 0 {
        assert!(rt;
            some.find(input).is_none() && matches.is_empty(),
            "{input:?}"
        );
        return Ok(());
    }
    assert_eq!(rt; some.find(input), all.find(input), "{input:?}");
    assert_eq!(rt; matches.as_slice(), wanted.as_slice(), "{input:?}");
    let count = 2 * some.pattern_len();
    let mut found = [NonMaxUsize::new(7); 6];
    let mut wanted = [NonMaxUsize::new(7); 6];
    some.search_slots(&input, &mut found[..count]);
    all.search_slots(&input, &mut wanted[..count]);
    assert!(rt; found == wanted, "{input:?}");
    Ok(())
}

#[test]
fn searches_find_the_same(rt: HostRuntime) -> Result<(), Fail> {
    for patterns in PATTERNS {
        for config in settings() {
            let builder = keeping(config, All);
            let mut all = builder.build_many(rt.alloc(), patterns)?;
            for (which, slots) in [(Implicit, 2 * patterns.len()), (None, 0)] {
                let builder = keeping(config, which);
                let mut some = builder.build_many(rt.alloc(), patterns)?;
                assert_eq!(rt; some.group_info().slot_len(), slots, "{patterns:?}");
                for text in HAYSTACKS {
                    let input = Input::new(text.as_bytes());
                    expect_alike(&rt, &mut all, &mut some, input)?;
                    expect_alike(&rt, &mut all, &mut some, input.earliest(true))?;
                    expect_matches(&rt, &mut all, &mut some, input)?;
                }
            }
        }
    }
    Ok(())
}

#[test]
fn sets_find_the_same(rt: HostRuntime) -> Result<(), Fail> {
    let alloc = rt.alloc();
    for patterns in PATTERNS {
        let mut all = Regex::builder().build_set(alloc, patterns)?;
        for which in [Implicit, None] {
            let builder = Regex::builder().which_captures(which);
            let mut some = builder.build_set(alloc, patterns)?;
            for text in HAYSTACKS {
                let input = Input::new(text.as_bytes());
                let found = some.matches(alloc, &input)?;
                let wanted = all.matches(alloc, &input)?;
                for index in 0..patterns.len() {
                    let same = found.matched(index) == wanted.matched(index);
                    assert!(rt; same, "{patterns:?}, {index}, {text}");
                }
                assert_eq!(rt; some.is_match(input), all.is_match(input), "{text}");
            }
        }
    }
    Ok(())
}

#[test]
fn captures_have_the_groups_that_are_kept(rt: HostRuntime) -> Result<(), Fail> {
    let alloc = rt.alloc();
    let input = Input::new(b"a foo");
    // The groups of "(?<n>fo)(o)", and the spans of groups 0 and 1.
    for (which, groups, spans) in [
        (All, 3, [Some(2..5), Some(2..4)]),
        (Implicit, 1, [Some(2..5), Option::None]),
        (None, 0, [Option::None, Option::None]),
    ] {
        let builder = Regex::builder().which_captures(which);
        let mut regex = builder.build(alloc, "(?<n>fo)(o)")?;
        assert_eq!(rt; regex.get_config().which_captures, which);
        assert_eq!(rt; regex.captures_len(), groups, "{which:?}");
        let mut captures = regex.create_captures(alloc)?;
        regex.captures(input, &mut captures);
        // The pattern needs no group.
        assert!(rt; captures.is_match(), "{which:?}");
        let list = regex.captures_all(alloc, input)?;
        assert_eq!(rt; list.len(), groups.min(1), "{which:?}");
        for (group, wanted) in spans.iter().enumerate() {
            let found = captures.get_group(group).map(|span| span.start..span.end);
            assert_eq!(rt; found, *wanted, "{which:?}, {group}");
        }
        // The names are those of the text.
        let names = builder.capture_names(alloc, "(?<n>fo)(o)")?;
        assert!(rt; names.len() == 3 && names[1].as_deref() == Some("n"));
    }
    Ok(())
}

#[test]
fn fewer_groups_take_less_memory(rt: HostRuntime) -> Result<(), Fail> {
    for patterns in PATTERNS {
        let mut bytes = usize::MAX;
        for which in [All, Implicit, None] {
            let builder = Regex::builder().which_captures(which);
            let regex = builder.build_many(rt.alloc(), patterns)?;
            let is_same = which == Implicit && patterns[0] == "[a-z]+";
            let usage = regex.memory_usage();
            assert!(rt;
                usage < bytes || is_same && usage == bytes,
                "{patterns:?}, {which:?}"
            );
            bytes = usage;
        }
    }
    Ok(())
}

#[test]
fn the_rest_needs_a_start(rt: HostRuntime) -> Result<(), Fail> {
    let alloc = rt.alloc();
    // What is left of a text if each match is replaced, and the number of its matches.
    for (which, left, count) in [
        (All, "x==z", 2),
        (Implicit, "x==z", 2),
        (None, "xabyabz", 0),
    ] {
        let builder = Regex::builder().which_captures(which);
        let mut regex = builder.build(alloc, "(a)(b)y?")?;
        let output = regex.replace_all(alloc, b"xabyabz", b"=")?;
        assert_eq!(rt; output.as_slice(), left.as_bytes(), "{which:?}");
        assert_eq!(rt; regex.count(Input::new(b"xabyabz")), count, "{which:?}");
    }
    Ok(())
}
