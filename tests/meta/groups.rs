//! Groups of a regex beside those of a choice: by sure steps, by the choice, and by both, in several rounds.

use nfa_choice::choose::Choice;
use nfa_compiler::Compiler;
use nfa_engines::{Anchored, Input, NonMaxUsize, backtrack, pikevm};
use nfa_meta::Regex;
use std::test::Fail;
use test_support::TestRuntime;

const HAYSTACKS: &[&str] = &[
    "",
    "a",
    "ab",
    "aaab",
    "foo bar=12 baz",
    "2024-01-02T03:04:05 x",
    "key: value: more\nnext = 7",
    "\u{e9}\u{2603} \u{3b1}\u{3b2}=x",
    "abcabcabc aab",
    "--a--b--",
];

/// Patterns whose steps are sure, those whose steps are not, and those with both.
const PATTERNS: &[&[&str]] = &[
    &["([a-z]+) ([a-z]+)"],
    &[r"(\w+)=(\S+)"],
    &[r"(\d{4})-(\d\d)-(\d\d)T(\d\d):(\d\d)"],
    &["(a)|(b)"],
    &["(a*)(b*)"],
    &["(a*)(a*)b"],
    &["(a|aa)+$"],
    &["(?:(a)|(b))*"],
    &["(.+?): (.+)"],
    &["(.*)=(.*)"],
    &["(a+?)(b?)"],
    &[r"\b(\w)(\w*)\b"],
    &[r"(?m)^(\w+)(?: = (\d+))?$"],
    &[r"(?m:(^)|($))"],
    &[r"(\B)(-)"],
    &["()"],
    &["(a)?(b)?(c)?"],
    &[r"([^\s=]+)"],
    &[r"(\pL)(\pL)"],
    &["(?:(a)(b)(c))+"],
    &["((a)|b)+"],
    &["(a)b", "(ab)", "([a-z])(.)"],
    &["([0-9]+)", "([a-z]+)(=)"],
    &["x(?:a|(b))", "-(-)?(a|b)"],
    &[r"(\w+)=(\S+)\z"],
    &["([a-z]+)(?: ([a-z]+))?$"],
    &[r"(a)(b)\z|(a)"],
    &["(?:(a)|b)*$"],
    &["(?s)(.)(.*)$"],
    &[r"(a*)(b|\z)", r"([a-z]*)\z"],
];

fn choice_of(rt: &impl TestRuntime, patterns: &[&str]) -> Result<Choice, Fail> {
    let nfa = Compiler::new().build_many(rt.alloc(), patterns)?;
    Ok(Choice::new(
        rt.alloc(),
        nfa,
        backtrack::Config::new(),
        pikevm::Config::new(),
    )?)
}

/// Both give the same captures of all matches.
fn expect_same_rows(
    rt: &impl TestRuntime,
    regex: &mut Regex,
    choice: &mut Choice,
    input: Input<'_>,
    patterns: &[&str],
) -> Result<(), Fail> {
    let found = regex.captures_all(rt.alloc(), input)?;
    let wanted = choice.captures_all(rt.alloc(), input)?;
    assert_eq!(rt; found.len(), wanted.len(), "{patterns:?} {input:?}");
    for index in 0..found.len() {
        let same = found[index].pattern() == wanted[index].pattern();
        assert!(rt; same, "{patterns:?} {input:?}");
        assert_eq!(rt;
            found[index].slots(),
            wanted[index].slots(),
            "{patterns:?} {input:?}"
        );
    }
    Ok(())
}

/// Both write the same slots, also if there is room for a part of them only.
fn expect_same_slots(
    rt: &impl TestRuntime,
    regex: &mut Regex,
    choice: &mut Choice,
    input: Input<'_>,
    patterns: &[&str],
) {
    for count in [0, 1, 3, 4, 12] {
        let mut found = [NonMaxUsize::new(7); 12];
        let mut wanted = [None; 12];
        let pattern = regex.search_slots(&input, &mut found[..count]);
        let other = choice.search_slots(&input, &mut wanted[..count]);
        assert_eq!(rt; pattern, other, "{patterns:?} {input:?}");
        assert_eq!(rt; found[..count], wanted[..count], "{patterns:?} {input:?}");
    }
}

#[test]
fn groups_are_those_of_a_choice(rt: HostRuntime) -> Result<(), Fail> {
    for &patterns in PATTERNS {
        let mut choice = choice_of(&rt, patterns)?;
        let mut regex = Regex::new_many(rt.alloc(), patterns)?;
        for _ in 0..3 {
            for haystack in HAYSTACKS {
                let input = Input::new(haystack.as_bytes());
                expect_same_rows(&rt, &mut regex, &mut choice, input, patterns)?;
                expect_same_slots(&rt, &mut regex, &mut choice, input, patterns);
                let bound = input.anchored(Anchored::Yes);
                expect_same_slots(&rt, &mut regex, &mut choice, bound, patterns);
                expect_same_slots(&rt, &mut regex, &mut choice, input.earliest(true), patterns);
            }
        }
    }
    Ok(())
}

// If each step over the match is sure, the choice does not search.
#[test]
fn sure_steps_spare_a_search(rt: HostRuntime) -> Result<(), Fail> {
    for (pattern, walks) in [("([a-z]+)=([0-9]+)", true), ("(.*)=(.*)", false)] {
        let mut regex = Regex::new(rt.alloc(), pattern)?;
        let mut slots = [None; 6];
        regex.search_slots(&Input::new(b"ab=12"), &mut slots);
        let wanted = [0, 5, 0, 2, 3, 5].map(NonMaxUsize::new);
        assert_eq!(rt; slots, wanted, "{pattern}");
        assert_eq!(rt; regex.ran().is_none(), walks, "{pattern}");
    }
    Ok(())
}

// If the only assertion is that of the end, and no match ends before it, an anchored search takes the steps alone.
#[test]
fn sure_steps_alone_answer_to_the_end(rt: HostRuntime) -> Result<(), Fail> {
    for (pattern, walks) in [
        (r"([a-z]+)=([0-9]+)\z", true),
        ("([a-z]+)=([0-9]+)$", true),
        ("([a-z]+)=(12)", true),
        ("([a-z]+)=([0-9]+)", false),
        ("^([a-z]+)=([0-9]+)$", false),
        ("(?m)([a-z]+)=([0-9]+)$", false),
        (r"([a-z]+)\b=([0-9]+)$", false),
        ("([a-z]+)=([0-9]+)(?: .*)?$", true),
        ("(ab|a)(?:=)?([b=0-9]+)$", false),
    ] {
        let config = Regex::config().hybrid(false);
        let mut regex = Regex::builder()
            .configure(config)
            .build(rt.alloc(), pattern)?;
        let input = Input::new(b"ab=12").anchored(Anchored::Yes);
        let mut slots = [None; 6];
        regex.search_slots(&input, &mut slots);
        let wanted = [0, 5, 0, 2, 3, 5].map(NonMaxUsize::new);
        assert_eq!(rt; slots, wanted, "{pattern}");
        assert_eq!(rt; regex.ran().is_none(), walks, "{pattern}");
    }
    Ok(())
}

// If they lead to where no way goes on, nothing matches, and no engine searches.
#[test]
fn sure_steps_alone_tell_that_nothing_matches(rt: HostRuntime) -> Result<(), Fail> {
    for (pattern, haystack, matches, walks) in [
        ("([a-z]+)=([0-9]+)$", "ab=1x", false, true),
        ("([a-z]+)=([0-9]+)$", "ab=", false, true),
        ("([a-z]+)=([0-9]+)$", "", false, true),
        ("([a-z]+)=([0-9]+)", "ab", false, true),
        ("([a-z]+)=([0-9]+)", "ab=1x", true, false),
        ("(?m)([a-z]+)=([0-9]+)$", "ab", false, false),
        ("(a*)(a*)b$", "aac", false, false),
    ] {
        let config = Regex::config().hybrid(false);
        let mut regex = Regex::builder()
            .configure(config)
            .build(rt.alloc(), pattern)?;
        let input = Input::new(haystack.as_bytes()).anchored(Anchored::Yes);
        let mut slots = [NonMaxUsize::new(7); 6];
        let found = regex.search_slots(&input, &mut slots);
        assert_eq!(rt; found.is_some(), matches, "{pattern} {haystack}");
        assert_eq!(rt; slots == [None; 6], !matches, "{pattern} {haystack}");
        assert_eq!(rt; regex.ran().is_none(), walks, "{pattern} {haystack}");
    }
    Ok(())
}

// After enough searches whose steps are not sure, the regex no longer tries them: the answers stay the same.
#[test]
fn misses_turn_sure_steps_off(rt: HostRuntime) -> Result<(), Fail> {
    for patterns in [["(a|aa)+$"], ["(.*)=(.*)"], ["(a*)(a*)b"]] {
        let mut choice = choice_of(&rt, &patterns)?;
        let mut regex = Regex::new_many(rt.alloc(), &patterns)?;
        for _ in 0..40 {
            for haystack in ["aaaa", "x=y=z", "aaab", "no match"] {
                let input = Input::new(haystack.as_bytes());
                expect_same_rows(&rt, &mut regex, &mut choice, input, &patterns)?;
            }
        }
    }
    Ok(())
}

// A step that has to look at more states than it may is not sure: each `x?` is two of them.
#[test]
fn a_step_past_many_states_is_not_sure(rt: HostRuntime) -> Result<(), Fail> {
    for (pattern, walks) in [("(a)(?:x?){100}(b)", true), ("(a)(?:x?){3000}(b)", false)] {
        let patterns = [pattern];
        let mut choice = choice_of(&rt, &patterns)?;
        let mut regex = Regex::new_many(rt.alloc(), &patterns)?;
        let input = Input::new(b"ab");
        expect_same_rows(&rt, &mut regex, &mut choice, input, &patterns)?;
        assert_eq!(rt; regex.ran().is_none(), walks, "{pattern}");
    }
    Ok(())
}

// A walk over more states than rows have room ends without an answer, and the choice searches.
#[test]
fn more_states_than_rows_have_room(rt: HostRuntime) -> Result<(), Fail> {
    let patterns = ["(a{600})(b{600})"];
    let mut choice = choice_of(&rt, &patterns)?;
    let mut text = String::new(rt.alloc());
    for index in 0..1200 {
        text.push_str(if index < 600 { "a" } else { "b" })?;
    }
    let input = Input::new(text.as_bytes());
    let mut regex = Regex::new_many(rt.alloc(), &patterns)?;
    expect_same_rows(&rt, &mut regex, &mut choice, input, &patterns)?;
    assert!(rt; regex.ran().is_some());
    Ok(())
}

// Steps take no more memory than they may. Where there is no room for one, the choice searches.
#[test]
fn steps_stay_within_their_limit(rt: HostRuntime) -> Result<(), Fail> {
    for (limit, walks) in [(0, false), (2_000, false), (6_000, false), (100_000, true)] {
        let config = Regex::config()
            .onepass_size_limit(limit)
            .hybrid_cache_capacity(1 << 20);
        let mut regex = Regex::builder()
            .configure(config)
            .build(rt.alloc(), "(a+)(b+)(c+)")?;
        let input = Input::new(b"abc");
        assert!(rt; regex.find(input).is_some());
        let before = regex.memory_usage();
        regex.search_slots(&input, &mut [None; 8]);
        assert_eq!(rt; regex.ran().is_none(), walks, "{limit}");
        assert!(rt; !walks || regex.memory_usage() > before);
        assert!(rt; !walks || regex.memory_usage() <= before + limit);
    }
    Ok(())
}

// Without sure steps the choice searches for groups, and the answers stay the same.
#[test]
fn steps_can_be_left_out(rt: HostRuntime) -> Result<(), Fail> {
    let config = Regex::config().onepass(false);
    let mut regex = Regex::builder()
        .configure(config)
        .build(rt.alloc(), "([a-z]+)=([0-9]+)")?;
    let mut slots = [None; 6];
    regex.search_slots(&Input::new(b"ab=12"), &mut slots);
    assert_eq!(rt; slots, [0, 5, 0, 2, 3, 5].map(NonMaxUsize::new));
    assert!(rt; regex.ran().is_some());
    Ok(())
}
