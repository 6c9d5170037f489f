//! Building regexes: what the settings change, and which patterns are refused.

use nfa_engines::Input;
use nfa_meta::{Config, Regex, Syntax};
use std::test::Fail;
use test_support::TestRuntime;

// The regex finds a match with these bounds, or none.
fn expect_span(
    rt: &impl TestRuntime,
    regex: &mut Regex,
    haystack: &str,
    wanted: Option<(usize, usize)>,
) {
    let found = regex.find(Input::new(haystack.as_bytes()));
    let found = found.map(|m| (m.start(), m.end()));
    assert_eq!(rt; found, wanted, "{haystack}");
}

// The same of a regex with these settings.
fn expect_found(
    rt: &impl TestRuntime,
    config: Config,
    pattern: &str,
    haystack: &str,
    wanted: Option<(usize, usize)>,
) {
    let regex = Regex::builder()
        .configure(config)
        .build(rt.alloc(), pattern);
    let mut regex = regex.expect(rt, "a regex");
    expect_span(rt, &mut regex, haystack, wanted);
}

#[test]
fn settings_change_what_is_found(rt: HostRuntime) {
    let config = Regex::config();
    expect_found(&rt, config, "[0-9]+", "foo 12", Some((4, 6)));
    let anchored = config.anchored(true);
    expect_found(&rt, anchored, "[0-9]+", "foo 12", None);
    expect_found(&rt, anchored, "[0-9]+", "12", Some((0, 2)));
    expect_found(&rt, config, "(?:)", "☃", Some((0, 0)));
    let bytes = config.utf8(false);
    expect_found(&rt, bytes, r"(?-u:\x98)", "☃", Some((1, 2)));
}

#[test]
fn settings_of_engines_change_no_answer(rt: HostRuntime) {
    let config = Regex::config();
    let small = config
        .hybrid_cache_capacity(2000)
        .backtrack_visited_capacity(8);
    for config in [config, config.hybrid(false), small] {
        let pattern = r"\b[a-z]+[0-9]";
        expect_found(&rt, config, pattern, "☃ foo7 bar8", Some((4, 8)));
    }
}

#[test]
fn errors_name_the_cause(rt: HostRuntime) -> Result<(), Fail> {
    let alloc = rt.alloc();
    let builder = Regex::builder();
    let small = builder.configure(Regex::config().nfa_size_limit(100));
    for (builder, pattern, wanted) in [
        (builder, "foo(", "pattern 0, at 3..4: "),
        (
            small,
            r"\w{50}",
            "pattern 0 exceeds the size limit of 100 bytes",
        ),
        (builder, r"\141", "pattern 0, at "),
    ] {
        let error = builder.build(alloc, pattern).err();
        let text = format!(in alloc; "{}", error.expect(&rt, "an error"))?;
        assert!(rt; text.starts_with(wanted), "{text}");
    }
    Ok(())
}

#[test]
fn octal_numbers_are_read_if_wanted(rt: HostRuntime) -> Result<(), Fail> {
    let syntax = Syntax {
        octal: true,
        ..Syntax::default()
    };
    let mut regex = Regex::builder().syntax(syntax).build(rt.alloc(), r"\141")?;
    expect_span(&rt, &mut regex, "a", Some((0, 1)));
    Ok(())
}

#[test]
fn patterns_and_groups_are_counted(rt: HostRuntime) -> Result<(), Fail> {
    let regex = Regex::new_many(rt.alloc(), &["(?<n>[0-9])(x)", "[a-z]"])?;
    assert_eq!(rt; regex.pattern_len(), 2);
    assert_eq!(rt; regex.group_info().slot_len(), 8);
    Ok(())
}

#[test]
fn one_wrong_pattern_is_an_error(rt: HostRuntime) {
    let built = Regex::new_many(rt.alloc(), &["a", "(", "b"]);
    assert!(rt; built.is_err());
}

#[test]
fn settings_are_kept(rt: HostRuntime) -> Result<(), Fail> {
    let config = Regex::config().hybrid_cache_capacity(100_000);
    let regex = Regex::builder().configure(config).build(rt.alloc(), "fo+")?;
    let kept = regex.get_config();
    assert_eq!(rt; kept.hybrid_cache_capacity, 100_000);
    assert!(rt; kept.utf8 && !kept.anchored);
    Ok(())
}

#[test]
fn rows_take_memory(rt: HostRuntime) -> Result<(), Fail> {
    let mut regex = Regex::new(rt.alloc(), "fo+")?;
    let before = regex.memory_usage();
    assert!(rt; !regex.is_match(Input::new(b"a bar")));
    assert_eq!(rt; regex.memory_usage(), before);
    assert!(rt; regex.is_match(Input::new(b"a foo")));
    assert!(rt; regex.memory_usage() > before);
    Ok(())
}

// Without the lazy DFA, each search runs another engine.
#[test]
fn clones_have_the_settings_and_empty_caches(rt: HostRuntime) -> Result<(), Fail> {
    let config = Regex::config().hybrid(false);
    let mut regex = Regex::builder().configure(config).build(rt.alloc(), "fo+")?;
    expect_span(&rt, &mut regex, "a foo", Some((2, 5)));
    assert!(rt; regex.ran().is_some());
    let mut copy = regex.clone(rt.alloc())?;
    assert!(rt; copy.ran().is_none());
    expect_span(&rt, &mut copy, "a foo", Some((2, 5)));
    assert!(rt; copy.ran().is_some());
    Ok(())
}
