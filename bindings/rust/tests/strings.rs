use nfa_engines::string::{Captures, NoExpand, Regex, RegexBuilder, RegexSet};
use nfa_engines::Replacer;
use std::borrow::Cow;

#[test]
fn finds_characters() {
    let regex = Regex::new("").unwrap();
    assert_eq!(regex.find_iter("éa").map(|m| m.start()).collect::<Vec<_>>(), [0, 2, 3]);
    assert_eq!(regex.split("éa").collect::<Vec<_>>(), ["", "é", "a", ""]);
    let word = Regex::new(r"\w(.)").unwrap();
    assert_eq!(word.find_at("aéaé", 1).map(|m| m.as_str()), Some("éa"));
    assert_eq!(word.captures("xé").unwrap().extract(), ("xé", ["é"]));
    assert!(Regex::new(r"(?-u:\xFF)").is_err() && !word.is_match("é"));
    assert_eq!(<&str>::from(word.find("-né").unwrap()), "né");
}

#[test]
fn replaces_in_strings() {
    let regex = Regex::new(r"(?<letter>\pL)([0-9])?").unwrap();
    assert_eq!(regex.replace_all("é1 y", "${letter}-$2"), "é-1 y-");
    assert_eq!(regex.replacen("é1 y", 1, NoExpand("$2")), "$2 y");
    assert_eq!(regex.replace_all("é1 y", |groups: &Captures| groups["letter"].to_uppercase()), "É Y");
    assert!(matches!(regex.replace("1 2", "é"), Cow::Borrowed("1 2")));
    let mut with = "$2";
    assert_eq!(regex.replace("é1", with.by_ref()), regex.replace("é1", String::from(with)));
}

#[test]
fn sets_and_settings() {
    let set = RegexSet::new(["é", "a"]).unwrap();
    assert_eq!((&set.matches("né")).into_iter().collect::<Vec<_>>(), [0]);
    assert!(RegexBuilder::new("É").case_insensitive(true).build().unwrap().is_match("né"));
    assert_eq!(Regex::try_from(String::from("a")).unwrap().as_str(), "a");
}

#[test]
fn iterators_in_iterators() {
    let regex = Regex::new("[a-z]+").unwrap();
    let lens = regex.find_iter("ab c").map(|m| regex.find_iter(m.as_str()).count()).collect::<Vec<_>>();
    assert_eq!(lens, [1, 1]);
}

#[test]
fn patterns_cross_threads() {
    fn crosses<T: Send + Sync>() {}
    crosses::<Regex>();
    crosses::<nfa_engines::Regex>();
    crosses::<RegexSet>();
    crosses::<RegexBuilder>();
    fn moves<T: Send>(_: T) {}
    let (regex, set) = (Regex::new("a").unwrap(), RegexSet::new(["a"]).unwrap());
    moves((regex.find_iter("a"), regex.captures_iter("a"), regex.split("a"), set.matches("a")));
}
