use nfa_engines::{escape, Error, NoExpand, Regex, RegexBuilder, RegexSet, RegexSetBuilder, Replacer};

fn spans(pattern: &str, hay: &[u8]) -> Vec<(usize, usize)> {
    Regex::new(pattern).unwrap().find_iter(hay).map(|m| (m.start(), m.end())).collect()
}

fn pieces(pattern: &str, hay: &'static str, limit: usize) -> Vec<&'static str> {
    let regex = Regex::new(pattern).unwrap();
    let limit = if limit == 0 { usize::MAX } else { limit };
    regex.splitn(hay.as_bytes(), limit).map(|piece| std::str::from_utf8(piece).unwrap()).collect()
}

#[test]
fn finds() {
    let regex = Regex::new("([a-z]+)([0-9]*)").unwrap();
    let hay = b"foo12 a bar7";
    assert_eq!(spans(regex.as_str(), hay), [(0, 5), (6, 7), (8, 12)]);
    assert_eq!(regex.find_at(hay, 1).unwrap().range(), 1..5);
    assert_eq!(regex.find(b"12"), None);
    assert!(regex.is_match(hay) && !regex.is_match(b"") && !regex.is_match_at(hay, 12));
    assert_eq!(regex.shortest_match(hay), Some(1));
}

#[test]
fn empty_matches() {
    assert_eq!(spans("a*", b"baa"), [(0, 0), (1, 3)]);
    assert_eq!(spans("", b"ab"), [(0, 0), (1, 1), (2, 2)]);
    let utf8 = RegexBuilder::new("").utf8(true).build().unwrap();
    assert_eq!(utf8.find_iter("é".as_bytes()).count(), 2);
    assert_eq!(spans("", "é".as_bytes()).len(), 3);
}

#[test]
fn groups() {
    let regex = Regex::new("(?P<word>[a-z]+)([0-9]+)?|(!)").unwrap();
    assert_eq!(regex.captures_len(), 4);
    let groups = regex.captures(b"-foo").unwrap();
    assert_eq!((&groups[0], &groups["word"], groups.get(2), groups.get(3)), (&b"foo"[..], &b"foo"[..], None, None));
    assert_eq!((groups.get(4), groups.get(usize::MAX), groups.name("other")), (None, None, None));
    assert_eq!(groups.iter().flatten().count(), 2);
    let word = |groups: nfa_engines::Captures<'static>| groups.name("word").map(|m| m.as_bytes());
    let words: Vec<_> = regex.captures_iter(b"a1 ! b").map(word).collect();
    assert_eq!(words, [Some(&b"a"[..]), None, Some(&b"b"[..])]);
}

#[test]
fn names() {
    let regex = Regex::new("(?P<a>x)(y)(?<bc>z)").unwrap();
    assert_eq!(regex.capture_names().collect::<Vec<_>>(), [None, Some("a"), None, Some("bc")]);
    assert_eq!((regex.capture_index("bc"), regex.capture_index("d")), (Some(3), None));
    assert_eq!(Regex::new("a").unwrap().capture_names().collect::<Vec<_>>(), [None]);
    assert_eq!((regex.to_string(), "x".parse::<Regex>().unwrap().is_match(b"x")), (regex.as_str().to_owned(), true));
}

#[test]
fn sets() {
    let set = RegexSet::new(["[a-z]+", "[0-9]+", "foo"]).unwrap();
    let found = set.matches(b"a foo");
    assert_eq!((found.iter().collect::<Vec<_>>(), found.len()), (vec![0, 2], 3));
    assert!(found.matched_any() && !found.matched_all() && found.matched(2) && !found.matched(1));
    assert_eq!(found.into_iter().rev().collect::<Vec<_>>(), [2, 0]);
    assert!(set.is_match(b"-1") && !set.is_match(b"-") && !set.matches_at(b"foo", 3).matched_any());
    assert_eq!((set.len(), set.patterns()[2].as_str()), (3, "foo"));
    assert!(RegexSet::empty().is_empty() && !RegexSet::empty().is_match(b""));
    let wrong = RegexSet::new(["a", "("]).unwrap_err();
    assert!(matches!(wrong, Error::Pattern(message) if message.starts_with("pattern 1, at 0..1: ")));
    let both = RegexSetBuilder::new(["A", "é"]).case_insensitive(true).build().unwrap();
    assert!(both.matches("aÉ".as_bytes()).matched_all());
}

#[test]
fn escapes() {
    assert_eq!((escape("a.b*é"), escape("")), (r"a\.b\*é".to_owned(), String::new()));
    assert_eq!(Regex::new(&escape("x.y")).unwrap().find(b"xzy x.y").unwrap().range(), 4..7);
}

#[test]
fn splits() {
    assert_eq!(pieces(",", "a,b,,c", 0), ["a", "b", "", "c"]);
    assert_eq!(pieces(",", "a,b,,c", 2), ["a", "b,,c"]);
    assert_eq!(pieces(",", "a", 1), ["a"]);
    assert_eq!(pieces("", "ab", 0), ["", "a", "b", ""]);
    assert_eq!(pieces(",", ",", 0), ["", ""]);
}

#[test]
fn replaces() {
    let regex = Regex::new("(?P<a>[a-z])([0-9])").unwrap();
    assert_eq!(regex.replace_all(b"x1 y2", b"$2$a"), &b"1x 2y"[..]);
    assert_eq!(regex.replace_all(b"x1 y2", b"${2}$x_"), &b"1 2"[..]);
    assert_eq!(regex.replace(b"x1 y2", &b"$$$1-"[..]), &b"$x- y2"[..]);
    assert_eq!(regex.replacen(b"x1 y2 z3", 2, NoExpand(b"$1")), &b"$1 $1 z3"[..]);
    assert_eq!(regex.replace_all(b"x1", |groups: &nfa_engines::Captures| groups[1].to_ascii_uppercase()), &b"X"[..]);
    assert!(matches!(regex.replace_all(b"none", b"$1"), std::borrow::Cow::Borrowed(b"none")));
    assert_eq!(Regex::new("x*").unwrap().replace_all(b"axb", b"-"), &b"-a-b-"[..]);
    let mut with = &b"$b"[..];
    assert_eq!(regex.replace(b"x1", with.by_ref()), regex.replace_all(b"x1", with.to_vec()));
    assert_eq!((with.no_expansion(), (&b"b"[..]).no_expansion()), (None, Some(b"b"[..].into())));
}

#[test]
fn settings_and_errors() {
    assert!(matches!(Regex::new("a\n("), Err(Error::Pattern(message)) if message.starts_with("at 2..")));
    let too_big = "the pattern exceeds the size limit of 1000 bytes".to_owned();
    assert_eq!(RegexBuilder::new(r"\w{20}").size_limit(1000).build().err(), Some(Error::Pattern(too_big)));
    assert!(RegexBuilder::new("ABC").case_insensitive(true).build().unwrap().is_match(b"xabc"));
    assert!(!RegexBuilder::new("b").anchored(true).build().unwrap().is_match(b"ab"));
    assert!(Regex::new(r"(?-u:\xFF)").unwrap().is_match(b"a\xFF"));
    assert!(RegexBuilder::new(r"(?-u:\xFF)").utf8(true).build().is_err());
    assert!(!RegexBuilder::new(r"^\w$").unicode(false).utf8(true).build().unwrap().is_match("é".as_bytes()));
    assert!(RegexBuilder::new(r"\141").octal(true).build().unwrap().is_match(b"a") && Regex::new(r"\141").is_err());
    assert!(RegexBuilder::new("^b$").multi_line(true).build().unwrap().is_match(b"a\nb\nc"));
}

#[test]
#[should_panic(expected = "past the end")]
fn start_past_the_end() {
    Regex::new("a").unwrap().find_at(b"a", 2);
}

#[test]
fn calls_inside_calls() {
    let regex = Regex::new("[a-z]+").unwrap();
    let made = regex.replace_all(b"ab c", |groups: &nfa_engines::Captures| {
        regex.find(&groups[0]).unwrap().len().to_string()
    });
    assert_eq!(made, &b"2 1"[..]);
}

#[test]
fn threads() {
    let regex = Regex::new("([a-z]+)[0-9]").unwrap();
    std::thread::scope(|scope| {
        for _ in 0..4 {
            scope.spawn(|| {
                for _ in 0..100 {
                    let own = regex.clone();
                    assert_eq!(&own.captures(b"- ab1").unwrap()[1], b"ab");
                }
            });
        }
    });
    let mut spans = regex.find_iter(b"- ab1 c2").map(|m| m.range());
    assert_eq!(spans.next(), Some(2..5));
    let next = std::thread::scope(|scope| scope.spawn(move || spans.next()).join().unwrap());
    assert_eq!(next, Some(6..8));
    let sent = std::thread::spawn(move || regex.find(b"a1").map(|m| m.range())).join().unwrap();
    assert_eq!(sent, Some(0..2));
}
