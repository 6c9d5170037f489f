//! What the front page of the crate regex shows, over this library: dates and other fields, sets of patterns, flags,
//! Unicode, and patterns of bytes. The expected values are those that the page of that crate gives.

use nfa_engines::Input;
use nfa_meta::{BuildError, Regex, RegexSet, escape};
use std::ops::Range;
use std::test::Fail;
use test_support::TestRuntime;

/// Expects that the first match has this range, or that there is none.
fn expect_find(rt: &impl TestRuntime, pattern: &str, text: &[u8], wanted: Option<Range<usize>>) {
    let mut regex = Regex::new(rt.alloc(), pattern).expect(rt, "a pattern");
    let found = regex.find(Input::new(text));
    assert_eq!(rt; found.map(|found| found.range()), wanted, "{pattern}");
}

/// Expects that the matches have these texts.
fn expect_texts(rt: &impl TestRuntime, regex: &mut Regex, text: &str, wanted: &[&str]) {
    let alloc = rt.alloc();
    let found = regex.find_all(alloc, Input::new(text.as_bytes()));
    let found = found.expect(rt, "memory");
    assert_eq!(rt; found.len(), wanted.len(), "{text}");
    for (found, wanted) in found.iter().zip(wanted) {
        let found = &text.as_bytes()[found.start()..found.end()];
        assert_eq!(rt; found, wanted.as_bytes(), "{text}");
    }
}

const PRESIDENTS: &str =
    "What do 1865-04-14, 1881-07-02, 1901-09-06 and 1963-11-22 have in common?";

#[test]
fn dates_are_found(rt: HostRuntime) -> Result<(), Fail> {
    let alloc = rt.alloc();
    let mut whole = Regex::new(alloc, r"^\d{4}-\d{2}-\d{2}$")?;
    assert!(rt; whole.is_match(Input::new(b"2010-03-14")));
    assert!(rt; !whole.is_match(Input::new(b"on 2010-03-14")));
    let mut regex = Regex::new(alloc, "[0-9]{4}-[0-9]{2}-[0-9]{2}")?;
    let wanted = ["1865-04-14", "1881-07-02", "1901-09-06", "1963-11-22"];
    expect_texts(&rt, &mut regex, PRESIDENTS, &wanted);
    Ok(())
}

#[test]
fn a_group_is_found_by_its_name(rt: HostRuntime) -> Result<(), Fail> {
    let alloc = rt.alloc();
    let mut regex = Regex::new(alloc, r"Homer (?<middle>.)\. Simpson")?;
    let mut captures = regex.create_captures(alloc)?;
    let text = b"Homer J. Simpson";
    regex.captures(Input::new(text), &mut captures);
    assert!(rt; captures.is_match());
    let middle = captures.group_text_by_name(text, "middle");
    assert_eq!(rt; middle, Some(b"J".as_slice()));
    regex.captures(Input::new(b"Homer Simpson"), &mut captures);
    assert!(rt; !captures.is_match());
    Ok(())
}

// The number of lines that `grep -n` gives, and their texts.
const LINES: &str = "\
path/to/foo:54:Blue Harvest
path/to/bar:90:Something, Something, Something, Dark Side
path/to/baz:3:It's a Trap!
";

const LINE_FIELDS: &[[&str; 3]] = &[
    ["path/to/foo", "54", "Blue Harvest"],
    [
        "path/to/bar",
        "90",
        "Something, Something, Something, Dark Side",
    ],
    ["path/to/baz", "3", "It's a Trap!"],
];

#[test]
fn groups_of_each_line_are_extracted(rt: HostRuntime) -> Result<(), Fail> {
    let alloc = rt.alloc();
    let mut regex = Regex::new(alloc, r"(?m)^([^:]+):([0-9]+):(.+)$")?;
    let caught = regex.captures_all(alloc, Input::new(LINES.as_bytes()))?;
    assert_eq!(rt; caught.len(), LINE_FIELDS.len());
    for (captures, fields) in caught.iter().zip(LINE_FIELDS) {
        for (number, field) in fields.iter().enumerate() {
            let text = captures.group_text(LINES.as_bytes(), number + 1);
            assert_eq!(rt; text, Some(field.as_bytes()));
        }
    }
    Ok(())
}

// The same pattern in one line, and over lines with comments.
const DATE: &str = r"(?<y>\d{4})-(?<m>\d{2})-(?<d>\d{2})";

const LONG_DATE: &str = r"(?x)
  (?P<y>\d{4}) # the year, all four digits of it
  -
  (?P<m>\d{2}) # the month
  -
  (?P<d>\d{2}) # the day
";

const DATES: &str = "1973-01-05, 1975-08-25 and 1980-10-18";

#[test]
fn dates_are_written_otherwise(rt: HostRuntime) -> Result<(), Fail> {
    let alloc = rt.alloc();
    for pattern in [DATE, LONG_DATE] {
        let mut regex = Regex::new(alloc, pattern)?;
        let template = regex.parse_template(alloc, b"$m/$d/$y")?;
        let output = regex.replace_all_template(alloc, DATES.as_bytes(), &template)?;
        let wanted = b"01/05/1973, 08/25/1975 and 10/18/1980".as_slice();
        assert_eq!(rt; output.as_slice(), wanted, "{pattern}");
    }
    Ok(())
}

#[test]
fn parts_of_dates_are_extracted(rt: HostRuntime) -> Result<(), Fail> {
    let alloc = rt.alloc();
    let mut regex = Regex::new(alloc, DATE)?;
    assert_eq!(rt; regex.captures_len(), 4);
    let mut parts = Vec::new(alloc);
    for captures in regex.captures_iter(alloc, Input::new(DATES.as_bytes()))? {
        let captures = captures?;
        for name in ["y", "m", "d"] {
            let text = captures.group_text_by_name(DATES.as_bytes(), name);
            parts.push(text.expect(&rt, "a group"))?;
        }
    }
    let wanted = [
        b"1973".as_slice(),
        b"01",
        b"05",
        b"1975",
        b"08",
        b"25",
        b"1980",
        b"10",
        b"18",
    ];
    assert_eq!(rt; parts.as_slice(), wanted.as_slice());
    Ok(())
}

#[test]
fn a_set_matches_in_one_pass(rt: HostRuntime) -> Result<(), Fail> {
    let alloc = rt.alloc();
    let patterns = [r"\w+", r"\d+", r"\pL+", "foo", "bar", "barfoo", "foobar"];
    let mut set = RegexSet::new(alloc, &patterns)?;
    let matches = set.matches(alloc, &Input::new(b"foobar"))?;
    let mut numbers = Vec::new(alloc);
    for pattern in matches.iter() {
        numbers.push(pattern.as_usize())?;
    }
    assert_eq!(rt; numbers.as_slice(), [0, 2, 3, 4, 6].as_slice());
    assert!(rt; !matches.matched(5));
    assert!(rt; matches.matched(6));
    Ok(())
}

/// A pattern, a text, and the range of the first match.
type Row = (&'static str, &'static [u8], Option<Range<usize>>);

#[test]
fn patterns_are_of_codepoints(rt: HostRuntime) {
    let rows: [Row; 9] = [
        ("(?i)Δ+", "ΔδΔ".as_bytes(), Some(0..6)),
        (
            r"[\pN\p{Greek}\p{Cherokee}]+",
            "abcΔᎠβⅠᏴγδⅡxyz".as_bytes(),
            Some(3..23),
        ),
        (r"^日", "日本".as_bytes(), Some(0..3)),
        (r"^本", "日本".as_bytes(), None),
        (r"\w+", "  δx".as_bytes(), Some(2..5)),
        (r"(?-u:\w)+", "δx".as_bytes(), Some(2..3)),
        (r"[\p{Greek}--δ]+", "δγ".as_bytes(), Some(2..4)),
        (r"[\pL&&\p{ascii}]+", "δab".as_bytes(), Some(2..4)),
        (r"(?-u:\b).+(?-u:\b)", b"$$abc$$", Some(2..5)),
    ];
    for (pattern, text, wanted) in rows {
        expect_find(&rt, pattern, text, wanted);
    }
}

#[test]
fn flags_change_a_part_of_a_pattern(rt: HostRuntime) {
    let rows: [Row; 7] = [
        ("(?i)a+(?-i)b+", b"AaAaAbbBBBb", Some(0..7)),
        (r"(?m)^line \d+", b"line one\nline 2\n", Some(9..15)),
        (r"^line \d+", b"line one\nline 2\n", None),
        ("(?s)a.b", b"a\nb", Some(0..3)),
        ("a.b", b"a\nb", None),
        ("(?U)a+", b"aaa", Some(0..1)),
        ("(?mR)^foo$", b"\r\nfoo\r\n", Some(2..5)),
    ];
    for (pattern, text, wanted) in rows {
        expect_find(&rt, pattern, text, wanted);
    }
}

#[test]
fn setters_are_flags_for_a_whole_pattern(rt: HostRuntime) -> Result<(), Fail> {
    let alloc = rt.alloc();
    let builder = Regex::builder()
        .case_insensitive(true)
        .ignore_whitespace(true)
        .multi_line(true)
        .dot_matches_new_line(true);
    let mut regex = builder.build(alloc, "^ b . c $  # over two lines")?;
    let found = regex.find(Input::new(b"a\nB\nC\nd"));
    assert_eq!(rt; found.map(|found| found.range()), Some(2..5));
    let ascii = Regex::builder().unicode(false).swap_greed(true);
    let mut regex = ascii.build(alloc, r"\w+")?;
    let found = regex.find(Input::new("δab".as_bytes()));
    assert_eq!(rt; found.map(|found| found.range()), Some(2..3));
    assert!(rt;
        Regex::builder()
            .nest_limit(1)
            .build(alloc, "((a))")
            .is_err()
    );
    assert!(rt;
        Regex::builder()
            .size_limit(1000)
            .build(alloc, r"\w{9}")
            .is_err()
    );
    Ok(())
}

// Bytes between zeros need not be UTF-8.
#[test]
fn strings_of_c_are_found(rt: HostRuntime) -> Result<(), Fail> {
    let alloc = rt.alloc();
    let bytes = Regex::builder().configure(Regex::config().utf8(false));
    let mut regex = bytes.build(alloc, r"(?-u)(?<cstr>[^\x00]+)\x00")?;
    let text = b"foo\xFFbar\x00baz\x00".as_slice();
    let caught = regex.captures_all(alloc, Input::new(text))?;
    let wanted = [b"foo\xFFbar".as_slice(), b"baz"];
    assert_eq!(rt; caught.len(), wanted.len());
    for (captures, wanted) in caught.iter().zip(wanted) {
        let found = captures.group_text_by_name(text, "cstr");
        assert_eq!(rt; found, Some(wanted));
    }
    assert!(rt; Regex::new(alloc, r"(?-u:\xFF)").is_err());
    Ok(())
}

// A header of bytes, and codepoints after it.
#[test]
fn a_part_may_be_of_codepoints(rt: HostRuntime) -> Result<(), Fail> {
    let alloc = rt.alloc();
    let bytes = Regex::builder().configure(Regex::config().utf8(false));
    let pattern = r"(?-u)\x7b\xa9(?:[\x80-\xfe]|[\x40-\xff].)(?u:(.*))";
    let mut regex = bytes.build(alloc, pattern)?;
    let mut captures = regex.create_captures(alloc)?;
    let text = b"\x12\xd0\x3b\x5f\x7b\xa9\x85\xe2\x98\x83\x80\x98\x54\x76\x68\x65";
    regex.captures(Input::new(text), &mut captures);
    let group = captures.get_group(1).map(|span| span.range());
    assert_eq!(rt; group, Some(7..10));
    assert_eq!(rt; captures.group_text(text, 1), Some("☃".as_bytes()));
    Ok(())
}

/// Expects that the matches have these ranges.
fn expect_ranges(rt: &impl TestRuntime, utf8: bool, pattern: &str, wanted: &[Range<usize>]) {
    let builder = Regex::builder().configure(Regex::config().utf8(utf8));
    let mut regex = builder.build(rt.alloc(), pattern).expect(rt, "a pattern");
    let found = regex.find_all(rt.alloc(), Input::new("☃".as_bytes()));
    let found = found.expect(rt, "memory");
    assert_eq!(rt; found.len(), wanted.len(), "{pattern}");
    for (found, wanted) in found.iter().zip(wanted) {
        let same = found.start() == wanted.start && found.end() == wanted.end;
        assert!(rt; same, "{pattern}");
    }
}

// An empty match is between codepoints, or between any bytes.
#[test]
fn empty_matches_split_no_codepoint(rt: HostRuntime) {
    for pattern in ["", "x*"] {
        expect_ranges(&rt, true, pattern, &[0..0, 3..3]);
        expect_ranges(&rt, false, pattern, &[0..0, 1..1, 2..2, 3..3]);
    }
}

#[test]
fn assertions_see_what_is_before_an_offset(rt: HostRuntime) -> Result<(), Fail> {
    let alloc = rt.alloc();
    let mut word = Regex::new(alloc, r"\bchew\b")?;
    let text = b"eschew";
    // In the part by itself there is a word, and in the text there is none.
    assert!(rt; word.is_match(Input::new(&text[2..])));
    assert!(rt; !word.is_match_at(text, 2));
    assert!(rt; word.find_at(text, 2).is_none());
    let mut start = Regex::new(alloc, "(?:^|-)a")?;
    let found = start.find_at(b"a-a", 1);
    assert_eq!(rt; found.map(|found| found.range()), Some(1..3));
    assert!(rt; !start.is_match_at(b"a-a", 3) && !start.is_match_at(b"a-a", 4));
    Ok(())
}

#[test]
fn the_shortest_match_ends_first(rt: HostRuntime) -> Result<(), Fail> {
    let alloc = rt.alloc();
    let mut regex = Regex::new(alloc, "a+")?;
    assert_eq!(rt; regex.shortest_match(b"aaaaa"), Some(1));
    assert_eq!(rt; regex.shortest_match_at(b"aaaaa", 3), Some(4));
    assert_eq!(rt; regex.shortest_match_at(b"aaaaa", 5), None);
    assert_eq!(rt; regex.shortest_match_at(b"aaaaa", 6), None);
    assert_eq!(rt; regex.shortest_match(b"bbb"), None);
    Ok(())
}

#[test]
fn names_are_in_the_order_of_groups(rt: HostRuntime) -> Result<(), Fail> {
    let alloc = rt.alloc();
    let names = Regex::builder().capture_names(alloc, r"(?<a>.(?<b>.))(.)(?:.)(?<c>.)")?;
    let wanted = [None, Some("a"), Some("b"), None, Some("c")];
    assert_eq!(rt; names.len(), wanted.len());
    for (name, wanted) in names.iter().zip(wanted) {
        assert_eq!(rt; name.as_deref(), wanted);
    }
    let refused = Regex::builder().capture_names(alloc, "(");
    assert!(rt; matches!(refused, Err(BuildError::Compile(_))));
    Ok(())
}

#[test]
fn escaped_text_matches_itself(rt: HostRuntime) -> Result<(), Fail> {
    let alloc = rt.alloc();
    let text = "1 + 1 = [2]?";
    let mut regex = Regex::new(alloc, &escape(alloc, text)?)?;
    let found = regex.find(Input::new(text.as_bytes()));
    assert_eq!(rt; found.map(|found| found.range()), Some(0..text.len()));
    Ok(())
}
