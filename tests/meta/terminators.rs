//! Regexes whose lines end with another byte than `\n`: beside the same regex with `\n` on a text in which the two bytes
//! are exchanged, where the pattern reads neither of them, and beside a choice over the same NFA.

use nfa_choice::choose::Choice;
use nfa_engines::{Input, Match, backtrack, pikevm};
use nfa_meta::Regex;
use std::test::Fail;
use test_support::TestRuntime;

/// Patterns that read neither a line feed nor one of the terminators below.
const PATTERNS: [&str; 8] = [
    "(?m)^",
    "(?m)$",
    "(?m)^$",
    "(?m)^[bc]+$",
    "(?m)[bc]$|^b",
    r"(?m)^[^\n\x00;a]+$",
    r"(?m)(?:^|b)c*(?:$|c)",
    r"(?m)\A^b|c$\z",
];

/// A byte of no word, one that stands for all bytes of words in a lazy DFA, and zero.
const TERMINATORS: [u8; 3] = [b';', b'a', 0];

/// What a text is made of, beside the terminator.
const PARTS: [u8; 4] = [b'b', b'c', b'\n', b' '];

/// The text of six bytes that this number picks.
fn text_of(rt: &impl TestRuntime, terminator: u8, number: usize) -> Result<Vec<u8>, Fail> {
    let mut text = Vec::new(rt.alloc());
    let mut rest = number;
    for _ in 0..6 {
        let part = rest % (PARTS.len() + 1);
        text.push(PARTS.get(part).copied().unwrap_or(terminator))?;
        rest /= PARTS.len() + 1;
    }
    Ok(text)
}

/// The text with this byte and `\n` exchanged.
fn exchanged(rt: &impl TestRuntime, terminator: u8, text: &[u8]) -> Result<Vec<u8>, Fail> {
    let mut other = Vec::new(rt.alloc());
    for byte in text {
        other.push(match *byte {
            b'\n' => terminator,
            byte if byte == terminator => b'\n',
            byte => byte,
        })?;
    }
    Ok(other)
}

fn all_of(rt: &impl TestRuntime, regex: &mut Regex, text: &[u8]) -> Result<Vec<Match>, Fail> {
    Ok(regex.find_iter(Input::new(text)).collect(rt.alloc())?)
}

/// Compares the three in texts that numbers of this distance pick.
fn expect_same(rt: &impl TestRuntime, pattern: &str, terminator: u8) -> Result<(), Fail> {
    let (back, pike) = (backtrack::Config::new(), pikevm::Config::new());
    let mut plain = Regex::new(rt.alloc(), pattern)?;
    let builder = Regex::builder().line_terminator(terminator);
    let mut regex = builder.build(rt.alloc(), pattern)?;
    let nfa = plain.get_nfa().clone()?.with_line_terminator(terminator);
    let mut choice = Choice::new(rt.alloc(), nfa, back, pike)?;
    for step in 0..400 {
        let text = text_of(rt, terminator, step * 37)?;
        let other = exchanged(rt, terminator, &text)?;
        let found = all_of(rt, &mut regex, &text)?;
        let wanted = all_of(rt, &mut plain, &other)?;
        assert_eq!(rt;
            found.as_slice(),
            wanted.as_slice(),
            "{pattern} {terminator} {text:?}"
        );
        let chosen: Vec<Match> = choice.find_iter(Input::new(&text)).collect(rt.alloc())?;
        assert_eq!(rt;
            found.as_slice(),
            chosen.as_slice(),
            "{pattern} {terminator} {text:?}"
        );
    }
    Ok(())
}

#[test]
fn lines_end_with_the_terminator(rt: HostRuntime) -> Result<(), Fail> {
    for pattern in PATTERNS {
        for terminator in TERMINATORS {
            expect_same(&rt, pattern, terminator)?;
        }
    }
    Ok(())
}

#[test]
fn the_rest_is_as_before(rt: HostRuntime) -> Result<(), Fail> {
    // A pattern, and the spans that it finds in the text, in which a zero ends a line.
    const ROWS: [(&str, &[(usize, usize)]); 5] = [
        ("(?m)^foo$", &[(1, 4)]),
        ("(?m)^$", &[(0, 0), (5, 5), (14, 14)]),
        ("^foo$", &[]),
        ("(?mR)^bar$", &[(9, 12)]),
        (".+", &[(0, 8), (9, 12), (13, 14)]),
    ];
    for (pattern, wanted) in ROWS {
        let builder = Regex::builder().line_terminator(0);
        let mut regex = builder.build(rt.alloc(), pattern)?;
        let found = all_of(&rt, &mut regex, b"\x00foo\x00\x00x\r\nbar\n\x00")?;
        let found = found.iter().map(|m| (m.start(), m.end()));
        let spans: Vec<(usize, usize)> = found.collect(rt.alloc())?;
        assert_eq!(rt; spans.as_slice(), wanted, "{pattern}");
    }
    Ok(())
}

#[test]
fn sets_have_the_terminator(rt: HostRuntime) -> Result<(), Fail> {
    let builder = Regex::builder().multi_line(true).line_terminator(b';');
    let mut set = builder.build_set(rt.alloc(), &["^a$", "^b$", "^c$"])?;
    let found = set.matches(rt.alloc(), &Input::new(b"a;b\nc"))?;
    assert!(rt; found.matched(0) && !found.matched(1) && !found.matched(2));
    Ok(())
}
