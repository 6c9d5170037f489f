//! Tests of where assertions hold.
use std::process::Abort;
use thompson_nfa::{Look, look_matches};

// An assertion, a haystack, and whether the assertion holds at each offset, the haystack's length included.
const HOLDS: &[(Look, &[u8], &[bool])] = &[
    (Look::Start, b"ab", &[true, false, false]),
    (Look::Start, b"", &[true]),
    (Look::End, b"ab", &[false, false, true]),
    (Look::End, b"", &[true]),
    (Look::StartLF, b"a\nb", &[true, false, true, false]),
    (Look::StartLF, b"a\r\nb", &[true, false, false, true, false]),
    (Look::StartLF, b"\n", &[true, true]),
    (Look::StartLF, b"", &[true]),
    (Look::EndLF, b"a\nb", &[false, true, false, true]),
    (Look::EndLF, b"a\r\nb", &[false, false, true, false, true]),
    (Look::EndLF, b"\n", &[true, true]),
    (Look::EndLF, b"", &[true]),
    (Look::StartLine(0), b"a\x00b", &[true, false, true, false]),
    (Look::StartLine(0), b"a\nb", &[true, false, false, false]),
    (Look::StartLine(b'b'), b"bb", &[true, true, true]),
    (
        Look::StartLine(b'\n'),
        b"a\r\nb",
        &[true, false, false, true, false],
    ),
    (Look::StartLine(0), b"", &[true]),
    (Look::EndLine(0), b"a\x00b", &[false, true, false, true]),
    (Look::EndLine(0), b"a\nb", &[false, false, false, true]),
    (Look::EndLine(b'b'), b"bb", &[true, true, true]),
    (Look::EndLine(0), b"", &[true]),
    (
        Look::StartCRLF,
        b"a\r\nb",
        &[true, false, false, true, false],
    ),
    (Look::StartCRLF, b"\r", &[true, true]),
    (Look::StartCRLF, b"\n", &[true, true]),
    (Look::StartCRLF, b"\rb", &[true, true, false]),
    (Look::StartCRLF, b"\n\r", &[true, true, true]),
    (Look::StartCRLF, b"", &[true]),
    (Look::EndCRLF, b"a\r\nb", &[false, true, false, false, true]),
    (Look::EndCRLF, b"\r", &[true, true]),
    (Look::EndCRLF, b"\n", &[true, true]),
    (Look::EndCRLF, b"\rb", &[true, false, true]),
    (Look::EndCRLF, b"\n\r", &[true, true, true]),
    (Look::EndCRLF, b"", &[true]),
    (Look::WordAscii, b"a ", &[true, true, false]),
    (Look::WordAscii, b"9_", &[true, false, true]),
    (Look::WordAscii, b"@[", &[false, false, false]),
    (Look::WordAscii, b"`{", &[false, false, false]),
    (Look::WordAscii, b"/:", &[false, false, false]),
    (Look::WordAscii, b"\xC3\xA9", &[false, false, false]),
    (Look::WordAsciiNegate, b"a ", &[false, false, true]),
    (Look::WordAsciiNegate, b"\xC3\xA9", &[true, true, true]),
    (Look::WordUnicode, b"a ", &[true, true, false]),
    (Look::WordUnicode, b"9_", &[true, false, true]),
    // "é", by itself and before digits
    (Look::WordUnicode, b"\xC3\xA9", &[true, false, true]),
    (
        Look::WordUnicode,
        b"\xC3\xA9123",
        &[true, false, false, false, false, true],
    ),
    // "é" cut short, and two continuation bytes
    (Look::WordUnicode, b"a\xC3", &[true, true, false]),
    (Look::WordUnicode, b"\xA9a", &[false, true, true]),
    (Look::WordUnicode, b"\x80\x80", &[false, false, false]),
    // the letter a in two bytes, which is not UTF-8
    (Look::WordUnicode, b"\xC1\xA1", &[false, false, false]),
    // a surrogate's three bytes, and four bytes above the last codepoint, which are not UTF-8
    (
        Look::WordUnicode,
        b"\xED\xA0\x80",
        &[false, false, false, false],
    ),
    (
        Look::WordUnicode,
        b"\xF4\x90\x80\x80",
        &[false, false, false, false, false],
    ),
    (Look::WordUnicode, b"\xE2\x98", &[false, false, false]),
    (Look::WordUnicode, b"", &[false]),
    (Look::WordUnicodeNegate, b"aa ", &[false, true, false, true]),
    (Look::WordUnicodeNegate, b"", &[true]),
    // "é", U+1D6C3, which is a word character, and U+10180, which is not
    (Look::WordUnicodeNegate, b"\xC3\xA9", &[false, false, false]),
    (
        Look::WordUnicodeNegate,
        b"\xF0\x9D\x9B\x83",
        &[false, false, false, false, false],
    ),
    (
        Look::WordUnicodeNegate,
        b"\xF0\x90\x86\x80",
        &[true, false, false, false, true],
    ),
    // "é" cut short, and a byte that is never in UTF-8
    (Look::WordUnicodeNegate, b"a\xC3", &[false, false, false]),
    (Look::WordUnicodeNegate, b"\xFF", &[false, false]),
    (
        Look::WordUnicodeNegate,
        b" \xFF ",
        &[true, false, false, true],
    ),
    (Look::WordStartAscii, b"a b", &[true, false, true, false]),
    (Look::WordStartAscii, b"\xC3\xA9", &[false, false, false]),
    (Look::WordStartAscii, b"", &[false]),
    (Look::WordEndAscii, b"a b", &[false, true, false, true]),
    (Look::WordEndAscii, b"\xC3\xA9", &[false, false, false]),
    (Look::WordEndAscii, b"", &[false]),
    (
        Look::WordStartUnicode,
        b"\xC3\xA9 b",
        &[true, false, false, true, false],
    ),
    (Look::WordStartUnicode, b"\xFFa", &[false, true, false]),
    (
        Look::WordEndUnicode,
        b"\xC3\xA9 b",
        &[false, false, true, false, true],
    ),
    (Look::WordEndUnicode, b"a\xFF", &[false, true, false]),
    (Look::WordStartHalfAscii, b"a ", &[true, false, true]),
    (Look::WordStartHalfAscii, b"\xC3\xA9", &[true, true, true]),
    (Look::WordStartHalfAscii, b"", &[true]),
    (Look::WordEndHalfAscii, b"a ", &[false, true, true]),
    (Look::WordEndHalfAscii, b"\xC3\xA9", &[true, true, true]),
    (Look::WordEndHalfAscii, b"", &[true]),
    (Look::WordStartHalfUnicode, b"a ", &[true, false, true]),
    (
        Look::WordStartHalfUnicode,
        b"\xC3\xA9",
        &[true, false, false],
    ),
    (
        Look::WordStartHalfUnicode,
        b"\xF0\x90\x86\x80",
        &[true, false, false, false, true],
    ),
    (Look::WordStartHalfUnicode, b"\xFFa", &[true, false, false]),
    (Look::WordStartHalfUnicode, b"", &[true]),
    (Look::WordEndHalfUnicode, b"a ", &[false, true, true]),
    (Look::WordEndHalfUnicode, b"\xC3\xA9", &[false, false, true]),
    (
        Look::WordEndHalfUnicode,
        b"\xF0\x90\x86\x80",
        &[true, false, false, false, true],
    ),
    (Look::WordEndHalfUnicode, b"a\xFF", &[false, false, true]),
    (Look::WordEndHalfUnicode, b"", &[true]),
];

#[test]
fn assertions(rt: HostRuntime) {
    for &(look, haystack, places) in HOLDS {
        assert_eq!(rt; places.len(), haystack.len() + 1, "{look:?}, {haystack:?}");
        for (at, want) in places.iter().enumerate() {
            expect_holds(&rt, look, haystack, at, *want);
        }
    }
}

fn expect_holds(rt: &impl Abort, look: Look, haystack: &[u8], at: usize, want: bool) {
    let holds = look_matches(look, haystack, at);
    assert_eq!(rt; holds, want, "{look:?}, {haystack:?}, {at}");
}

// A text, and whether it begins and ends with a word character.
const WORDS: &[(&str, bool)] = &[
    // a letter of four bytes, marks, a decimal number, connector punctuation, the joiners
    ("𐐷", true),
    ("\u{0301}", true),
    ("\u{20DD}", true),
    ("٣", true),
    ("‿", true),
    ("\u{200C}", true),
    ("\u{200D}", true),
    // neighbors of the joiners, a number that is not decimal, symbols, a dash
    ("\u{200B}", false),
    ("\u{200E}", false),
    ("½", false),
    ("☃", false),
    ("😀", false),
    ("-", false),
];

#[test]
fn word_characters(rt: HostRuntime) {
    for (text, is_word) in WORDS {
        let bytes = text.as_bytes();
        expect_holds(&rt, Look::WordUnicode, bytes, 0, *is_word);
        expect_holds(&rt, Look::WordUnicode, bytes, bytes.len(), *is_word);
    }
}
