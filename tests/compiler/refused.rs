//! The texts of errors: what is wrong, and where in the pattern.

use anyhow::Result;
use nfa_compiler::{CompileError, Compiler};
use std::alloc::Global;

/// A text that is not a pattern, the span at fault, the reason, the line that is shown, and the marks below it. The
/// spans are those of the crate regex-syntax.
const ROWS: [(&str, (usize, usize), &str, &str, &str); 35] = [
    ("ab(c", (2, 3), "unclosed group", "ab(c", "  ^"),
    ("a)", (1, 2), "unopened group", "a)", " ^"),
    ("[a", (0, 1), "unclosed character class", "[a", "^"),
    (
        "x[z-a]",
        (2, 5),
        "invalid character class range, the start must be <= the end",
        "x[z-a]",
        "  ^^^",
    ),
    (
        "*a",
        (0, 0),
        "repetition operator missing expression",
        "*a",
        "^",
    ),
    (
        "a{2,1}",
        (1, 6),
        "invalid repetition count range, the start must be <= the end",
        "a{2,1}",
        " ^^^^^",
    ),
    ("a{2", (1, 3), "unclosed counted repetition", "a{2", " ^^"),
    ("(?z)", (2, 3), "unrecognized flag", "(?z)", "  ^"),
    ("(?ii)", (3, 4), "duplicate flag", "(?ii)", "   ^"),
    (
        "(?i-)",
        (3, 4),
        "dangling flag negation operator",
        "(?i-)",
        "   ^",
    ),
    (
        "(?i-x-s)",
        (5, 6),
        "flag negation operator repeated",
        "(?i-x-s)",
        "     ^",
    ),
    (
        "(?i",
        (3, 3),
        "expected flag but got end of regex",
        "(?i",
        "   ^",
    ),
    (
        "(?<a",
        (4, 4),
        "unclosed capture group name",
        "(?<a",
        "    ^",
    ),
    (
        "(?<>a)",
        (3, 3),
        "empty capture group name",
        "(?<>a)",
        "   ^",
    ),
    (
        "(?<5>a)",
        (3, 4),
        "invalid capture group character",
        "(?<5>a)",
        "   ^",
    ),
    (
        "(?<n>a)(?<n>b)",
        (10, 11),
        "duplicate capture group name",
        "(?<n>a)(?<n>b)",
        "          ^",
    ),
    (
        "a\\",
        (1, 2),
        "incomplete escape sequence, reached end of pattern prematurely",
        "a\\",
        " ^",
    ),
    ("\\y", (0, 2), "unrecognized escape sequence", "\\y", "^^"),
    ("\\xZZ", (2, 3), "invalid hexadecimal digit", "\\xZZ", "  ^"),
    (
        "\\x{}",
        (2, 4),
        "hexadecimal literal empty",
        "\\x{}",
        "  ^^",
    ),
    (
        "(a)\\1",
        (3, 5),
        "backreferences are not supported",
        "(a)\\1",
        "   ^^",
    ),
    (
        "(?=a)",
        (0, 3),
        "look-around, including look-ahead and look-behind, is not supported",
        "(?=a)",
        "^^^",
    ),
    (
        "\\p{Nope}",
        (0, 8),
        "Unicode property not found",
        "\\p{Nope}",
        "^^^^^^^^",
    ),
    (
        "(?-u:\\xFF)",
        (5, 9),
        "pattern can match invalid UTF-8",
        "(?-u:\\xFF)",
        "     ^^^^",
    ),
    ("é☃(", (5, 6), "unclosed group", "é☃(", "  ^"),
    (
        "(?x)\nab(c # a group\nd",
        (7, 8),
        "unclosed group",
        "ab(c # a group",
        "  ^",
    ),
    (
        "[a-\\d]",
        (3, 5),
        "invalid range boundary, must be a literal",
        "[a-\\d]",
        "   ^^",
    ),
    (
        "[\\A]",
        (1, 3),
        "invalid escape sequence found in character class",
        "[\\A]",
        " ^^",
    ),
    (
        "a{9999999999}",
        (2, 12),
        "decimal literal invalid",
        "a{9999999999}",
        "  ^^^^^^^^^^",
    ),
    (
        "a{}",
        (2, 2),
        "repetition quantifier expects a valid decimal",
        "a{}",
        "  ^",
    ),
    (
        "\\x{D800}",
        (3, 7),
        "hexadecimal literal is not a Unicode scalar value",
        "\\x{D800}",
        "   ^^^^",
    ),
    (
        "\\b{foo}",
        (3, 6),
        "unrecognized special word boundary assertion, valid choices are: start, end, start-half or end-half",
        "\\b{foo}",
        "   ^^^",
    ),
    (
        "\\p{sc=Nope}",
        (0, 11),
        "Unicode property value not found",
        "\\p{sc=Nope}",
        "^^^^^^^^^^^",
    ),
    (
        "(?-u)\\pL",
        (5, 8),
        "Unicode not allowed here",
        "(?-u)\\pL",
        "     ^^^",
    ),
    ("\ta)", (2, 3), "unopened group", "\ta)", "\t ^"),
];

/// Returns the text of the error, or `no error`.
pub fn error_text(alloc: Global, error: Option<CompileError>) -> Result<String> {
    let text = match &error {
        Some(error) => format!(in alloc; "{error}"),
        None => String::from_str(alloc, "no error"),
    };
    Ok(text?)
}

/// The pattern is the second of two, and the first is valid.
#[test]
fn errors_are_as_expected(rt: HostRuntime) -> Result<()> {
    let alloc = rt.alloc();
    for &(pattern, (start, end), reason, line, marks) in &ROWS {
        let error = Compiler::new().build_many(alloc, &["good", pattern]).err();
        let wanted = format!(in alloc;
            "pattern 1, at {start}..{end}: {reason}\n    {line}\n    {marks}"
        )?;
        assert_eq!(rt; error_text(alloc, error)?, wanted, "{pattern:?}");
    }
    Ok(())
}
