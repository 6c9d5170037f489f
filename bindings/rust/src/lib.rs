//! Regular expressions by a proved engine, in the words of `regex::bytes`; [`string`] is for `str`. `docs/BINDINGS.md`
//! says what is proved.
//!
//! ```
//! use nfa_engines::Regex;
//!
//! let date = Regex::new(r"(?P<year>\d{4})-(\d\d)")?;
//! let groups = date.captures(b"on 2024-02").unwrap();
//! assert_eq!(&groups["year"], b"2024");
//! assert_eq!(date.replace_all(b"2024-02, 2025-01", b"$2/$year"), &b"02/2024, 01/2025"[..]);
//! # Ok::<(), nfa_engines::Error>(())
//! ```
use std::fmt;

mod builder;
mod captures;
mod iter;
mod regex;
mod replace;
mod set;
mod shared;
pub mod string;
mod sys;
mod text;

pub use builder::{RegexBuilder, RegexBuilderOf, RegexSetBuilder, RegexSetBuilderOf};
pub use captures::{CaptureLocations, CaptureNames, Captures, Match, SubCaptureMatches};
pub use iter::{CaptureMatches, Matches, Split, SplitN};
pub use regex::{Regex, RegexOf};
pub use replace::{NoExpand, Replacer, ReplacerRef};
pub use set::{RegexSet, RegexSetOf, SetMatches, SetMatchesIntoIter, SetMatchesIter};
pub use text::Text;

/// Why no regex was made.
#[derive(Clone, Debug, PartialEq, Eq)]
pub enum Error {
    /// Memory was refused.
    Memory,
    /// A text is not a pattern, or the pattern exceeds the size limit: a message that says where, or which.
    Pattern(String),
}

impl fmt::Display for Error {
    fn fmt(&self, f: &mut fmt::Formatter<'_>) -> fmt::Result {
        f.write_str(match self {
            Error::Memory => "out of memory",
            Error::Pattern(message) => message,
        })
    }
}

impl std::error::Error for Error {}

/// A pattern that matches the text.
///
/// ```
/// assert_eq!(nfa_engines::escape("a.b"), r"a\.b");
/// ```
///
/// # Panics
///
/// If memory is refused.
pub fn escape(text: &str) -> String {
    sys::escape(text).expect("memory for a pattern")
}
