//! The same for haystacks of the type `str`: a pattern matches only UTF-8, and no match splits a character.
//!
//! ```
//! use nfa_engines::string::Regex;
//!
//! let word = Regex::new(r"\w+")?;
//! let words: Vec<&str> = word.find_iter("né à Lyon").map(|m| m.as_str()).collect();
//! assert_eq!(words, ["né", "à", "Lyon"]);
//! assert_eq!(word.replace("né à", "$0!"), "né! à");
//! # Ok::<(), nfa_engines::Error>(())
//! ```
use crate::Replacer;
use std::borrow::Cow;

/// A compiled pattern for haystacks of the type `str`.
pub type Regex = crate::RegexOf<str>;

/// Settings of a [`Regex`].
pub type RegexBuilder = crate::RegexBuilderOf<str>;

/// A set of patterns for haystacks of the type `str`.
pub type RegexSet = crate::RegexSetOf<str>;

/// Settings of a [`RegexSet`].
pub type RegexSetBuilder = crate::RegexSetBuilderOf<str>;

/// A match, with byte offsets.
pub type Match<'h> = crate::Match<'h, str>;

/// The groups of a match.
pub type Captures<'h> = crate::Captures<'h, str>;

/// The groups of a match, in order.
pub type SubCaptureMatches<'c, 'h> = crate::SubCaptureMatches<'c, 'h, str>;

/// All matches, from left to right.
pub type Matches<'r, 'h> = crate::Matches<'r, 'h, str>;

/// The groups of all matches, from left to right.
pub type CaptureMatches<'r, 'h> = crate::CaptureMatches<'r, 'h, str>;

/// What is between the matches.
pub type Split<'r, 'h> = crate::Split<'r, 'h, str>;

/// What is between matches, in as many pieces at most as the limit.
pub type SplitN<'r, 'h> = crate::SplitN<'r, 'h, str>;

/// A text in which `$` means nothing.
#[derive(Clone, Debug)]
pub struct NoExpand<'t>(pub &'t str);

impl Replacer<str> for NoExpand<'_> {
    fn replace_append(&mut self, _: &Captures<'_>, to: &mut String) {
        to.push_str(self.0);
    }

    fn no_expansion(&mut self) -> Option<Cow<'_, str>> {
        Some(Cow::Borrowed(self.0))
    }
}
