//! The settings of a regex, and of a set.
use crate::shared::Shared;
use crate::sys::{Options, BYTES};
use crate::text::Text;
use crate::{Error, RegexOf, RegexSetOf};
use std::marker::PhantomData;

// The flags of `nfa_regex.h`, but for `BYTES`.
const CASE_INSENSITIVE: u32 = 1;
const MULTI_LINE: u32 = 2;
const DOT_MATCHES_NEW_LINE: u32 = 4;
const SWAP_GREED: u32 = 8;
const IGNORE_WHITESPACE: u32 = 16;
const CRLF: u32 = 32;
const NO_UNICODE: u32 = 64;
const ANCHORED: u32 = 256;
const OCTAL: u32 = 1024;

/// The settings that builders begin with.
pub fn default_options<T: Text + ?Sized>() -> Options {
    Options { flags: T::FLAGS, ..Options::default() }
}

fn with_flag(options: &mut Options, flag: u32, yes: bool) {
    options.flags = options.flags & !flag | if yes { flag } else { 0 };
}

macro_rules! builder {
    ($(#[$about:meta])* $name:ident) => {
        $(#[$about])*
        #[derive(Clone, Debug)]
        pub struct $name<T: Text + ?Sized> {
            patterns: Vec<String>,
            options: Options,
            hay: PhantomData<fn(&T)>,
        }

        impl $name<[u8]> {
            /// Whether patterns may match only UTF-8, and empty matches split no character.
            pub fn utf8(&mut self, yes: bool) -> &mut Self {
                self.flag(BYTES, !yes)
            }
        }

        impl<T: Text + ?Sized> $name<T> {
            fn flag(&mut self, flag: u32, yes: bool) -> &mut Self {
                with_flag(&mut self.options, flag, yes);
                self
            }

            /// Letters match in both cases.
            pub fn case_insensitive(&mut self, yes: bool) -> &mut Self {
                self.flag(CASE_INSENSITIVE, yes)
            }

            /// `^` and `$` match at each line.
            pub fn multi_line(&mut self, yes: bool) -> &mut Self {
                self.flag(MULTI_LINE, yes)
            }

            /// `.` matches a line feed, too.
            pub fn dot_matches_new_line(&mut self, yes: bool) -> &mut Self {
                self.flag(DOT_MATCHES_NEW_LINE, yes)
            }

            /// `x*` and `x*?` mean each other.
            pub fn swap_greed(&mut self, yes: bool) -> &mut Self {
                self.flag(SWAP_GREED, yes)
            }

            /// Spaces and comments in the pattern mean nothing.
            pub fn ignore_whitespace(&mut self, yes: bool) -> &mut Self {
                self.flag(IGNORE_WHITESPACE, yes)
            }

            /// A carriage return and a line feed end a line together.
            pub fn crlf(&mut self, yes: bool) -> &mut Self {
                self.flag(CRLF, yes)
            }

            /// Classes and case are those of Unicode. This is the default.
            pub fn unicode(&mut self, yes: bool) -> &mut Self {
                self.flag(NO_UNICODE, !yes)
            }

            /// `\141` is the character of this octal number.
            pub fn octal(&mut self, yes: bool) -> &mut Self {
                self.flag(OCTAL, yes)
            }

            /// Whether each match begins where the search does.
            pub fn anchored(&mut self, yes: bool) -> &mut Self {
                self.flag(ANCHORED, yes)
            }

            /// The most bytes that the tables of a pattern may take; 0 is the default.
            pub fn size_limit(&mut self, bytes: usize) -> &mut Self {
                self.options.size_limit = bytes;
                self
            }

            /// The most bytes that the rows of the lazy DFA may take; 0 is the default.
            pub fn dfa_size_limit(&mut self, bytes: usize) -> &mut Self {
                self.options.dfa_capacity = bytes;
                self
            }
        }
    };
}

/// Settings of a [`Regex`](crate::Regex).
///
/// ```
/// use nfa_engines::RegexBuilder;
///
/// let regex = RegexBuilder::new("abc").case_insensitive(true).build()?;
/// assert!(regex.is_match(b"xABC"));
/// # Ok::<(), nfa_engines::Error>(())
/// ```
pub type RegexBuilder = RegexBuilderOf<[u8]>;

/// Settings of a [`RegexSet`](crate::RegexSet).
///
/// ```
/// use nfa_engines::RegexSetBuilder;
///
/// let set = RegexSetBuilder::new(["abc", "[0-9]"]).case_insensitive(true).build()?;
/// assert!(set.is_match(b"xABC"));
/// # Ok::<(), nfa_engines::Error>(())
/// ```
pub type RegexSetBuilder = RegexSetBuilderOf<[u8]>;

builder! {
    /// Settings of a regex for haystacks of the type `T`.
    RegexBuilderOf
}

impl<T: Text + ?Sized> RegexBuilderOf<T> {
    /// The default settings for this pattern.
    pub fn new(pattern: &str) -> Self {
        RegexBuilderOf { patterns: vec![pattern.to_owned()], options: default_options::<T>(), hay: PhantomData }
    }

    /// Compiles the pattern.
    pub fn build(&self) -> Result<RegexOf<T>, Error> {
        RegexOf::of(Shared::new(self.patterns.clone(), &self.options)?)
    }
}

builder! {
    /// Settings of a set for haystacks of the type `T`.
    RegexSetBuilderOf
}

impl<T: Text + ?Sized> RegexSetBuilderOf<T> {
    /// The default settings for these patterns.
    pub fn new<P: AsRef<str>>(patterns: impl IntoIterator<Item = P>) -> Self {
        let patterns = patterns.into_iter().map(|pattern| pattern.as_ref().to_owned()).collect();
        RegexSetBuilderOf { patterns, options: default_options::<T>(), hay: PhantomData }
    }

    /// Compiles the patterns.
    pub fn build(&self) -> Result<RegexSetOf<T>, Error> {
        Ok(RegexSetOf::of(Shared::new(self.patterns.clone(), &self.options)?))
    }
}
