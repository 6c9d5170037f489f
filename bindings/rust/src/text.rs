//! What patterns are searched in: bytes, or a string.
use crate::sys::BYTES;
use std::fmt;
use std::ops::Range;

mod sealed {
    pub trait Sealed {}

    impl Sealed for [u8] {}
    impl Sealed for str {}
}

/// Haystacks: `[u8]` and `str`. A pattern for `str` matches whole characters.
pub trait Text: ToOwned + fmt::Debug + PartialEq + sealed::Sealed {
    /// The flags of a pattern for such haystacks.
    #[doc(hidden)]
    const FLAGS: u32;

    /// The bytes that are searched.
    #[doc(hidden)]
    fn bytes(&self) -> &[u8];

    /// The text between these byte offsets.
    #[doc(hidden)]
    fn part(&self, range: Range<usize>) -> &Self;

    /// Appends a text.
    #[doc(hidden)]
    fn push(&self, to: &mut Self::Owned);

    /// Room for as many bytes.
    #[doc(hidden)]
    fn room(len: usize) -> Self::Owned;
}

impl Text for [u8] {
    // As in `regex::bytes`, a pattern may match bytes that are not UTF-8, by `(?-u)`.
    const FLAGS: u32 = BYTES;

    #[inline]
    fn bytes(&self) -> &[u8] {
        self
    }

    fn part(&self, range: Range<usize>) -> &[u8] {
        &self[range]
    }

    fn push(&self, to: &mut Vec<u8>) {
        to.extend_from_slice(self);
    }

    fn room(len: usize) -> Vec<u8> {
        Vec::with_capacity(len)
    }
}

impl Text for str {
    const FLAGS: u32 = 0;

    #[inline]
    fn bytes(&self) -> &[u8] {
        self.as_bytes()
    }

    fn part(&self, range: Range<usize>) -> &str {
        &self[range]
    }

    fn push(&self, to: &mut String) {
        to.push_str(self);
    }

    fn room(len: usize) -> String {
        String::with_capacity(len)
    }
}
