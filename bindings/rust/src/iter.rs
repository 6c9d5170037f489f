//! Iterators over matches, and over what is between them.
use crate::shared::Held;
use crate::sys::RegexHandle;
use crate::text::Text;
use crate::{Captures, Match, RegexOf};
use std::iter::FusedIterator;

/// The searches of an iteration, with a handle of its own. An empty match is none if the last match ends there.
#[derive(Debug)]
struct Steps<'r, 'h, T: Text + ?Sized> {
    regex: &'r RegexOf<T>,
    handle: Held<'r, RegexHandle>,
    hay: &'h T,
    // Where the next search begins, and where the last match ended. `usize::MAX` is past each end.
    at: usize,
    last: usize,
}

impl<'r, 'h, T: Text + ?Sized> Steps<'r, 'h, T> {
    fn new(regex: &'r RegexOf<T>, hay: &'h T) -> Self {
        Steps { regex, handle: regex.handle(), hay, at: 0, last: usize::MAX }
    }

    /// The span of the next match, by this search.
    #[inline]
    fn next<S>(&mut self, search: S) -> Option<(usize, usize)>
    where
        S: Fn(&mut RegexHandle, &[u8], usize) -> Option<(usize, usize)>,
    {
        let hay = self.hay.bytes();
        if self.at > hay.len() {
            return None;
        }
        let mut found = search(&mut self.handle, hay, self.at);
        if found == Some((self.last, self.last)) {
            found = if self.at < hay.len() { search(&mut self.handle, hay, self.at + 1) } else { None };
        }
        (self.at, self.last) = match found {
            // A search from there would find it once more.
            Some((start, end)) if start == end => (end + 1, end),
            Some((_, end)) => (end, end),
            None => (usize::MAX, usize::MAX),
        };
        found
    }
}

/// All matches, from left to right.
#[derive(Debug)]
pub struct Matches<'r, 'h, T: Text + ?Sized = [u8]> {
    steps: Steps<'r, 'h, T>,
}

impl<'r, 'h, T: Text + ?Sized> Matches<'r, 'h, T> {
    pub(crate) fn new(regex: &'r RegexOf<T>, hay: &'h T) -> Self {
        Matches { steps: Steps::new(regex, hay) }
    }
}

impl<'h, T: Text + ?Sized> Iterator for Matches<'_, 'h, T> {
    type Item = Match<'h, T>;

    #[inline]
    fn next(&mut self) -> Option<Match<'h, T>> {
        let span = self.steps.next(RegexHandle::find)?;
        Some(Match::new(self.steps.hay, span))
    }
}

impl<T: Text + ?Sized> FusedIterator for Matches<'_, '_, T> {}

/// The groups of all matches, from left to right.
#[derive(Debug)]
pub struct CaptureMatches<'r, 'h, T: Text + ?Sized = [u8]> {
    steps: Steps<'r, 'h, T>,
}

impl<'r, 'h, T: Text + ?Sized> CaptureMatches<'r, 'h, T> {
    pub(crate) fn new(regex: &'r RegexOf<T>, hay: &'h T) -> Self {
        CaptureMatches { steps: Steps::new(regex, hay) }
    }
}

impl<'h, T: Text + ?Sized> Iterator for CaptureMatches<'_, 'h, T> {
    type Item = Captures<'h, T>;

    fn next(&mut self) -> Option<Captures<'h, T>> {
        self.steps.next(RegexHandle::captures)?;
        let slots = self.steps.handle.slots().to_vec();
        Some(Captures { hay: self.steps.hay, names: self.steps.regex.names.clone(), slots })
    }
}

impl<T: Text + ?Sized> FusedIterator for CaptureMatches<'_, '_, T> {}

/// What is between the matches.
#[derive(Debug)]
pub struct Split<'r, 'h, T: Text + ?Sized = [u8]> {
    pieces: SplitN<'r, 'h, T>,
}

impl<'r, 'h, T: Text + ?Sized> Split<'r, 'h, T> {
    pub(crate) fn new(regex: &'r RegexOf<T>, hay: &'h T) -> Self {
        Split { pieces: SplitN::new(regex, hay, usize::MAX) }
    }
}

impl<'h, T: Text + ?Sized> Iterator for Split<'_, 'h, T> {
    type Item = &'h T;

    fn next(&mut self) -> Option<&'h T> {
        self.pieces.next()
    }
}

impl<T: Text + ?Sized> FusedIterator for Split<'_, '_, T> {}

/// What is between matches, in as many pieces at most as the limit.
#[derive(Debug)]
pub struct SplitN<'r, 'h, T: Text + ?Sized = [u8]> {
    matches: Matches<'r, 'h, T>,
    at: usize,
    left: usize,
}

impl<'r, 'h, T: Text + ?Sized> SplitN<'r, 'h, T> {
    pub(crate) fn new(regex: &'r RegexOf<T>, hay: &'h T, left: usize) -> Self {
        SplitN { matches: regex.find_iter(hay), at: 0, left }
    }
}

impl<'h, T: Text + ?Sized> Iterator for SplitN<'_, 'h, T> {
    type Item = &'h T;

    fn next(&mut self) -> Option<&'h T> {
        let hay = self.matches.steps.hay;
        let len = hay.bytes().len();
        if self.left == 0 || self.at > len {
            return None;
        }
        self.left -= 1;
        let next = if self.left == 0 { None } else { self.matches.next() };
        let from = self.at;
        let (to, at) = next.map_or((len, usize::MAX), |m| (m.start(), m.end()));
        self.at = at;
        Some(hay.part(from..to))
    }
}

impl<T: Text + ?Sized> FusedIterator for SplitN<'_, '_, T> {}
