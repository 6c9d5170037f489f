//! A compiled pattern, and its searches.
use crate::builder::default_options;
use crate::shared::{Held, Shared};
use crate::sys::{group_names, RegexHandle};
use crate::text::Text;
use crate::{CaptureLocations, CaptureMatches, CaptureNames, Captures, Error, Match, Matches, Replacer, Split, SplitN};
use std::borrow::Cow;
use std::fmt;
use std::marker::PhantomData;
use std::ops::Range;
use std::str::FromStr;
use std::sync::Arc;

/// A compiled pattern for haystacks of bytes.
///
/// ```
/// use nfa_engines::Regex;
///
/// let word = Regex::new(r"\w+")?;
/// assert_eq!(word.find(b"- foo").map(|m| m.range()), Some(2..5));
/// assert_eq!(word.find_iter(b"a bc d").count(), 3);
/// # Ok::<(), nfa_engines::Error>(())
/// ```
pub type Regex = RegexOf<[u8]>;

/// A compiled pattern for haystacks of the type `T`: [`Regex`] for bytes, and
/// [`string::Regex`](crate::string::Regex).
///
/// Threads may share it. Each search takes a handle of the library from a pool, and a search that finds none compiles
/// the pattern once more: there are as many as there were searches at one time. Clones share the pool.
pub struct RegexOf<T: Text + ?Sized> {
    shared: Arc<Shared<RegexHandle>>,
    pub(crate) names: Arc<[Option<String>]>,
    hay: PhantomData<fn(&T)>,
}

// Written out, as a derived one would ask the same of `T`.
impl<T: Text + ?Sized> Clone for RegexOf<T> {
    fn clone(&self) -> Self {
        RegexOf { shared: self.shared.clone(), names: self.names.clone(), hay: PhantomData }
    }
}

impl<T: Text + ?Sized> RegexOf<T> {
    /// Compiles the pattern.
    pub fn new(pattern: &str) -> Result<Self, Error> {
        RegexOf::of(Shared::new(vec![pattern.to_owned()], &default_options::<T>())?)
    }

    pub(crate) fn of(shared: Arc<Shared<RegexHandle>>) -> Result<Self, Error> {
        let names = group_names(&shared.patterns[0], &shared.options)?.into();
        Ok(RegexOf { shared, names, hay: PhantomData })
    }

    /// A handle that no other call has.
    #[inline]
    pub(crate) fn handle(&self) -> Held<'_, RegexHandle> {
        self.shared.held()
    }

    /// The text of the pattern.
    pub fn as_str(&self) -> &str {
        &self.shared.patterns[0]
    }

    /// The number of groups, with group 0.
    pub fn captures_len(&self) -> usize {
        self.names.len()
    }

    /// The names of the groups, in order. Group 0 has none.
    ///
    /// ```
    /// # use nfa_engines::Regex;
    /// let regex = Regex::new(r"(?<year>\d+)-(\d+)")?;
    /// assert_eq!(regex.capture_names().collect::<Vec<_>>(), [None, Some("year"), None]);
    /// # Ok::<(), nfa_engines::Error>(())
    /// ```
    pub fn capture_names(&self) -> CaptureNames<'_> {
        CaptureNames(self.names.iter())
    }

    /// The number of the group of this name.
    pub fn capture_index(&self, name: &str) -> Option<usize> {
        self.handle().group_index(name)
    }

    /// Whether the haystack has a match.
    pub fn is_match(&self, hay: &T) -> bool {
        self.is_match_at(hay, 0)
    }

    /// As all calls with a start: assertions see the whole haystack.
    ///
    /// # Panics
    ///
    /// If the start is past the end.
    pub fn is_match_at(&self, hay: &T, start: usize) -> bool {
        self.handle().is_match(hay.bytes(), start)
    }

    /// The match that starts first and, among those, prefers the earlier alternative.
    pub fn find<'h>(&self, hay: &'h T) -> Option<Match<'h, T>> {
        self.find_at(hay, 0)
    }

    /// The same from this offset on.
    ///
    /// # Panics
    ///
    /// If the start is past the end.
    pub fn find_at<'h>(&self, hay: &'h T, start: usize) -> Option<Match<'h, T>> {
        Some(Match::new(hay, self.handle().find(hay.bytes(), start)?))
    }

    /// An offset at which a match is known, which may be before its end.
    pub fn shortest_match(&self, hay: &T) -> Option<usize> {
        self.shortest_match_at(hay, 0)
    }

    /// The same from this offset on.
    ///
    /// # Panics
    ///
    /// If the start is past the end.
    pub fn shortest_match_at(&self, hay: &T, start: usize) -> Option<usize> {
        self.handle().shortest_match(hay.bytes(), start)
    }

    /// All matches, from left to right, without overlaps.
    pub fn find_iter<'r, 'h>(&'r self, hay: &'h T) -> Matches<'r, 'h, T> {
        Matches::new(self, hay)
    }

    /// The groups of the match.
    pub fn captures<'h>(&self, hay: &'h T) -> Option<Captures<'h, T>> {
        self.captures_at(hay, 0)
    }

    /// The same from this offset on.
    ///
    /// # Panics
    ///
    /// If the start is past the end.
    pub fn captures_at<'h>(&self, hay: &'h T, start: usize) -> Option<Captures<'h, T>> {
        let mut handle = self.handle();
        handle.captures(hay.bytes(), start)?;
        Some(Captures { hay, names: self.names.clone(), slots: handle.slots().to_vec() })
    }

    /// Room for the offsets of all groups.
    pub fn capture_locations(&self) -> CaptureLocations {
        CaptureLocations { slots: vec![usize::MAX; 2 * self.captures_len()] }
    }

    /// The match, with the offsets of its groups in the room, which no search allocates. If there is no match, no group
    /// has offsets.
    ///
    /// ```
    /// # use nfa_engines::Regex;
    /// let regex = Regex::new("([a-z]+)([0-9])?")?;
    /// let mut groups = regex.capture_locations();
    /// assert!(regex.captures_read(&mut groups, b"- ab").is_some());
    /// assert_eq!((groups.get(1), groups.get(2), groups.len()), (Some((2, 4)), None, 3));
    /// # Ok::<(), nfa_engines::Error>(())
    /// ```
    pub fn captures_read<'h>(&self, groups: &mut CaptureLocations, hay: &'h T) -> Option<Match<'h, T>> {
        self.captures_read_at(groups, hay, 0)
    }

    /// The same from this offset on.
    ///
    /// # Panics
    ///
    /// If the start is past the end.
    pub fn captures_read_at<'h>(
        &self, groups: &mut CaptureLocations, hay: &'h T, start: usize,
    ) -> Option<Match<'h, T>> {
        groups.slots.clear();
        groups.slots.resize(2 * self.captures_len(), usize::MAX);
        let mut handle = self.handle();
        let span = handle.captures(hay.bytes(), start)?;
        groups.slots.copy_from_slice(handle.slots());
        Some(Match::new(hay, span))
    }

    /// The groups of all matches, from left to right.
    pub fn captures_iter<'r, 'h>(&'r self, hay: &'h T) -> CaptureMatches<'r, 'h, T> {
        CaptureMatches::new(self, hay)
    }

    /// What is between the matches.
    pub fn split<'r, 'h>(&'r self, hay: &'h T) -> Split<'r, 'h, T> {
        Split::new(self, hay)
    }

    /// The same, in `limit` pieces at most. The last one is the rest.
    pub fn splitn<'r, 'h>(&'r self, hay: &'h T, limit: usize) -> SplitN<'r, 'h, T> {
        SplitN::new(self, hay, limit)
    }

    /// The haystack with its first match replaced.
    pub fn replace<'h>(&self, hay: &'h T, with: impl Replacer<T>) -> Cow<'h, T> {
        self.replacen(hay, 1, with)
    }

    /// The haystack with all its matches replaced.
    pub fn replace_all<'h>(&self, hay: &'h T, with: impl Replacer<T>) -> Cow<'h, T> {
        self.replacen(hay, 0, with)
    }

    /// The haystack with its first `limit` matches replaced, or all for 0.
    pub fn replacen<'h>(&self, hay: &'h T, limit: usize, mut with: impl Replacer<T>) -> Cow<'h, T> {
        let limit = if limit == 0 { usize::MAX } else { limit };
        if let Some(text) = with.no_expansion() {
            let spans = self.find_iter(hay).take(limit).map(|m| (m.range(), ()));
            return replaced(hay, spans, |(), made| text.push(made));
        }
        let spans = self.captures_iter(hay).take(limit).map(|groups| (groups.get_match().range(), groups));
        replaced(hay, spans, |groups, made| with.replace_append(&groups, made))
    }
}

/// The haystack with another text at each of these spans.
fn replaced<'h, T: Text + ?Sized, G>(
    hay: &'h T, spans: impl Iterator<Item = (Range<usize>, G)>, mut append: impl FnMut(G, &mut T::Owned),
) -> Cow<'h, T> {
    let mut spans = spans.peekable();
    if spans.peek().is_none() {
        return Cow::Borrowed(hay);
    }
    let len = hay.bytes().len();
    let (mut made, mut at) = (T::room(len), 0);
    for (span, groups) in spans {
        hay.part(at..span.start).push(&mut made);
        append(groups, &mut made);
        at = span.end;
    }
    hay.part(at..len).push(&mut made);
    Cow::Owned(made)
}

impl<T: Text + ?Sized> fmt::Debug for RegexOf<T> {
    fn fmt(&self, f: &mut fmt::Formatter<'_>) -> fmt::Result {
        write!(f, "Regex({:?})", self.as_str())
    }
}

impl<T: Text + ?Sized> fmt::Display for RegexOf<T> {
    fn fmt(&self, f: &mut fmt::Formatter<'_>) -> fmt::Result {
        f.write_str(self.as_str())
    }
}

impl<T: Text + ?Sized> FromStr for RegexOf<T> {
    type Err = Error;

    fn from_str(pattern: &str) -> Result<Self, Error> {
        RegexOf::new(pattern)
    }
}

impl<T: Text + ?Sized> TryFrom<&str> for RegexOf<T> {
    type Error = Error;

    fn try_from(pattern: &str) -> Result<Self, Error> {
        RegexOf::new(pattern)
    }
}

impl<T: Text + ?Sized> TryFrom<String> for RegexOf<T> {
    type Error = Error;

    fn try_from(pattern: String) -> Result<Self, Error> {
        RegexOf::new(&pattern)
    }
}
