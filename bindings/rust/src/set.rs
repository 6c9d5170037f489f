//! Which of many patterns match.
use crate::builder::RegexSetBuilderOf;
use crate::shared::Shared;
use crate::sys::SetHandle;
use crate::text::Text;
use crate::Error;
use std::fmt;
use std::marker::PhantomData;
use std::sync::Arc;

/// A set of patterns that says which of them match, in one pass over the haystack.
///
/// ```
/// use nfa_engines::RegexSet;
///
/// let set = RegexSet::new([r"[a-z]+", r"[0-9]+", "foo"])?;
/// let found = set.matches(b"a foo");
/// assert!(found.matched(0) && !found.matched(1));
/// assert_eq!(found.iter().collect::<Vec<_>>(), [0, 2]);
/// # Ok::<(), nfa_engines::Error>(())
/// ```
pub type RegexSet = RegexSetOf<[u8]>;

/// A set of patterns for haystacks of the type `T`: [`RegexSet`] for bytes, and
/// [`string::RegexSet`](crate::string::RegexSet). Threads may share it, as a regex.
pub struct RegexSetOf<T: Text + ?Sized> {
    shared: Arc<Shared<SetHandle>>,
    hay: PhantomData<fn(&T)>,
}

impl<T: Text + ?Sized> Clone for RegexSetOf<T> {
    fn clone(&self) -> Self {
        RegexSetOf::of(self.shared.clone())
    }
}

impl<T: Text + ?Sized> RegexSetOf<T> {
    /// Compiles these patterns, numbered from 0 on.
    pub fn new<P: AsRef<str>>(patterns: impl IntoIterator<Item = P>) -> Result<Self, Error> {
        RegexSetBuilderOf::new(patterns).build()
    }

    /// The set without a pattern. No haystack matches it.
    ///
    /// # Panics
    ///
    /// If memory is refused.
    pub fn empty() -> Self {
        RegexSetOf::new([""; 0]).expect("memory for a set of no pattern")
    }

    pub(crate) fn of(shared: Arc<Shared<SetHandle>>) -> Self {
        RegexSetOf { shared, hay: PhantomData }
    }

    /// Whether one of the patterns matches.
    pub fn is_match(&self, hay: &T) -> bool {
        self.is_match_at(hay, 0)
    }

    /// The same from this offset on. Assertions see the whole haystack.
    ///
    /// # Panics
    ///
    /// If the start is past the end.
    pub fn is_match_at(&self, hay: &T, start: usize) -> bool {
        self.shared.held().is_match(hay.bytes(), start)
    }

    /// Which patterns match.
    ///
    /// # Panics
    ///
    /// If memory is refused.
    pub fn matches(&self, hay: &T) -> SetMatches {
        self.matches_at(hay, 0)
    }

    /// The same from this offset on. Assertions see the whole haystack.
    ///
    /// # Panics
    ///
    /// If the start is past the end, or memory is refused.
    pub fn matches_at(&self, hay: &T, start: usize) -> SetMatches {
        let mut marks = vec![0; self.len()];
        let answered = self.shared.held().matches(hay.bytes(), start, &mut marks);
        assert!(answered, "memory was refused for the patterns that match");
        SetMatches { marks }
    }

    /// The number of patterns.
    pub fn len(&self) -> usize {
        self.patterns().len()
    }

    /// Whether the set has no pattern.
    pub fn is_empty(&self) -> bool {
        self.len() == 0
    }

    /// The texts of the patterns.
    pub fn patterns(&self) -> &[String] {
        &self.shared.patterns
    }
}

impl<T: Text + ?Sized> Default for RegexSetOf<T> {
    fn default() -> Self {
        RegexSetOf::empty()
    }
}

impl<T: Text + ?Sized> fmt::Debug for RegexSetOf<T> {
    fn fmt(&self, f: &mut fmt::Formatter<'_>) -> fmt::Result {
        write!(f, "RegexSet({:?})", self.patterns())
    }
}

/// Which patterns of a set match.
#[derive(Clone, Debug, PartialEq, Eq)]
pub struct SetMatches {
    marks: Vec<u8>,
}

impl SetMatches {
    /// Whether a pattern matches.
    pub fn matched_any(&self) -> bool {
        self.marks.contains(&1)
    }

    /// Whether each pattern matches.
    pub fn matched_all(&self) -> bool {
        !self.marks.contains(&0)
    }

    /// Whether the pattern with this number matches.
    ///
    /// # Panics
    ///
    /// If the set has no such pattern.
    pub fn matched(&self, pattern: usize) -> bool {
        self.marks[pattern] == 1
    }

    /// The number of patterns of the set.
    #[allow(clippy::len_without_is_empty)]
    pub fn len(&self) -> usize {
        self.marks.len()
    }

    /// The numbers of those that match, from the least on.
    pub fn iter(&self) -> SetMatchesIter<'_> {
        SetMatchesIter { marks: self.marks.iter().enumerate() }
    }
}

/// The numbers of the patterns that match, from the least on.
#[derive(Clone, Debug)]
pub struct SetMatchesIter<'a> {
    marks: std::iter::Enumerate<std::slice::Iter<'a, u8>>,
}

impl Iterator for SetMatchesIter<'_> {
    type Item = usize;

    fn next(&mut self) -> Option<usize> {
        self.marks.find(|(_, &mark)| mark == 1).map(|(pattern, _)| pattern)
    }
}

impl DoubleEndedIterator for SetMatchesIter<'_> {
    fn next_back(&mut self) -> Option<usize> {
        self.marks.rfind(|(_, &mark)| mark == 1).map(|(pattern, _)| pattern)
    }
}

impl std::iter::FusedIterator for SetMatchesIter<'_> {}

impl<'a> IntoIterator for &'a SetMatches {
    type Item = usize;
    type IntoIter = SetMatchesIter<'a>;

    fn into_iter(self) -> SetMatchesIter<'a> {
        self.iter()
    }
}

/// The same, of a [`SetMatches`] that it owns.
#[derive(Clone, Debug)]
pub struct SetMatchesIntoIter(std::vec::IntoIter<usize>);

impl Iterator for SetMatchesIntoIter {
    type Item = usize;

    fn next(&mut self) -> Option<usize> {
        self.0.next()
    }

    fn size_hint(&self) -> (usize, Option<usize>) {
        self.0.size_hint()
    }
}

impl DoubleEndedIterator for SetMatchesIntoIter {
    fn next_back(&mut self) -> Option<usize> {
        self.0.next_back()
    }
}

impl std::iter::FusedIterator for SetMatchesIntoIter {}

impl IntoIterator for SetMatches {
    type Item = usize;
    type IntoIter = SetMatchesIntoIter;

    fn into_iter(self) -> Self::IntoIter {
        SetMatchesIntoIter(self.iter().collect::<Vec<_>>().into_iter())
    }
}
