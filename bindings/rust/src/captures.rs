//! Matches, and the groups of one.
use crate::text::Text;
use std::fmt;
use std::iter::FusedIterator;
use std::ops::{Index, Range};
use std::sync::Arc;

/// A match in a haystack, with byte offsets.
pub struct Match<'h, T: Text + ?Sized = [u8]> {
    hay: &'h T,
    start: usize,
    end: usize,
}

impl<'h, T: Text + ?Sized> Match<'h, T> {
    #[inline]
    pub(crate) fn new(hay: &'h T, (start, end): (usize, usize)) -> Match<'h, T> {
        Match { hay, start, end }
    }

    /// The offset of its first byte.
    #[inline]
    pub fn start(&self) -> usize {
        self.start
    }

    /// The offset after its last byte.
    #[inline]
    pub fn end(&self) -> usize {
        self.end
    }

    /// Both offsets.
    #[inline]
    pub fn range(&self) -> Range<usize> {
        self.start..self.end
    }

    /// The number of its bytes.
    #[inline]
    pub fn len(&self) -> usize {
        self.end - self.start
    }

    /// Whether it has no bytes.
    #[inline]
    pub fn is_empty(&self) -> bool {
        self.start == self.end
    }

    /// What matched.
    fn text(&self) -> &'h T {
        self.hay.part(self.range())
    }
}

impl<'h> Match<'h> {
    /// The bytes that matched.
    pub fn as_bytes(&self) -> &'h [u8] {
        self.text()
    }
}

impl<'h> Match<'h, str> {
    /// The text that matched.
    pub fn as_str(&self) -> &'h str {
        self.text()
    }
}

// Written out, as a derived one would ask the same of `T`.
impl<T: Text + ?Sized> Clone for Match<'_, T> {
    fn clone(&self) -> Self {
        *self
    }
}

impl<T: Text + ?Sized> Copy for Match<'_, T> {}

impl<T: Text + ?Sized> PartialEq for Match<'_, T> {
    fn eq(&self, other: &Self) -> bool {
        self.range() == other.range() && self.hay == other.hay
    }
}

impl<T: Text + ?Sized> Eq for Match<'_, T> {}

impl<T: Text + ?Sized> fmt::Debug for Match<'_, T> {
    fn fmt(&self, f: &mut fmt::Formatter<'_>) -> fmt::Result {
        f.debug_struct("Match").field("range", &self.range()).field("text", &self.text()).finish()
    }
}

impl<T: Text + ?Sized> From<Match<'_, T>> for Range<usize> {
    fn from(m: Match<'_, T>) -> Range<usize> {
        m.range()
    }
}

impl<'h> From<Match<'h>> for &'h [u8] {
    fn from(m: Match<'h>) -> &'h [u8] {
        m.as_bytes()
    }
}

impl<'h> From<Match<'h, str>> for &'h str {
    fn from(m: Match<'h, str>) -> &'h str {
        m.as_str()
    }
}

/// The two offsets of a group, if it matched.
fn span(slots: &[usize], group: usize) -> Option<(usize, usize)> {
    let at = group.checked_mul(2)?;
    match (*slots.get(at)?, *slots.get(at + 1)?) {
        (usize::MAX, _) | (_, usize::MAX) => None,
        (start, end) => Some((start, end)),
    }
}

/// The groups of a match. Group 0 is the match.
///
/// ```
/// # use nfa_engines::Regex;
/// let date = Regex::new(r"(?<year>\d{4})-(\d\d)")?;
/// let groups = date.captures(b"on 2024-02").unwrap();
/// assert_eq!(groups.get_match().range(), 3..10);
/// assert_eq!((&groups["year"], &groups[2]), (&b"2024"[..], &b"02"[..]));
/// # Ok::<(), nfa_engines::Error>(())
/// ```
#[derive(Debug)]
pub struct Captures<'h, T: Text + ?Sized = [u8]> {
    pub(crate) hay: &'h T,
    pub(crate) names: Arc<[Option<String>]>,
    pub(crate) slots: Vec<usize>,
}

impl<'h, T: Text + ?Sized> Captures<'h, T> {
    /// What the group matched, if it did.
    pub fn get(&self, group: usize) -> Option<Match<'h, T>> {
        Some(Match::new(self.hay, span(&self.slots, group)?))
    }

    /// The match.
    pub fn get_match(&self) -> Match<'h, T> {
        Match::new(self.hay, (self.slots[0], self.slots[1]))
    }

    /// What the group of this name matched, if it did.
    pub fn name(&self, name: &str) -> Option<Match<'h, T>> {
        self.get(self.names.iter().position(|own| own.as_deref() == Some(name))?)
    }

    /// What matched, and what each group matched.
    ///
    /// ```
    /// # use nfa_engines::string::Regex;
    /// let date = Regex::new(r"(\d{4})-(\d\d)")?;
    /// let (whole, [year, month]) = date.captures("on 2024-02").unwrap().extract();
    /// assert_eq!((whole, year, month), ("2024-02", "2024", "02"));
    /// # Ok::<(), nfa_engines::Error>(())
    /// ```
    ///
    /// # Panics
    ///
    /// If there are not `N` groups besides group 0, or one did not match.
    pub fn extract<const N: usize>(&self) -> (&'h T, [&'h T; N]) {
        assert_eq!(self.len(), N + 1, "the number of groups");
        let group = |at| self.get(at + 1).unwrap_or_else(|| panic!("group {} did not match", at + 1)).text();
        (self.get_match().text(), std::array::from_fn(group))
    }

    /// The number of groups, with group 0.
    #[allow(clippy::len_without_is_empty)]
    pub fn len(&self) -> usize {
        self.slots.len() / 2
    }

    /// The groups, in order.
    pub fn iter(&self) -> SubCaptureMatches<'_, 'h, T> {
        SubCaptureMatches { groups: self, left: 0..self.len() }
    }

    /// Appends the template, in which `$1`, `$name`, `${1}` and `${name}` stand for groups, and `$$` for `$`.
    pub fn expand(&self, template: &T, to: &mut T::Owned) {
        let (bytes, mut from) = (template.bytes(), 0);
        while let Some(next) = bytes[from..].iter().position(|&byte| byte == b'$') {
            let at = from + next;
            template.part(from..at).push(to);
            if bytes[at..].starts_with(b"$$") {
                template.part(at..at + 1).push(to);
                from = at + 2;
            } else if let Some((name, len)) = reference(&bytes[at..]) {
                if let Some(group) = self.named_or_numbered(name) {
                    group.text().push(to);
                }
                from = at + len;
            } else {
                template.part(at..at + 1).push(to);
                from = at + 1;
            }
        }
        template.part(from..bytes.len()).push(to);
    }

    fn named_or_numbered(&self, name: &str) -> Option<Match<'h, T>> {
        match name.parse() {
            Ok(number) => self.get(number),
            Err(_) => self.name(name),
        }
    }
}

/// The groups of a match, in order.
#[derive(Clone, Debug)]
pub struct SubCaptureMatches<'c, 'h, T: Text + ?Sized = [u8]> {
    groups: &'c Captures<'h, T>,
    left: Range<usize>,
}

impl<'h, T: Text + ?Sized> Iterator for SubCaptureMatches<'_, 'h, T> {
    type Item = Option<Match<'h, T>>;

    fn next(&mut self) -> Option<Self::Item> {
        self.left.next().map(|group| self.groups.get(group))
    }

    fn size_hint(&self) -> (usize, Option<usize>) {
        self.left.size_hint()
    }
}

impl<T: Text + ?Sized> ExactSizeIterator for SubCaptureMatches<'_, '_, T> {}

impl<T: Text + ?Sized> FusedIterator for SubCaptureMatches<'_, '_, T> {}

/// The names of groups, in order.
#[derive(Clone, Debug)]
pub struct CaptureNames<'r>(pub(crate) std::slice::Iter<'r, Option<String>>);

impl<'r> Iterator for CaptureNames<'r> {
    type Item = Option<&'r str>;

    fn next(&mut self) -> Option<Self::Item> {
        self.0.next().map(|name| name.as_deref())
    }

    fn size_hint(&self) -> (usize, Option<usize>) {
        self.0.size_hint()
    }
}

impl ExactSizeIterator for CaptureNames<'_> {}

impl FusedIterator for CaptureNames<'_> {}

impl<T: Text + ?Sized> Clone for Captures<'_, T> {
    fn clone(&self) -> Self {
        Captures { hay: self.hay, names: self.names.clone(), slots: self.slots.clone() }
    }
}

/// The name after a `$`, and the length of both.
fn reference(text: &[u8]) -> Option<(&str, usize)> {
    if text.get(1) == Some(&b'{') {
        let end = text.iter().position(|&byte| byte == b'}')?;
        return Some((std::str::from_utf8(&text[2..end]).ok()?, end + 1));
    }
    let is_word = |&byte: &u8| byte.is_ascii_alphanumeric() || byte == b'_';
    let end = text[1..].iter().position(|byte| !is_word(byte)).map_or(text.len(), |at| at + 1);
    (end > 1).then(|| (std::str::from_utf8(&text[1..end]).unwrap_or(""), end))
}

impl<T: Text + ?Sized> Index<usize> for Captures<'_, T> {
    type Output = T;

    fn index(&self, group: usize) -> &T {
        self.get(group).unwrap_or_else(|| panic!("no group {group}")).text()
    }
}

impl<T: Text + ?Sized> Index<&str> for Captures<'_, T> {
    type Output = T;

    fn index(&self, name: &str) -> &T {
        self.name(name).unwrap_or_else(|| panic!("no group {name}")).text()
    }
}

/// Room for the offsets of groups, which many searches can use: see [`Regex::captures_read`](crate::Regex).
#[derive(Clone, Debug)]
pub struct CaptureLocations {
    pub(crate) slots: Vec<usize>,
}

impl CaptureLocations {
    /// The start and the end of the group, if it matched.
    pub fn get(&self, group: usize) -> Option<(usize, usize)> {
        span(&self.slots, group)
    }

    /// The number of groups, with group 0.
    #[allow(clippy::len_without_is_empty)]
    pub fn len(&self) -> usize {
        self.slots.len() / 2
    }
}
