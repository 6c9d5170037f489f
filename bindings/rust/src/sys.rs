//! The library's functions, as `nfa_regex.h` declares them, and handles that free themselves.
use crate::Error;
use std::ptr::null_mut;

#[repr(C)]
struct Raw {
    ready: bool,
    at: *mut u8,
}

impl Raw {
    fn empty() -> Raw {
        Raw { ready: false, at: null_mut() }
    }
}

#[repr(C)]
#[derive(Default)]
struct RawMatch {
    pattern: usize,
    start: usize,
    end: usize,
}

#[repr(C)]
#[derive(Clone, Copy, Debug, Default)]
pub struct Options {
    pub flags: u32,
    pub size_limit: usize,
    pub dfa_capacity: usize,
    pub backtrack_capacity: usize,
}

/// The address and the length of a slice.
macro_rules! slice {
    ($bytes:expr) => {
        ($bytes.as_ptr(), $bytes.len())
    };
}

extern "C" {
    fn nfa_regex_new_with(re: *mut Raw, pattern: *const u8, len: usize, options: *const Options) -> i32;
    fn nfa_regex_why(pattern: *const u8, len: usize, options: *const Options, to: *mut u8, room: usize) -> usize;
    fn nfa_regex_free(re: *mut Raw);
    fn nfa_regex_is_match(re: *mut Raw, hay: *const u8, len: usize, start: usize, end: usize) -> i32;
    fn nfa_regex_find(re: *mut Raw, hay: *const u8, len: usize, start: usize, end: usize, m: *mut RawMatch) -> i32;
    fn nfa_regex_shortest_match(
        re: *mut Raw, hay: *const u8, len: usize, start: usize, end: usize, at: *mut usize,
    ) -> i32;
    fn nfa_regex_captures(
        re: *mut Raw, hay: *const u8, len: usize, start: usize, end: usize, slots: *mut usize, n: usize,
    ) -> i32;
    fn nfa_regex_slot_count(re: *mut Raw) -> usize;
    fn nfa_regex_group_index(re: *mut Raw, pattern: usize, name: *const u8, len: usize, index: *mut usize) -> i32;
    fn nfa_regex_group_names(
        pattern: *const u8, len: usize, options: *const Options, to: *mut u8, room: usize, count: *mut usize,
    ) -> i32;
    fn nfa_regex_escape(text: *const u8, len: usize, to: *mut u8, room: usize, count: *mut usize) -> i32;
    fn nfa_regex_set_new_with(
        set: *mut Raw, text: *const u8, len: usize, ends: *const usize, n: usize, options: *const Options,
    ) -> i32;
    fn nfa_regex_set_why(
        text: *const u8, len: usize, ends: *const usize, n: usize, options: *const Options, to: *mut u8, room: usize,
    ) -> usize;
    fn nfa_regex_set_free(set: *mut Raw);
    fn nfa_regex_set_is_match(set: *mut Raw, hay: *const u8, len: usize, start: usize, end: usize) -> i32;
    fn nfa_regex_set_matches(
        set: *mut Raw, hay: *const u8, len: usize, start: usize, end: usize, marks: *mut u8, n: usize,
    ) -> i32;
}

/// The flag by which a pattern may match bytes that are not UTF-8.
pub const BYTES: u32 = 128;

const FOUND: i32 = 1;
const OK: i32 = 0;
const RANGE: i32 = -2;
const MEMORY: i32 = -3;

/// What is made of patterns, to search with.
pub trait Handle: Sized {
    fn new(patterns: &[String], options: &Options) -> Result<Self, Error>;
}

/// What a search by a full handle says.
#[inline]
fn found(code: i32) -> bool {
    if code < 0 {
        refused(code);
    }
    code == FOUND
}

/// A full handle refuses only a start past the end, and want of memory, which is said otherwise.
#[cold]
fn refused(code: i32) {
    assert!(code != RANGE, "the start is past the end of the haystack");
}

/// A message of any length, which `write` writes as far as there is room, and returns the length of.
fn message(write: impl Fn(&mut [u8]) -> usize) -> String {
    let mut text = vec![0; 512];
    loop {
        let (room, len) = (text.len(), write(&mut text));
        text.resize(len, 0);
        if len <= room {
            return String::from_utf8_lossy(&text).into_owned();
        }
    }
}

/// A text of any length, which `write` writes as far as there is room. It returns a code and the length.
fn text(write: impl Fn(&mut [u8]) -> (i32, usize)) -> Result<String, Error> {
    let (code, len) = write(&mut []);
    let mut text = vec![0; len];
    let code = if code == OK { write(&mut text).0 } else { code };
    match code {
        OK => Ok(String::from_utf8_lossy(&text).into_owned()),
        _ => Err(Error::Memory),
    }
}

// SAFETY of all calls: a slice of Rust is never null, nor longer than `isize::MAX`; what is written is borrowed
// mutably, so it overlaps nothing; and `&mut self` makes one call at a time.

/// A full handle of one pattern, with room for the slots of its groups.
pub struct RegexHandle {
    raw: Raw,
    slots: Vec<usize>,
}

// SAFETY: it is proved that a handle may move to another thread. It is not `Sync`, as it has a pointer.
unsafe impl Send for RegexHandle {}

impl Drop for RegexHandle {
    fn drop(&mut self) {
        // SAFETY: the handle is full or empty, and this is its only copy.
        unsafe { nfa_regex_free(&mut self.raw) }
    }
}

impl Handle for RegexHandle {
    fn new(patterns: &[String], options: &Options) -> Result<RegexHandle, Error> {
        let (pattern, len) = slice!(patterns[0]);
        let mut handle = RegexHandle { raw: Raw::empty(), slots: Vec::new() };
        match unsafe { nfa_regex_new_with(&mut handle.raw, pattern, len, options) } {
            OK => {
                handle.slots.resize(unsafe { nfa_regex_slot_count(&mut handle.raw) }, usize::MAX);
                Ok(handle)
            }
            MEMORY => Err(Error::Memory),
            _ => Err(Error::Pattern(message(|to| unsafe {
                nfa_regex_why(pattern, len, options, to.as_mut_ptr(), to.len())
            }))),
        }
    }
}

impl RegexHandle {
    #[inline]
    pub fn is_match(&mut self, hay: &[u8], start: usize) -> bool {
        let (at, len) = slice!(hay);
        found(unsafe { nfa_regex_is_match(&mut self.raw, at, len, start, len) })
    }

    #[inline]
    pub fn find(&mut self, hay: &[u8], start: usize) -> Option<(usize, usize)> {
        let (at, len) = slice!(hay);
        let mut m = RawMatch::default();
        found(unsafe { nfa_regex_find(&mut self.raw, at, len, start, len, &mut m) }).then_some((m.start, m.end))
    }

    #[inline]
    pub fn shortest_match(&mut self, hay: &[u8], start: usize) -> Option<usize> {
        let (at, len) = slice!(hay);
        let mut end = 0;
        found(unsafe { nfa_regex_shortest_match(&mut self.raw, at, len, start, len, &mut end) }).then_some(end)
    }

    /// The match, whose groups are then in the slots.
    #[inline]
    pub fn captures(&mut self, hay: &[u8], start: usize) -> Option<(usize, usize)> {
        let (at, len) = slice!(hay);
        let (to, n) = (self.slots.as_mut_ptr(), self.slots.len());
        let code = unsafe { nfa_regex_captures(&mut self.raw, at, len, start, len, to, n) };
        found(code).then(|| (self.slots[0], self.slots[1]))
    }

    pub fn slots(&self) -> &[usize] {
        &self.slots
    }

    pub fn group_index(&mut self, name: &str) -> Option<usize> {
        let (at, len) = slice!(name);
        let mut index = 0;
        let code = unsafe { nfa_regex_group_index(&mut self.raw, 0, at, len, &mut index) };
        (code == FOUND).then_some(index)
    }
}

/// A full handle of a set.
pub struct SetHandle {
    raw: Raw,
}

// SAFETY: as of a `RegexHandle`.
unsafe impl Send for SetHandle {}

impl Drop for SetHandle {
    fn drop(&mut self) {
        // SAFETY: the handle is full or empty, and this is its only copy.
        unsafe { nfa_regex_set_free(&mut self.raw) }
    }
}

impl Handle for SetHandle {
    fn new(patterns: &[String], options: &Options) -> Result<SetHandle, Error> {
        let joined = patterns.concat();
        let (joined_at, len) = slice!(joined);
        let rising = |end: &mut usize, pattern: &String| {
            *end += pattern.len();
            Some(*end)
        };
        let ends: Vec<usize> = patterns.iter().scan(0, rising).collect();
        let (ends_at, n) = slice!(ends);
        let mut handle = SetHandle { raw: Raw::empty() };
        match unsafe { nfa_regex_set_new_with(&mut handle.raw, joined_at, len, ends_at, n, options) } {
            OK => Ok(handle),
            MEMORY => Err(Error::Memory),
            _ => Err(Error::Pattern(message(|to| unsafe {
                nfa_regex_set_why(joined_at, len, ends_at, n, options, to.as_mut_ptr(), to.len())
            }))),
        }
    }
}

impl SetHandle {
    pub fn is_match(&mut self, hay: &[u8], start: usize) -> bool {
        let (at, len) = slice!(hay);
        found(unsafe { nfa_regex_set_is_match(&mut self.raw, at, len, start, len) })
    }

    /// Writes which patterns match. Whether memory was there for the answer.
    pub fn matches(&mut self, hay: &[u8], start: usize, marks: &mut [u8]) -> bool {
        let (at, len) = slice!(hay);
        let (to, n) = (marks.as_mut_ptr(), marks.len());
        let code = unsafe { nfa_regex_set_matches(&mut self.raw, at, len, start, len, to, n) };
        found(code);
        code != MEMORY
    }
}

/// The names of the pattern's groups, from group 0 on. The pattern has been compiled before.
pub fn group_names(pattern: &str, options: &Options) -> Result<Vec<Option<String>>, Error> {
    let (at, len) = slice!(pattern);
    let lines = text(|to| {
        let mut count = 0;
        let code = unsafe { nfa_regex_group_names(at, len, options, to.as_mut_ptr(), to.len(), &mut count) };
        (code, count)
    })?;
    Ok(lines.lines().map(|name| (!name.is_empty()).then(|| name.to_owned())).collect())
}

/// A pattern that matches the text.
pub fn escape(literal: &str) -> Result<String, Error> {
    let (at, len) = slice!(literal);
    text(|to| {
        let mut count = 0;
        let code = unsafe { nfa_regex_escape(at, len, to.as_mut_ptr(), to.len(), &mut count) };
        (code, count)
    })
}
