//! Random patterns as text, and texts for them, from a seed.

use std::alloc::{AllocError, Global};

/// A linear congruential generator.
#[derive(Clone, Copy, Debug)]
pub struct Chance {
    state: u64,
}

impl Chance {
    /// A generator that begins with this number.
    pub fn new(seed: u64) -> Chance {
        let state = seed.wrapping_mul(0x9E37_79B9_7F4A_7C15);
        Chance { state }
    }

    /// The next number below the bound.
    pub fn below(&mut self, bound: usize) -> usize {
        self.state = self
            .state
            .wrapping_mul(6364136223846793005)
            .wrapping_add(1442695040888963407);
        (self.state >> 33) as usize % bound
    }

    fn pick<T: Copy>(&mut self, among: &[T]) -> T {
        among[self.below(among.len())]
    }
}

/// What a pattern reads at one place.
const CHARACTERS: &[&str] = &[
    "a",
    "a",
    "b",
    "b",
    "c",
    "x",
    " ",
    "=",
    "-",
    "1",
    "\u{e9}",
    "\u{2603}",
    "ab",
    "foo",
    "[a-c]",
    "[^a]",
    "[a-z0-9]",
    "[^\\s=]",
    "\\w",
    "\\d",
    "\\s",
    "\\S",
    "\\pL",
    "\\n",
    ".",
    "(?s:.)",
    "(?i:a)",
    "(?-u:\\w)",
    "(?-u:[\\x80-\\xFF])",
];

/// What reads nothing.
const ASSERTIONS: &[&str] = &[
    "^",
    "$",
    "\\b",
    "\\B",
    "\\A",
    "\\z",
    "(?m:^)",
    "(?m:$)",
    "(?-u:\\b)",
    "(?-u:\\B)",
    "\\b{start}",
    "\\b{end-half}",
    "",
];

const REPETITIONS: &[&str] = &[
    "*", "+", "?", "*?", "+?", "??", "{2}", "{1,3}", "{0,2}?", "{2,}",
];

/// What a pattern may end with, so that no match ends before the text.
const ENDS: &[&str] = &["$", "\\z", "(?s:.)*$", " (\\S*)\\z"];

/// What texts are made of.
const PIECES: &[&[u8]] = &[
    b"a",
    b"a",
    b"b",
    b"b",
    b"c",
    b"x",
    b" ",
    b"=",
    b"-",
    b"1",
    b"\n",
    b"A",
    b"foo",
    b"ab",
    b"\xC3\xA9",
    b"\xE2\x98\x83",
    b"\xFF",
    b"\xE2",
    b"\x80",
    b"foo=1 ",
    b"zzzz",
];

/// One to three patterns.
pub fn patterns_of(alloc: Global, chance: &mut Chance) -> Result<Vec<String>, AllocError> {
    let mut patterns = Vec::new(alloc);
    for _ in 0..=chance.pick(&[0, 0, 0, 1, 2]) {
        let mut pattern = String::new(alloc);
        let is_bound = chance.below(4) == 0;
        pattern.push_str(if is_bound { "(?:" } else { "" })?;
        write_alternation(chance, 3, &mut pattern)?;
        if is_bound {
            pattern.push_str(")")?;
            pattern.push_str(chance.pick(ENDS))?;
        }
        patterns.push(pattern)?;
    }
    Ok(patterns)
}

fn write_alternation(
    chance: &mut Chance,
    depth: usize,
    out: &mut String,
) -> Result<(), AllocError> {
    write_sequence(chance, depth, out)?;
    for _ in 0..chance.pick(&[0, 0, 0, 1, 2]) {
        out.push_str("|")?;
        write_sequence(chance, depth, out)?;
    }
    Ok(())
}

fn write_sequence(chance: &mut Chance, depth: usize, out: &mut String) -> Result<(), AllocError> {
    for _ in 0..chance.pick(&[0, 1, 1, 2, 2, 3, 4]) {
        if chance.below(7) == 0 {
            out.push_str(chance.pick(ASSERTIONS))?;
        } else {
            write_repeated(chance, depth, out)?;
        }
    }
    Ok(())
}

fn write_repeated(chance: &mut Chance, depth: usize, out: &mut String) -> Result<(), AllocError> {
    if depth > 0 && chance.below(3) == 0 {
        out.push_str(chance.pick(&["(", "(", "(?:"]))?;
        write_alternation(chance, depth - 1, out)?;
        out.push_str(")")?;
    } else {
        let one = chance.pick(CHARACTERS);
        let is_word = one == "ab" || one == "foo";
        out.push_str(one)?;
        if is_word {
            return Ok(());
        }
    }
    if chance.below(3) == 0 {
        out.push_str(chance.pick(REPETITIONS))?;
    }
    Ok(())
}

/// A text of up to 30 pieces, or some hundred of them.
pub fn text_of(alloc: Global, chance: &mut Chance) -> Result<Vec<u8>, AllocError> {
    let mut text = Vec::new(alloc);
    let most = chance.pick(&[3, 10, 30, 30, 300]);
    for _ in 0..chance.below(most) {
        text.extend_from_slice(chance.pick(PIECES))?;
    }
    Ok(text)
}
