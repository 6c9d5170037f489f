//! The same answers as the crate `regex`, on random questions: `peer [COUNT]`. Prints "rust: passed: COUNT questions",
//! or the first question with two answers.
use std::fmt::Debug;
use std::process::exit;

/// Random numbers, the same in each run.
struct Source(u64);

impl Source {
    fn below(&mut self, limit: usize) -> usize {
        self.0 ^= self.0 << 13;
        self.0 ^= self.0 >> 7;
        self.0 ^= self.0 << 17;
        (self.0 >> 11) as usize % limit
    }

    fn one<'a>(&mut self, of: &[&'a str]) -> &'a str {
        of[self.below(of.len())]
    }

    /// A part of a pattern. What is repeated matches no empty text, since versions of `regex` differ in empty rounds.
    fn piece(&mut self, depth: usize) -> String {
        match self.below(if depth == 0 { 3 } else { 7 }) {
            0..=2 => self.one(&ATOMS).to_owned(),
            3 => (0..self.below(3) + 1).map(|_| self.piece(depth - 1)).collect(),
            4 => format!("(?:{}|{})", self.piece(depth - 1), self.piece(depth - 1)),
            5 => format!("({})", self.piece(depth - 1)),
            _ => format!("{}{}", self.one(&REPEATED), self.one(&REPEATS)),
        }
    }

    fn text(&mut self) -> String {
        (0..self.below(12)).map(|_| self.one(&LETTERS)).collect()
    }
}

const ATOMS: [&str; 23] = [
    "a", "b", "c", "é", "ab", ".", "[ab]", "[^a]", "[[:alpha:]]", r"\w", r"\W", r"\d", r"\s", r"\pL", "(?i)B", "(?i:é)",
    "(?s:.)", "^", "$", r"\b", r"\A", r"\z", "",
];
const REPEATED: [&str; 9] = ["a", "b", "[ab]", r"\w", "é", "(?:ab)", "(?:a|bc)", "(b)", "(a|é)"];
const REPEATS: [&str; 9] = ["*", "+", "?", "*?", "+?", "??", "{2}", "{1,2}", "{0,3}?"];
const LETTERS: [&str; 10] = ["a", "b", "c", "A", "B", "é", "É", "1", " ", "\n"];
const TEMPLATES: [&str; 5] = ["", "-", "[$0]", "$1x", "${1}x$$"];

/// Ends with the question, unless both have the same answer.
fn same<A: PartialEq + Debug>(ours: A, theirs: A, question: impl FnOnce() -> String) {
    if ours != theirs {
        println!("{} has the answer {ours:?}, and of regex {theirs:?}", question());
        exit(1);
    }
}

macro_rules! asks {
    ($name:ident, $hay:ty, $ours:path, $theirs:path, $own:ident, $other:ident) => {
        /// Asks both for all that they find.
        fn $name(pattern: &str, hay: &$hay, start: usize, limit: usize, template: &$hay) {
            use $other as other;
            use $own as own;
            let (ours, theirs) = match (<$ours>::new(pattern), <$theirs>::new(pattern)) {
                (Ok(ours), Ok(theirs)) => (ours, theirs),
                (ours, theirs) => return same(ours.is_ok(), theirs.is_ok(), || format!("new({pattern:?})")),
            };
            let of = |call: &str| format!("{call} of {pattern:?} in {hay:?} from {start}, {limit} times");
            let slots = |groups: &own::Captures| groups.iter().map(|m| m.map(|m| m.range())).collect::<Vec<_>>();
            let their = |groups: &other::Captures| groups.iter().map(|m| m.map(|m| m.range())).collect::<Vec<_>>();
            same(ours.captures_len(), theirs.captures_len(), || of("captures_len"));
            same(ours.is_match_at(hay, start), theirs.is_match_at(hay, start), || of("is_match_at"));
            let (m, n) = (ours.find_at(hay, start), theirs.find_at(hay, start));
            same(m.map(|m| m.range()), n.map(|m| m.range()), || of("find_at"));
            same(ours.captures(hay).map(|g| slots(&g)), theirs.captures(hay).map(|g| their(&g)), || of("captures"));
            let (all, found) = (ours.find_iter(hay), theirs.find_iter(hay));
            same(all.map(|m| m.range()).collect::<Vec<_>>(), found.map(|m| m.range()).collect(), || of("find_iter"));
            let (all, found) = (ours.captures_iter(hay), theirs.captures_iter(hay));
            let theirs_all: Vec<_> = found.map(|g| their(&g)).collect();
            same(all.map(|g| slots(&g)).collect::<Vec<_>>(), theirs_all, || of("captures_iter"));
            same(ours.split(hay).collect::<Vec<_>>(), theirs.split(hay).collect(), || of("split"));
            let (pieces, parts) = (ours.splitn(hay, limit), theirs.splitn(hay, limit));
            same(pieces.collect::<Vec<_>>(), parts.collect(), || of("splitn"));
            same(ours.replacen(hay, limit, template), theirs.replacen(hay, limit, template), || of("replacen"));
        }
    };
}

mod bytes {
    pub use nfa_engines::Captures;
}

mod strings {
    pub use nfa_engines::string::Captures;
}

use regex::bytes as regex_bytes;
asks!(ask_bytes, [u8], nfa_engines::Regex, regex::bytes::Regex, bytes, regex_bytes);
asks!(ask_string, str, nfa_engines::string::Regex, regex::Regex, strings, regex);

/// Asks both which of three patterns match.
fn ask_set(patterns: &[String], hay: &str) {
    let (ours, theirs) = (nfa_engines::string::RegexSet::new(patterns), regex::RegexSet::new(patterns));
    if let (Ok(ours), Ok(theirs)) = (ours, theirs) {
        let (found, wanted) = (ours.matches(hay), theirs.matches(hay));
        let said = || format!("matches of {patterns:?} in {hay:?}");
        same(found.iter().collect::<Vec<_>>(), wanted.iter().collect(), said);
    }
}

fn main() {
    let count = std::env::args().nth(1).map_or(100_000, |count| count.parse().expect("a number"));
    let mut source = Source(0x9E37_79B9_7F4A_7C15);
    for question in 0..count {
        let pattern = source.piece(3);
        let hay = source.text();
        let (starts, limit) = (hay.char_indices().map(|(at, _)| at).chain([hay.len()]), source.below(4));
        let start = starts.clone().nth(source.below(starts.count())).expect("a start");
        let template = source.one(&TEMPLATES);
        let ascii = format!("(?-u){pattern}");
        match question % 4 {
            0 => ask_string(&pattern, &hay, start, limit, template),
            1 => ask_set(&[pattern, source.piece(2), source.piece(1)], &hay),
            // A letter that is not ASCII is refused by `regex` before 1.9.
            2 if pattern.is_ascii() => ask_bytes(&ascii, hay.as_bytes(), start, limit, template.as_bytes()),
            _ => ask_bytes(&pattern, hay.as_bytes(), start, limit, template.as_bytes()),
        }
    }
    println!("rust: passed: {count} questions");
}
