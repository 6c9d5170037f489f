//! The rows that a lazy DFA makes: each once, and none in a second search of the same haystack, whose answer they give.

use nfa_choice::dfa::{Cache, DFA, StopError};
use nfa_compiler::Compiler;
use nfa_engines::{Anchored, Input};
use std::test::Fail;

// The most bytes of a row, if it has few states.
const ROW: usize = 1200;

// A pattern, a text, the end of its match, and the number of rows. If rows were not found again, there would be a new
// one at each byte, or at each second one.
const ROWS: &[(&str, &str, Option<usize>, usize)] = &[
    ("a+b", "aaaaaaaaaaaaaaaaaaaaaaaaaaaaaaaaaaaaaaaa", None, 2),
    (
        "[ab]+c",
        "abbabaabbbaaababababbabababbbbabababbabab",
        None,
        2,
    ),
    (
        "(?:ab)+c",
        "ababababababababababababababababababababc",
        Some(41),
        5,
    ),
];

// The end of the match.
fn end_of(dfa: &DFA, cache: &mut Cache, text: &str) -> Result<Option<usize>, StopError> {
    let half = dfa.try_find_half(cache, Input::new(text.as_bytes()))?;
    Ok(half.map(|half| half.offset()))
}

#[test]
fn a_lazy_dfa_makes_each_row_once(rt: HostRuntime) -> Result<(), Fail> {
    let alloc = rt.alloc();
    for &(pattern, text, end, rows) in ROWS {
        let dfa = DFA::new(Compiler::new().build(alloc, pattern)?)?;
        let mut cache = dfa.create_cache(alloc)?;
        assert_eq!(rt; end_of(&dfa, &mut cache, text)?, end, "{pattern}");
        let taken = cache.memory_usage();
        assert!(rt; taken <= rows * ROW, "{pattern}: {taken} bytes");
        // Another search of the same text makes no row.
        assert_eq!(rt; end_of(&dfa, &mut cache, text)?, end, "{pattern}");
        assert_eq!(rt; cache.memory_usage(), taken, "{pattern}");
        // A copy of the cache has the rows too.
        let mut copy = cache.clone()?;
        assert_eq!(rt; copy.memory_usage(), taken, "{pattern}");
        assert_eq!(rt; end_of(&dfa, &mut copy, text)?, end, "{pattern}");
        assert_eq!(rt; copy.memory_usage(), taken, "{pattern}");
    }
    Ok(())
}

#[test]
fn known_rows_give_the_answer(rt: HostRuntime) -> Result<(), Fail> {
    let alloc = rt.alloc();
    for &(pattern, text, end, _) in ROWS {
        let dfa = DFA::new(Compiler::new().build(alloc, pattern)?)?;
        // The only match begins at the start, so an anchored search has the same answer.
        for anchored in [Anchored::No, Anchored::Yes].iter() {
            let mut cache = dfa.create_cache(alloc)?;
            let input = Input::new(text.as_bytes()).anchored(*anchored);
            assert_eq!(rt; dfa.known_answer(&cache, &input), None, "{pattern}");
            dfa.try_find_half(&mut cache, input)?;
            let known = dfa.known_answer(&cache, &input);
            let known = known.map(|half| half.map(|half| half.offset()));
            assert_eq!(rt; known, Some(end), "{pattern} {anchored:?}");
        }
    }
    Ok(())
}
