//! Caches with room for few rows. They stay within their capacity, and a search clears them as often as it may. If it
//! needs still more rows, it gives up, and a hybrid then runs the PikeVM.

use super::pair::Pair;
use nfa_choice::dfa::{Cache, Config, DFA, StopError};
use nfa_compiler::Compiler;
use nfa_engines::Input;
use std::test::Fail;
use test_support::TestRuntime;

// The capacity of a cache in bytes: room for at most seven rows of one state.
const CAPACITY: usize = 8400;

// The bytes of a row, without the 4 for each of its states.
const ROW: usize = 1120;

// Texts of 36 bytes. As a pattern, each leads to new states at each byte, so its scan needs 37 rows.
const ASCII: &str = "abcdefghijklmnopqrstuvwxyz0123456789";

const CYRILLIC: &str = "абвгдежзийклмнопрс";

// A pattern, a text, how often a search may clear its cache, and whether it gives up. There is room for at most seven
// rows between clears. With seven clears, there is room for more than 37 rows even if each has all states.
const FULL: &[(&str, &str, Option<usize>, bool)] = &[
    (ASCII, ASCII, Some(0), true),
    (ASCII, ASCII, Some(1), true),
    (ASCII, ASCII, Some(2), true),
    (ASCII, ASCII, Some(3), true),
    (ASCII, ASCII, Some(4), true),
    (ASCII, ASCII, Some(7), false),
    (ASCII, ASCII, None, false),
    (CYRILLIC, CYRILLIC, Some(0), true),
    (CYRILLIC, CYRILLIC, Some(4), true),
    (CYRILLIC, CYRILLIC, Some(7), false),
    // Few rows are enough for any text.
    ("[a-z]+", ASCII, Some(0), false),
    ("[^a]+9", ASCII, Some(0), false),
];

// The first and the last offset at which a search with a new cache may give up. It has then filled the cache once more
// than it may clear it: with the fewest rows if each has all states, with the most if each has one. It makes at most
// one row more than steps, and needs a row at each offset if the text is the pattern.
fn offsets_of(dfa: &DFA, clears: usize) -> (usize, usize) {
    let times = clears + 1;
    let least = CAPACITY / (ROW + dfa.get_nfa().states().len() * 4);
    let most = CAPACITY / (ROW + 4);
    (times * least - 2, times * most)
}

// The search gives up at one of these offsets, or answers if there are none.
fn expect_search(
    rt: &impl TestRuntime,
    dfa: &DFA,
    cache: &mut Cache,
    text: &str,
    offsets: Option<(usize, usize)>,
) {
    let found = dfa.try_find_half(cache, Input::new(text.as_bytes()));
    let taken = cache.memory_usage();
    assert!(rt; taken <= CAPACITY, "{taken} bytes");
    let ends_so = match (&found, offsets) {
        (Ok(_), None) => true,
        (Err(StopError::GaveUp { offset }), Some((low, high))) => {
            low <= *offset && *offset <= high
        }
        _ => false,
    };
    assert!(rt; ends_so, "{found:?}, not {offsets:?}");
}

#[test]
fn full_caches_are_cleared_as_often_as_they_may_be(rt: HostRuntime) -> Result<(), Fail> {
    for &(pattern, text, clears, gives_up) in FULL {
        let nfa = Compiler::new().build(rt.alloc(), pattern)?;
        let config = Config::new()
            .cache_capacity(CAPACITY)
            .minimum_cache_clear_count(clears);

        // The hybrid answers as the PikeVM does. The answers are the lazy DFA's unless it gives up.
        let mut pair = Pair::new(&rt, &nfa, config);
        pair.expect_same(&rt, &Input::new(text.as_bytes()));
        let counts = if gives_up { (0, 2) } else { (2, 0) };
        assert_eq!(rt; pair.counts(), counts, "{pattern} {clears:?}");

        // A search with a new cache, two more with the same cache, and one after a reset.
        let dfa = DFA::builder().configure(config).build_from_nfa(nfa)?;
        let mut cache = dfa.create_cache(rt.alloc())?;
        let offsets = match clears {
            Some(clears) if gives_up => Some(offsets_of(&dfa, clears)),
            _ => None,
        };
        expect_search(&rt, &dfa, &mut cache, text, offsets);
        let later = offsets.map(|(_, high)| (0, high));
        expect_search(&rt, &dfa, &mut cache, text, later);
        expect_search(&rt, &dfa, &mut cache, text, later);
        cache.reset(&dfa);
        assert_eq!(rt; cache.memory_usage(), 0);
        expect_search(&rt, &dfa, &mut cache, text, offsets);
    }
    Ok(())
}
