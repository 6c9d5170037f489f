//! Assertions about the answers of both engines.

use regex_search_core::Input;
use test_support::TestRuntime;
use test_support::engines::Engines;

/// What both engines search for.
#[derive(Clone, Copy, Debug)]
pub enum Ask {
    /// All slots of the NFA.
    AllSlots,
    /// This number of slots.
    Slots(usize),
    /// The first match.
    Match,
    /// The end of the first match.
    Half,
    /// All matches, each followed by a comma and a space.
    List,
}

/// Both engines of the sample of this name.
pub fn engines_of(rt: &impl TestRuntime, name: &str) -> Engines {
    Engines::of_sample(rt.alloc(), name).expect(rt, name)
}

/// Both engines of the sample of this name give this answer.
pub fn expect_answer(rt: &impl TestRuntime, name: &str, input: Input<'_>, ask: Ask, want: &str) {
    let mut engines = engines_of(rt, name);
    expect_answer_of(rt, &mut engines, name, input, ask, want);
}

/// Both engines give this answer. A failure shows the name.
pub fn expect_answer_of(
    rt: &impl TestRuntime,
    engines: &mut Engines,
    name: &str,
    input: Input<'_>,
    ask: Ask,
    want: &str,
) {
    let (alloc, all) = (rt.alloc(), engines.slot_len());
    let texts = match ask {
        Ask::AllSlots => engines.slots_texts(alloc, &input, all),
        Ask::Slots(slot_len) => engines.slots_texts(alloc, &input, slot_len),
        Ask::Match => engines.match_texts(alloc, input),
        Ask::Half => engines.half_texts(alloc, input),
        Ask::List => engines.list_texts(alloc, input),
    };
    let [first, second] = texts.expect(rt, "memory");
    assert_eq!(rt; first.as_str(), want, "the backtracker, {name} {input:?}");
    assert_eq!(rt; second.as_str(), want, "the PikeVM, {name} {input:?}");
}

/// Both say whether there is a match. A failure shows the name.
pub fn expect_is_match(
    rt: &impl TestRuntime,
    engines: &mut Engines,
    name: &str,
    input: Input<'_>,
    want: bool,
) {
    let found = engines.are_matches(input).expect(rt, "an answer");
    assert_eq!(rt; found, [want; 2], "{name} {input:?}");
}
