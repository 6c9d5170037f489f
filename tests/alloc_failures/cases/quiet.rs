//! Calls that make no request for memory, or a number of them that is known. Each stretch of such calls stands between
//! two requests of its own; `.ci/alloc_failures` has the numbers of those that lie between them.

use super::captures::first_byte;
use super::searches::{are_groups, found};
use super::{Seen, Wrong, engines, expect};
use nfa_choice::choose::Choice;
use nfa_engines::backtrack::{self, BoundedBacktracker, TryCapturesMatches};
use nfa_engines::error::SearchError;
use nfa_engines::iter::Searcher;
use nfa_engines::pikevm::{self, CapturesMatches, PikeVM};
use regex_search_core::MatchKind::All;
use regex_search_core::{Captures, Input, NonMaxUsize, PatternSet};
use std::alloc::Global;
use test_support::samples::parts;
use thompson_nfa::BuildError;

// What is searched: the first match and its slots are those of "ab".
const TWICE: &[u8] = b"ab ab";

const REFUSED: &str = "a refusal of what takes no memory";

fn granted<T: Drop>(answer: Result<T, SearchError>) -> Result<T, Wrong> {
    match answer {
        Ok(answer) => Ok(answer),
        Err(_) => Err(Wrong(REFUSED)),
    }
}

/// The first search makes room, and the others take what there is.
pub fn warm_backtracker(alloc: Global, seen: &mut Seen) -> Result<(), Wrong> {
    let engine = engines::backtracker(alloc, seen, "groups")?;
    let mut cache = engine.create_cache(alloc);
    expect_warm(alloc, seen, &engine, &mut cache)
}

fn expect_warm(
    alloc: Global,
    seen: &mut Seen,
    engine: &BoundedBacktracker,
    cache: &mut backtrack::Cache,
) -> Result<(), Wrong> {
    let mut captures = engines::backtracker_captures(alloc, seen, engine)?;
    expect_warm_with(alloc, seen, engine, cache, &mut captures)
}

fn expect_warm_with(
    alloc: Global,
    seen: &mut Seen,
    engine: &BoundedBacktracker,
    cache: &mut backtrack::Cache,
    captures: &mut Captures,
) -> Result<(), Wrong> {
    let first = found(seen, engine, cache, TWICE)?;
    expect(first.map(parts) == Some((0, 0, 2)), "the first match")?;
    seen.opens(alloc, "warm searches of the backtracker");
    let searched = expect_tries(alloc, engine, cache, captures);
    seen.closes(alloc, "warm searches of the backtracker");
    searched
}

fn expect_tries(
    alloc: Global,
    engine: &BoundedBacktracker,
    cache: &mut backtrack::Cache,
    captures: &mut Captures,
) -> Result<(), Wrong> {
    let input = Input::new(TWICE);
    let mut slots = [NonMaxUsize::new(7); 6];
    let pattern = granted(engine.try_search_slots(cache, &input, &mut slots))?;
    expect(are_groups(pattern, &slots), "the slots of a warm search")?;
    let found = granted(engine.try_find(cache, input))?;
    expect(found.map(parts) == Some((0, 0, 2)), "the warm match")?;
    // A reset keeps the memory of the marks.
    engine.reset_cache(cache);
    let is_match = granted(engine.try_is_match(cache, input))?;
    expect(is_match, "whether there is a warm match")?;
    granted(engine.try_search(cache, &input, captures))?;
    granted(engine.try_captures(cache, input, captures))?;
    let caught = are_groups(captures.pattern(), captures.slots());
    expect(caught, "the captures of a warm search")?;
    expect(count_tries(engine, cache) == 2, "the list of a warm cache")?;
    let none = granted(engine.try_find_all(alloc, cache, Input::new(b"...")))?;
    expect(none.is_empty(), "a list of a warm cache without a match")
}

// How many matches there are, up to an error.
fn count_tries(engine: &BoundedBacktracker, cache: &mut backtrack::Cache) -> usize {
    let mut count = 0;
    for found in engine.try_find_iter(cache, Input::new(TWICE)) {
        if found.is_ok() {
            count = usize::saturating_add(count, 1);
        }
    }
    count
}

/// The same of the engine that chooses.
pub fn warm_choice(alloc: Global, seen: &mut Seen) -> Result<(), Wrong> {
    let mut choice = engines::choice(alloc, seen, "groups")?;
    expect_warm_choice(alloc, seen, &mut choice)
}

fn expect_warm_choice(alloc: Global, seen: &mut Seen, choice: &mut Choice) -> Result<(), Wrong> {
    let mut captures = engines::captures(alloc, seen, choice.get_nfa().group_info())?;
    let first = choice.find(Input::new(TWICE)).map(parts);
    expect(first == Some((0, 0, 2)), "the first chosen match")?;
    seen.opens(alloc, "warm searches of the choice");
    let searched = expect_chosen(choice, &mut captures);
    seen.closes(alloc, "warm searches of the choice");
    searched
}

fn expect_chosen(choice: &mut Choice, captures: &mut Captures) -> Result<(), Wrong> {
    let input = Input::new(TWICE);
    let mut slots = [NonMaxUsize::new(7); 6];
    let pattern = choice.search_slots(&input, &mut slots);
    expect(are_groups(pattern, &slots), "the slots of a warm choice")?;
    let found = choice.find(input).map(parts);
    expect(found == Some((0, 0, 2)), "the match of a warm choice")?;
    expect(choice.is_match(input), "whether a warm choice matches")?;
    choice.search(&input, captures);
    let caught = are_groups(captures.pattern(), captures.slots());
    expect(caught, "the captures of a warm choice")?;
    let earliest = choice.find(input.earliest(true)).is_some();
    expect(earliest, "the earliest match of a warm choice")?;
    expect(
        choice.find_iter(input).count() == 2,
        "the list of a warm choice",
    )
}

/// Searches of the other kind, over a text that is longer than any other here, and sets of several patterns.
pub fn piked_in_all(alloc: Global, seen: &mut Seen) -> Result<(), Wrong> {
    let vm = engines::pikevm_of_kind(alloc, seen, "foo_bar", All)?;
    expect_all(alloc, seen, &vm)
}

fn expect_all(alloc: Global, seen: &mut Seen, vm: &PikeVM) -> Result<(), Wrong> {
    let mut cache = engines::threads(alloc, seen, vm)?;
    expect_all_with(alloc, seen, vm, &mut cache)
}

fn expect_all_with(
    alloc: Global,
    seen: &mut Seen,
    vm: &PikeVM,
    cache: &mut pikevm::Cache,
) -> Result<(), Wrong> {
    let mut set = engines::set(alloc, seen, 4)?;
    seen.opens(alloc, "searches of a PikeVM for all");
    let searched = expect_long(alloc, vm, cache);
    let found = expect_set(vm, cache, &mut set);
    seen.closes(alloc, "searches of a PikeVM for all");
    searched?;
    found
}

const LONG: &[u8] = &[b'.'; 1500];

fn expect_long(alloc: Global, vm: &PikeVM, cache: &mut pikevm::Cache) -> Result<(), Wrong> {
    let mut slots = [NonMaxUsize::new(7); 8];
    if !cache.fits(vm) {
        return Err(Wrong("a cache that does not fit"));
    }
    let pattern = vm.search_slots(cache, &Input::new(LONG), &mut slots);
    expect(pattern.is_none(), "a pattern in a long text")?;
    if !cache.fits(vm) {
        return Err(Wrong("a cache that fits no more"));
    }
    expect(
        vm.find_iter(cache, Input::new(LONG)).count() == 0,
        "matches in a long text",
    )?;
    expect_no_list(alloc, vm, cache)
}

// A list without an item takes no memory.
fn expect_no_list(alloc: Global, vm: &PikeVM, cache: &mut pikevm::Cache) -> Result<(), Wrong> {
    if !cache.fits(vm) {
        return Err(Wrong("a cache that fits no more"));
    }
    let none = granted(vm.find_all(alloc, cache, Input::new(LONG)))?;
    expect(none.is_empty(), "a list of matches in a long text")
}

// The patterns 0, 1 and 3 match somewhere in the text, and the long one has none.
fn expect_set(vm: &PikeVM, cache: &mut pikevm::Cache, set: &mut PatternSet) -> Result<(), Wrong> {
    for &(text, len) in &[(LONG, 0), (b"foobar".as_slice(), 3)] {
        if !cache.fits(vm) {
            return Err(Wrong("a cache that fits no more"));
        }
        vm.which_overlapping_matches(cache, &Input::new(text), set);
        expect(set.len() == len, "a set of overlapping matches")?;
    }
    Ok(())
}

/// A cache of a PikeVM has seven tables and two boxes; one of a backtracker has nothing before a search. A reset for the
/// same engine takes no memory.
pub fn new_caches(alloc: Global, seen: &mut Seen) -> Result<(), Wrong> {
    let vm = engines::pikevm(alloc, seen, "groups")?;
    expect_threads(alloc, seen, &vm)?;
    let engine = engines::backtracker(alloc, seen, "groups")?;
    expect_marks(alloc, seen, &engine)
}

fn expect_threads(alloc: Global, seen: &mut Seen, vm: &PikeVM) -> Result<(), Wrong> {
    seen.opens(alloc, "a cache of a PikeVM");
    let made = vm.create_cache(alloc);
    seen.closes(alloc, "a cache of a PikeVM");
    match made {
        Ok(mut cache) => expect_reset(alloc, seen, vm, &mut cache),
        Err(error) => seen.note(error == SearchError::Memory),
    }
}

fn expect_reset(
    alloc: Global,
    seen: &mut Seen,
    vm: &PikeVM,
    cache: &mut pikevm::Cache,
) -> Result<(), Wrong> {
    seen.opens(alloc, "a second reset");
    let reset = vm.reset_cache(cache);
    seen.closes(alloc, "a second reset");
    granted(reset)?;
    expect_no_captures(alloc, seen, vm, cache)
}

// Where there is no match, the captures that are searched with are all that takes memory.
fn expect_no_captures(
    alloc: Global,
    seen: &mut Seen,
    vm: &PikeVM,
    cache: &mut pikevm::Cache,
) -> Result<(), Wrong> {
    if !cache.fits(vm) {
        return Err(Wrong("a cache after a second reset"));
    }
    seen.opens(alloc, "all captures of no match");
    let made = vm.captures_all(alloc, cache, Input::new(LONG));
    seen.closes(alloc, "all captures of no match");
    match made {
        Ok(none) => expect(none.is_empty(), "captures of no match"),
        Err(error) => seen.note(error == SearchError::Memory),
    }
}

// The first search takes marks and a stack.
fn expect_marks(alloc: Global, seen: &mut Seen, engine: &BoundedBacktracker) -> Result<(), Wrong> {
    seen.opens(alloc, "a cache of a backtracker");
    let mut cache = engine.create_cache(alloc);
    engine.reset_cache(&mut cache);
    seen.closes(alloc, "a cache of a backtracker");
    expect_first(alloc, seen, engine, &mut cache)
}

fn expect_first(
    alloc: Global,
    seen: &mut Seen,
    engine: &BoundedBacktracker,
    cache: &mut backtrack::Cache,
) -> Result<(), Wrong> {
    seen.opens(alloc, "the first search of the backtracker");
    let is_match = engine.try_is_match(cache, Input::new(TWICE));
    seen.closes(alloc, "the first search of the backtracker");
    match is_match {
        Ok(is_match) => expect(is_match, "whether there is a first match"),
        Err(error) => seen.note(error == SearchError::Memory),
    }
}

/// An iterator that is made has searched nothing, and takes no memory but that of captures that it makes.
pub fn iterators(alloc: Global, seen: &mut Seen) -> Result<(), Wrong> {
    let vm = engines::pikevm(alloc, seen, "groups")?;
    make_piked(alloc, seen, &vm)?;
    let engine = engines::backtracker(alloc, seen, "groups")?;
    make_backtracked(alloc, seen, &engine)?;
    chosen_iterators(alloc, seen)
}

fn chosen_iterators(alloc: Global, seen: &mut Seen) -> Result<(), Wrong> {
    let mut choice = engines::choice(alloc, seen, "groups")?;
    make_chosen(alloc, seen, &mut choice);
    Ok(())
}

fn make_piked(alloc: Global, seen: &mut Seen, vm: &PikeVM) -> Result<(), Wrong> {
    let mut cache = engines::threads(alloc, seen, vm)?;
    make_piked_with(alloc, seen, vm, &mut cache)
}

fn make_piked_with(
    alloc: Global,
    seen: &mut Seen,
    vm: &PikeVM,
    cache: &mut pikevm::Cache,
) -> Result<(), Wrong> {
    if !cache.fits(vm) {
        return Err(Wrong("a cache that does not fit"));
    }
    seen.opens(alloc, "iterators of a PikeVM");
    let _matches = vm.find_iter(cache, Input::new(TWICE));
    seen.closes(alloc, "iterators of a PikeVM");
    make_captures(alloc, seen, vm, cache)?;
    make_piked_captures(alloc, seen, vm, cache)
}

fn make_captures(
    alloc: Global,
    seen: &mut Seen,
    vm: &PikeVM,
    cache: &mut pikevm::Cache,
) -> Result<(), Wrong> {
    if !cache.fits(vm) {
        return Err(Wrong("a cache that fits no more"));
    }
    seen.opens(alloc, "an iterator of a PikeVM that makes captures");
    let made = vm.captures_iter(alloc, cache, Input::new(TWICE));
    seen.closes(alloc, "an iterator of a PikeVM that makes captures");
    match made {
        Ok(_items) => Ok(()),
        Err(error) => seen.note(error == SearchError::Memory),
    }
}

// Captures have names, those of one pattern, and slots. An iterator makes as much where it makes them.
fn make_piked_captures(
    alloc: Global,
    seen: &mut Seen,
    vm: &PikeVM,
    cache: &mut pikevm::Cache,
) -> Result<(), Wrong> {
    if !cache.fits(vm) {
        return Err(Wrong("a cache that fits no more"));
    }
    seen.opens(alloc, "captures of a PikeVM");
    let made = vm.create_captures(alloc);
    seen.closes(alloc, "captures of a PikeVM");
    match made {
        Ok(captures) => {
            seen.opens(alloc, "an iterator with captures");
            let mut items = vm.captures_iter_with(cache, Input::new(TWICE), captures);
            seen.closes(alloc, "an iterator with captures");
            expect_item(alloc, seen, &mut items)
        }
        Err(error) => seen.note(error == SearchError::Memory),
    }
}

// An item is one copy of the captures.
fn expect_item(
    alloc: Global,
    seen: &mut Seen,
    items: &mut CapturesMatches<'_, '_, '_>,
) -> Result<(), Wrong> {
    seen.opens(alloc, "an item of captures");
    let item = items.next();
    seen.closes(alloc, "an item of captures");
    match item {
        Some(Ok(caught)) => {
            let caught = are_groups(caught.pattern(), caught.slots());
            expect(caught, "the captures of an item")
        }
        Some(Err(error)) => seen.note(error == SearchError::Memory),
        None => Err(Wrong("no item")),
    }
}

fn make_backtracked(
    alloc: Global,
    seen: &mut Seen,
    engine: &BoundedBacktracker,
) -> Result<(), Wrong> {
    let mut cache = engine.create_cache(alloc);
    make_backtracked_with(alloc, seen, engine, &mut cache)
}

fn make_backtracked_with(
    alloc: Global,
    seen: &mut Seen,
    engine: &BoundedBacktracker,
    cache: &mut backtrack::Cache,
) -> Result<(), Wrong> {
    seen.opens(alloc, "iterators of a backtracker");
    let _matches = engine.try_find_iter(cache, Input::new(TWICE));
    seen.closes(alloc, "iterators of a backtracker");
    make_backtracked_captures(alloc, seen, engine, cache)
}

fn make_backtracked_captures(
    alloc: Global,
    seen: &mut Seen,
    engine: &BoundedBacktracker,
    cache: &mut backtrack::Cache,
) -> Result<(), Wrong> {
    seen.opens(alloc, "an iterator that makes captures");
    let made = engine.try_captures_iter(alloc, cache, Input::new(TWICE));
    seen.closes(alloc, "an iterator that makes captures");
    match made {
        Ok(mut items) => expect_caught(alloc, seen, &mut items),
        Err(error) => seen.note(error == SearchError::Memory),
    }
}

// The first search makes room. The second item is one copy of the captures.
fn expect_caught(
    alloc: Global,
    seen: &mut Seen,
    items: &mut TryCapturesMatches<'_, '_, '_>,
) -> Result<(), Wrong> {
    match items.next() {
        Some(Ok(caught)) => {
            let caught = are_groups(caught.pattern(), caught.slots());
            expect(caught, "the captures of a first item")?;
            expect_second(alloc, seen, items)
        }
        Some(Err(error)) => seen.note(error == SearchError::Memory),
        None => Err(Wrong("no first item")),
    }
}

fn expect_second(
    alloc: Global,
    seen: &mut Seen,
    items: &mut TryCapturesMatches<'_, '_, '_>,
) -> Result<(), Wrong> {
    seen.opens(alloc, "an item of captures of a backtracker");
    let item = items.next();
    seen.closes(alloc, "an item of captures of a backtracker");
    match item {
        Some(Ok(caught)) => expect(caught.is_match(), "the captures of a second item"),
        Some(Err(error)) => seen.note(error == SearchError::Memory),
        None => Err(Wrong("no second item")),
    }
}

/// An item of a finder is one copy too.
pub fn finders_item(alloc: Global, seen: &mut Seen) -> Result<(), Wrong> {
    let vm = engines::pikevm(alloc, seen, "groups")?;
    expect_finder(alloc, seen, &vm)
}

fn expect_finder(alloc: Global, seen: &mut Seen, vm: &PikeVM) -> Result<(), Wrong> {
    let captures = engines::captures(alloc, seen, vm.get_nfa().group_info())?;
    expect_found(alloc, seen, captures)
}

fn expect_found(alloc: Global, seen: &mut Seen, captures: Captures) -> Result<(), Wrong> {
    let mut items = Searcher::new(Input::new(TWICE)).into_captures_iter(captures, first_byte);
    seen.opens(alloc, "an item of captures of a finder");
    let item = items.next();
    seen.closes(alloc, "an item of captures of a finder");
    match item {
        Some(Ok(caught)) => expect(caught.is_match(), "the captures of a finder's item"),
        Some(Err(error)) => seen.note(error == SearchError::Memory),
        None => Err(Wrong("no item of a finder")),
    }
}

fn make_chosen(alloc: Global, seen: &mut Seen, choice: &mut Choice) {
    seen.opens(alloc, "iterators of a choice");
    let _matches = choice.find_iter(Input::new(TWICE));
    seen.closes(alloc, "iterators of a choice");
}

/// If the cache of the PikeVM fits, a replacement only copies the NFA, also after a search.
pub fn replacement(alloc: Global, seen: &mut Seen) -> Result<(), Wrong> {
    let mut choice = engines::choice(alloc, seen, "groups")?;
    expect_replaced(alloc, seen, &mut choice)?;
    expect_replaced_again(alloc, seen, &mut choice)
}

fn expect_replaced_again(alloc: Global, seen: &mut Seen, choice: &mut Choice) -> Result<(), Wrong> {
    let nfa = engines::nfa(alloc, seen, "groups")?;
    let first = choice.find(Input::new(TWICE)).map(parts);
    expect(first == Some((0, 0, 2)), "the match before a replacement")?;
    seen.opens(alloc, "a replacement after a search");
    let replaced = choice.replace(nfa);
    seen.closes(alloc, "a replacement after a search");
    match replaced {
        Ok(()) => Ok(()),
        Err(error) => seen.note(error == SearchError::Memory),
    }
}

fn expect_replaced(alloc: Global, seen: &mut Seen, choice: &mut Choice) -> Result<(), Wrong> {
    let nfa = engines::nfa(alloc, seen, "groups")?;
    seen.opens(alloc, "a copy of an NFA");
    let copy = nfa.clone();
    seen.closes(alloc, "a copy of an NFA");
    if let Err(error) = copy {
        return seen.note(error == BuildError::Memory);
    }
    seen.opens(alloc, "a replacement");
    let replaced = choice.replace(nfa);
    seen.closes(alloc, "a replacement");
    match replaced {
        Ok(()) => expect(
            choice.find(Input::new(TWICE)).is_some(),
            "the match after a replacement",
        ),
        Err(error) => seen.note(error == SearchError::Memory),
    }
}
