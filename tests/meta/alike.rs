//! A regex beside a choice, and a set beside a choice of the kind `All`, over random patterns and texts. `notes/alike`
//! runs more of them, from other seeds.

use crate::tests::written::{Chance, patterns_of, text_of};
use nfa_choice::choose::Choice;
use nfa_compiler::Compiler;
use nfa_engines::{
    Anchored, Input, Match, MatchKind, NonMaxUsize, PatternID, PatternSet, backtrack, pikevm,
};
use nfa_meta::{Config, Regex, RegexSet};
use std::test::Fail;
use test_support::TestRuntime;

/// How many texts each of them searches.
const TEXTS: usize = 4;

// Engines for the same patterns, and the patterns, for what is said if they differ.
#[derive(Drop)]
struct Pair<'p> {
    regex: Regex,
    choice: Choice,
    set: RegexSet,
    all: Choice,
    patterns: &'p [&'p str],
}

fn settings(chance: &mut Chance) -> Config {
    let config = Regex::config().utf8(chance.below(3) != 0);
    match chance.below(3) {
        0 => config.hybrid_cache_capacity(6_000),
        1 => config.hybrid_cache_capacity(100_000),
        _ => config,
    }
}

// Returns `None` if the texts are no patterns, or match bytes that are not UTF-8 where they must not.
fn pair_of<'p>(
    rt: &impl TestRuntime,
    config: Config,
    patterns: &'p [&'p str],
) -> Result<Option<Pair<'p>>, Fail> {
    let builder = Regex::builder().configure(config);
    let Ok(regex) = builder.build_many(rt.alloc(), patterns) else {
        return Ok(None);
    };
    let of_nfa = nfa_compiler::Config::new().utf8(config.utf8);
    let nfa = Compiler::new()
        .configure(of_nfa)
        .build_many(rt.alloc(), patterns)?;
    let set = builder.build_set(rt.alloc(), patterns)?;
    let (back, pike) = (backtrack::Config::new(), pikevm::Config::new());
    let of_all = pikevm::Config::new().match_kind(MatchKind::All);
    let all = Choice::new(rt.alloc(), nfa.clone()?, back, of_all)?;
    let choice = Choice::new(rt.alloc(), nfa, back, pike)?;
    Ok(Some(Pair {
        regex,
        choice,
        set,
        all,
        patterns,
    }))
}

// A search of the text, or of a part of it, as likely as not with other settings.
fn search_of<'h>(chance: &mut Chance, text: &'h [u8]) -> Input<'h> {
    let mut input = Input::new(text);
    match chance.below(4) {
        0 | 1 => {
            let end = chance.below(text.len() + 1);
            input = input.range(chance.below(end + 1)..end);
        }
        2 => input = input.range(chance.below(text.len() + 1)..text.len()),
        _ => {}
    }
    match chance.below(6) {
        0 => input.anchored(Anchored::Yes),
        1 => input.anchored(Anchored::Pattern(PatternID::new(0).unwrap())),
        2 => input.earliest(true),
        _ => input,
    }
}

impl Pair<'_> {
    // Both give the same match and half match, and whether there is one.
    fn expect_same_matches(&mut self, rt: &impl TestRuntime, input: Input<'_>) {
        let patterns = self.patterns;
        let wanted = self.choice.find(input);
        assert_eq!(rt; self.regex.find(input), wanted, "{patterns:?} {input:?}");
        let is_match = self.regex.is_match(input);
        assert_eq!(rt;
            is_match,
            self.choice.is_match(input),
            "{patterns:?} {input:?}"
        );
        let half = self.regex.find_half(input);
        assert_eq!(rt;
            half,
            self.choice.find_half(input),
            "{patterns:?} {input:?}"
        );
    }

    // Both write the same slots, also if there is room for a part of them only.
    fn expect_same_slots(&mut self, rt: &impl TestRuntime, input: &Input<'_>, count: usize) {
        let patterns = self.patterns;
        let mut found = [NonMaxUsize::new(7); 12];
        let mut wanted = [None; 12];
        let pattern = self.regex.search_slots(input, &mut found[..count]);
        let other = self.choice.search_slots(input, &mut wanted[..count]);
        assert_eq!(rt; pattern, other, "{patterns:?} {input:?}");
        assert_eq!(rt; found[..count], wanted[..count], "{patterns:?} {input:?}");
    }

    // Both fill a set alike.
    fn expect_same_set(&mut self, rt: &impl TestRuntime, input: &Input<'_>) -> Result<(), Fail> {
        let patterns = self.patterns;
        let mut found = PatternSet::new(rt.alloc(), patterns.len())?;
        let mut wanted = PatternSet::new(rt.alloc(), patterns.len())?;
        self.regex.which_overlapping_matches(input, &mut found);
        self.choice.which_overlapping_matches(input, &mut wanted);
        assert_eq!(rt; found.len(), wanted.len(), "{patterns:?} {input:?}");
        let same = wanted.iter().all(|pattern| found.contains(pattern));
        assert!(rt; same, "{patterns:?} {input:?}");
        Ok(())
    }

    // The set holds the same patterns as the choice of the kind `All`, and both find a match or none.
    fn expect_same_of_all(&mut self, rt: &impl TestRuntime, input: &Input<'_>) -> Result<(), Fail> {
        let patterns = self.patterns;
        let found = self.set.matches(rt.alloc(), input)?;
        let mut wanted = PatternSet::new(rt.alloc(), patterns.len())?;
        self.all.which_overlapping_matches(input, &mut wanted);
        for number in 0..patterns.len() {
            assert_eq!(rt;
                found.matched(number),
                wanted.contains_number(number),
                "{patterns:?} {input:?}"
            );
        }
        assert_eq!(rt;
            self.set.is_match(*input),
            self.all.is_match(*input),
            "{patterns:?} {input:?}"
        );
        Ok(())
    }

    // Both give the same list of matches, and of captures.
    fn expect_same_lists(&mut self, rt: &impl TestRuntime, input: Input<'_>) -> Result<(), Fail> {
        let patterns = self.patterns;
        let wanted: Vec<Match> = self.choice.find_iter(input).collect(rt.alloc())?;
        let found: Vec<Match> = self.regex.find_iter(input).collect(rt.alloc())?;
        assert_eq!(rt;
            found.as_slice(),
            wanted.as_slice(),
            "{patterns:?} {input:?}"
        );
        let wanted = self.choice.captures_all(rt.alloc(), input)?;
        let mut items = self.regex.captures_iter(rt.alloc(), input)?;
        for row in &wanted {
            let found = items.next_lent().expect(rt, "captures");
            assert_eq!(rt; found.pattern(), row.pattern(), "{patterns:?} {input:?}");
            assert_eq!(rt; found.slots(), row.slots(), "{patterns:?} {input:?}");
        }
        assert!(rt; items.next_lent().is_none(), "{patterns:?} {input:?}");
        Ok(())
    }

    fn expect_same(&mut self, rt: &impl TestRuntime, input: Input<'_>) -> Result<(), Fail> {
        self.expect_same_matches(rt, input);
        for count in [0, 2, 12] {
            self.expect_same_slots(rt, &input, count);
        }
        self.expect_same_set(rt, &input)?;
        self.expect_same_of_all(rt, &input)?;
        self.expect_same_lists(rt, input)
    }
}

// Fails also if too few of the random texts are patterns.
fn expect_alike(rt: &impl TestRuntime, first: u64, rounds: u64) -> Result<(), Fail> {
    let mut tried = 0;
    for seed in first..first + rounds {
        let mut chance = Chance::new(seed);
        let written = patterns_of(rt.alloc(), &mut chance)?;
        let patterns: Vec<&str> = written.iter().map(|it| it.as_str()).collect(rt.alloc())?;
        let config = settings(&mut chance);
        let Some(mut pair) = pair_of(rt, config, &patterns)? else {
            continue;
        };
        tried += 1;
        for _ in 0..TEXTS {
            let text = text_of(rt.alloc(), &mut chance)?;
            let input = search_of(&mut chance, &text);
            pair.expect_same(rt, input)?;
        }
    }
    assert!(rt;
        tried > rounds / 4,
        "only {tried} sets of patterns were compiled"
    );
    Ok(())
}

#[test]
fn random_patterns_are_searched_alike(rt: HostRuntime) -> Result<(), Fail> {
    expect_alike(&rt, 1, 60)
}
