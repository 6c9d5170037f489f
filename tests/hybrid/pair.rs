//! A hybrid and a PikeVM over one NFA, which have to give the same answers.

use nfa_choice::dfa;
use nfa_choice::hybrid::{Engine, Hybrid};
use nfa_engines::iter::Searcher;
use nfa_engines::pikevm::{self, PikeVM};
use nfa_engines::{Input, NFA, PatternSet};
use test_support::TestRuntime;
use test_support::engines::fitting;
use test_support::searches::searches_of;

/// A hybrid and a PikeVM, and the number of answers that each engine of the hybrid gave.
#[derive(Drop)]
pub struct Pair {
    hybrid: Hybrid,
    vm: PikeVM,
    threads: pikevm::Cache,
    by_dfa: usize,
    by_pike: usize,
}

impl Pair {
    /// Makes both from the NFA.
    pub fn new(rt: &impl TestRuntime, nfa: &NFA, config: dfa::Config) -> Pair {
        let copy = nfa.clone().expect(rt, "memory");
        let hybrid = Hybrid::new(rt.alloc(), copy, config).expect(rt, "memory");
        let pike = pikevm::Config::new().match_kind(config.get_match_kind());
        let copy = nfa.clone().expect(rt, "memory");
        let vm = PikeVM::builder().configure(pike).build_from_nfa(copy);
        let vm = vm.expect(rt, "memory");
        Pair {
            hybrid,
            threads: vm.create_cache(rt.alloc()).expect(rt, "memory"),
            vm,
            by_dfa: 0,
            by_pike: 0,
        }
    }

    fn count(&mut self) {
        match self.hybrid.ran() {
            Some(Engine::LazyDFA) => self.by_dfa += 1,
            _ => self.by_pike += 1,
        }
    }

    /// Returns the number of answers of the lazy DFA, and that of the hybrid's PikeVM.
    pub fn counts(&self) -> (usize, usize) {
        (self.by_dfa, self.by_pike)
    }

    /// Both answer `find_half` and `is_match` alike.
    pub fn expect_same(&mut self, rt: &impl TestRuntime, input: &Input<'_>) {
        let half = self.hybrid.find_half(*input);
        self.count();
        let wanted = self
            .vm
            .find_half(fitting(&self.vm, &mut self.threads), *input);
        assert_eq!(rt; half, wanted, "{input:?}");
        let is_match = self.hybrid.is_match(*input);
        self.count();
        let wanted = self
            .vm
            .is_match(fitting(&self.vm, &mut self.threads), *input);
        assert_eq!(rt; is_match, wanted, "{input:?}");
    }

    /// Both fill a set alike, also a set with room for fewer patterns.
    pub fn expect_same_set(&mut self, rt: &impl TestRuntime, input: &Input<'_>) {
        let patterns = self.hybrid.pattern_len();
        for capacity in [0, patterns / 2, patterns] {
            let mut set = PatternSet::new(rt.alloc(), capacity).expect(rt, "memory");
            self.hybrid.which_overlapping_matches(input, &mut set);
            self.count();
            let mut wanted = PatternSet::new(rt.alloc(), capacity).expect(rt, "memory");
            let threads = fitting(&self.vm, &mut self.threads);
            self.vm
                .which_overlapping_matches(threads, input, &mut wanted);
            assert_eq!(rt; set.len(), wanted.len(), "{input:?}");
            let same = set.iter().all(|pattern| wanted.contains(pattern));
            assert!(rt; same, "{input:?}");
        }
    }

    /// Both give the same half matches from left to right.
    pub fn expect_same_list(&mut self, rt: &impl TestRuntime, input: Input<'_>) {
        let Pair {
            hybrid,
            vm,
            threads,
            ..
        } = self;
        let threads = fitting(vm, threads);
        let mut searcher = Searcher::new(input);
        let mut finder = |input: &Input<'_>| Ok(vm.find_half(threads, *input));
        for half in hybrid.half_matches(input) {
            let wanted = searcher.advance_half_by_ref(&mut finder);
            assert_eq!(rt; Some(half), wanted, "{input:?}");
        }
        let last = searcher.advance_half_by_ref(&mut finder);
        assert_eq!(rt; last, None, "{input:?}");
    }

    /// Both answer each search of each span alike, and give the same half matches of the whole haystack.
    pub fn expect_same_searches(&mut self, rt: &impl TestRuntime, haystack: &[u8]) {
        let inputs = searches_of(rt.alloc(), haystack).expect(rt, "memory");
        for input in &inputs {
            self.expect_same(rt, input);
        }
        self.expect_same_list(rt, Input::new(haystack));
    }
}
