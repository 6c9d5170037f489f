//! Windows of one scan, for patterns that can match the empty string, beside a PikeVM. Its NFA is not in UTF-8 mode, so
//! its search is one scan.

use nfa_compiler::{Compiler, Config};
use nfa_engines::pikevm::{self, PikeVM};
use nfa_engines::{Anchored, Input};
use nfa_lazy_dfa::{Cache, DFA};
use std::test::Fail;
use test_support::TestRuntime;
use test_support::searches::searches_of;

const PATTERNS: &[&str] = &[
    "",
    "a*",
    "(?m)^$",
    "(?m)^.*$",
    r"(?m)^\s*$",
    "(?m)$",
    r"(?-u:\b)",
    // A byte leads back to the start.
    "(?:ab)*",
    "b|(?:a|☃)*?c|$",
];

// Each span of them is searched, also one that splits a codepoint.
const HAYSTACKS: &[&[u8]] = &[
    b"",
    b"\n\na\n \n",
    b"abab c",
    b"a\xE2\x98\x83b",
    b"\x80a\xE2\n",
    b"\xE2\x98\x83\n\xE2\x98\x83",
];

/// A lazy DFA, and a PikeVM whose search is one scan.
#[derive(Drop)]
struct Scans {
    dfa: DFA,
    rows: Cache,
    vm: PikeVM,
    threads: pikevm::Cache,
}

impl Scans {
    fn new(rt: &impl TestRuntime, pattern: &str) -> Result<Scans, Fail> {
        let alloc = rt.alloc();
        let dfa = DFA::new(Compiler::new().build(alloc, pattern)?)?;
        let bytes = Compiler::new().configure(Config::new().utf8(false));
        let vm = PikeVM::new_from_nfa(bytes.build(alloc, pattern)?)?;
        Ok(Scans {
            rows: dfa.create_cache(alloc)?,
            dfa,
            threads: vm.create_cache(alloc)?,
            vm,
        })
    }

    // The window ends with the half match of the scan, and no match starts before it.
    fn expect_window(&mut self, rt: &impl TestRuntime, input: &Input<'_>) -> Result<(), Fail> {
        let window = self.dfa.try_scan_window(&mut self.rows, *input)?;
        let ends = window.map(|window| (window.pattern(), window.end()));
        let half = self.vm.find_half(&mut self.threads, *input);
        let wanted = half.map(|half| (half.pattern(), half.offset()));
        assert_eq!(rt; ends, wanted, "{input:?}");
        let Some(window) = window else {
            return Ok(());
        };
        let within = input.start() <= window.start() && window.start() <= window.end();
        assert!(rt; within, "{input:?}");
        for start in input.start()..window.start() {
            let earlier = input.range(start..input.end()).anchored(Anchored::Yes);
            let found = self.vm.is_match(&mut self.threads, earlier);
            assert!(rt; !found, "{input:?} from {start}");
        }
        Ok(())
    }
}

#[test]
fn windows_are_those_of_one_scan(rt: HostRuntime) -> Result<(), Fail> {
    for &pattern in PATTERNS {
        let mut scans = Scans::new(&rt, pattern)?;
        for &haystack in HAYSTACKS {
            for input in &searches_of(rt.alloc(), haystack)? {
                scans.expect_window(&rt, input)?;
            }
        }
    }
    Ok(())
}
