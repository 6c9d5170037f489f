//! NFAs with fewer captures.
use super::fixtures::named;
use WhichCaptures::{All, Implicit, None};
use nfa_engines::Input;
use nfa_engines::pikevm::PikeVM;
use nfa_facts::{WhichCaptures, keep_captures};
use std::test::Fail;
use test_support::engines::fitting;
use thompson_nfa::State;

// A sample, the captures that are kept, and the number of slots, which is the number of capture states too.
const SLOTS: &[(&str, WhichCaptures, usize)] = &[
    ("abc", All, 2),
    ("abc", Implicit, 2),
    ("abc", None, 0),
    ("groups", All, 6),
    ("groups", Implicit, 2),
    ("groups", None, 0),
    ("foo_num", Implicit, 2),
    ("date", All, 8),
    ("date", Implicit, 2),
    ("date", None, 0),
    ("six", Implicit, 4),
    ("six", None, 0),
    ("a_bare", All, 0),
    ("a_bare", Implicit, 0),
    ("a_bare", None, 0),
];

#[test]
fn fewer_captures_have_fewer_slots(rt: HostRuntime) -> Result<(), Fail> {
    for &(name, which, slots) in SLOTS {
        let nfa = named(&rt, name);
        let kept = keep_captures(rt.alloc(), &nfa, which)?;
        let len = nfa.states().len();
        assert_eq!(rt; kept.states().len(), len, "{name}, {which:?}");
        assert_eq!(rt; kept.pattern_len(), nfa.pattern_len(), "{name}, {which:?}");
        assert_eq!(rt; kept.group_info().slot_len(), slots, "{name}, {which:?}");
        let states = kept.states().iter();
        let captures = states.filter(|state| matches!(state, State::Capture { .. }));
        assert_eq!(rt; captures.count(), slots, "{name}, {which:?}");
    }
    Ok(())
}

// Captures that `groups` keeps, its match in `xacab`, and the end of its half match.
const FOUND: &[(WhichCaptures, Option<(usize, usize)>, usize)] = &[
    (All, Some((1, 3)), 3),
    (Implicit, Some((1, 3)), 3),
    (None, Option::None, 3),
];

#[test]
fn matches_need_group_0_and_half_matches_do_not(rt: HostRuntime) -> Result<(), Fail> {
    let alloc = rt.alloc();
    let nfa = named(&rt, "groups");
    for &(which, span, end) in FOUND {
        let vm = PikeVM::new_from_nfa(keep_captures(alloc, &nfa, which)?)?;
        let mut cache = vm.create_cache(alloc)?;
        let found = vm.find(fitting(&vm, &mut cache), Input::new(b"xacab"));
        assert_eq!(rt;
            found.map(|found| (found.start(), found.end())),
            span,
            "{which:?}"
        );
        let half = vm.find_half(fitting(&vm, &mut cache), Input::new(b"xacab"));
        assert_eq!(rt; half.map(|half| half.offset()), Some(end), "{which:?}");
    }
    Ok(())
}
