//! The edges of a state with a table of targets, as `nfa_dot` prints them. No sample and no compiled pattern has one.
use super::edges::{Edge, Label, edges_of};
use regex_search_core::StateID;
use std::process::Abort;
use std::test::Fail;
use thompson_nfa::State;

// A first byte, the targets of the bytes from it on, and the edges: the first byte of each, its last byte and its
// target. Other bytes have no target.
const TABLES: &[(usize, &[Option<usize>], &[(u8, u8, usize)])] = &[
    (0, &[], &[]),
    (
        97,
        &[Some(1), Some(1), None, Some(1), Some(2), Some(1)],
        &[(97, 98, 1), (100, 100, 1), (101, 101, 2), (102, 102, 1)],
    ),
    (0, &[Some(0), Some(0), Some(3)], &[(0, 1, 0), (2, 2, 3)]),
    (254, &[Some(3), Some(3)], &[(254, 255, 3)]),
    (0, &[Some(7); 256], &[(0, 255, 7)]),
];

fn state_id(rt: &impl Abort, number: usize) -> StateID {
    StateID::new(number).expect(rt, "a state's number")
}

#[test]
fn bytes_in_turn_with_one_target_are_one_edge(rt: HostRuntime) -> Result<(), Fail> {
    for &(first, targets, wanted) in TABLES {
        let mut table = vec![in rt.alloc(); None; 256]?;
        for (at, &target) in targets.iter().enumerate() {
            table[first + at] = target.map(|number| state_id(&rt, number));
        }
        let edges = edges_of(rt.alloc(), &State::Dense(table))?;
        assert_eq!(rt; edges.len(), wanted.len(), "{targets:?}");
        for (edge, &(start, end, number)) in edges.iter().zip(wanted) {
            let label = Label::Bytes { start, end };
            let next = state_id(&rt, number);
            assert_eq!(rt; *edge, Edge { label, next }, "{targets:?}");
        }
    }
    Ok(())
}
