//! Random NFAs from a seed. The sums in `tests/engines/random.rs` depend on what this generator makes.

use crate::machine::Machine;
use crate::samples::MakeError;
use std::alloc::Global;
use thompson_nfa::{Look, NFA};

/// A linear congruential generator.
#[derive(Clone, Copy, Debug)]
pub struct Chance {
    state: u64,
}

impl Chance {
    /// A generator that begins with this number.
    pub fn new(seed: u64) -> Chance {
        Chance { state: seed }
    }

    // The next number below the bound.
    fn below(&mut self, bound: usize) -> usize {
        self.state = self
            .state
            .wrapping_mul(6364136223846793005)
            .wrapping_add(1442695040888963407);
        (self.state >> 33) as usize % bound
    }

    fn yes(&mut self) -> bool {
        self.below(2) == 1
    }

    fn byte(&mut self) -> u8 {
        match self.below(5) {
            0 => b'a',
            1 => b'b',
            2 => b'c',
            3 => b' ',
            _ => 0x80,
        }
    }

    fn look(&mut self) -> Look {
        match self.below(5) {
            0 => Look::Start,
            1 => Look::End,
            2 => Look::WordAscii,
            3 => Look::WordAsciiNegate,
            _ => Look::WordUnicode,
        }
    }
}

// The numbers of states, patterns and slots of an NFA.
#[derive(Clone, Copy, Debug)]
struct Size {
    states: usize,
    patterns: usize,
    slots: usize,
}

/// An NFA of 3 to 10 states and 1 to 3 patterns.
pub fn random_nfa(alloc: Global, chance: &mut Chance) -> Result<NFA, MakeError> {
    let mut machine = Machine::new(alloc);
    let states = chance.below(8) + 3;
    let patterns = chance.below(3) + 1;
    let slots = add_patterns(&mut machine, chance, states, patterns)?;
    machine.set_flags(!chance.yes(), !chance.yes());
    let size = Size {
        states,
        patterns,
        slots,
    };
    for _ in 0..states {
        add_state(&mut machine, chance, &size)?;
    }
    machine.build(chance.below(states), chance.below(states))
}

// One NFA in four has no groups. Returns the number of slots.
fn add_patterns(
    machine: &mut Machine,
    chance: &mut Chance,
    states: usize,
    patterns: usize,
) -> Result<usize, MakeError> {
    let has_groups = chance.below(4) != 0;
    let mut slots = 0;
    for _ in 0..patterns {
        machine.pattern(chance.below(states))?;
        if has_groups {
            let explicit = chance.below(3);
            machine.groups(explicit)?;
            slots += 2 * (explicit + 1);
        }
    }
    Ok(slots)
}

fn add_state(machine: &mut Machine, chance: &mut Chance, size: &Size) -> Result<(), MakeError> {
    let states = size.states;
    match chance.below(12) {
        0 | 1 => {
            let start = chance.byte();
            let end = if chance.yes() { start + 30 } else { start };
            machine.bytes(start, end, chance.below(states))
        }
        2 => machine.sparse(&[
            (b'a', b'a', chance.below(states)),
            (b'b', b'c', chance.below(states)),
            (0x80, 0xFF, chance.below(states)),
        ]),
        3 => machine.dense(
            97,
            &[
                target(chance, states),
                target(chance, states),
                target(chance, states),
            ],
        ),
        4 => machine.assert(chance.look(), chance.below(states)),
        5 => machine.union(&[
            chance.below(states),
            chance.below(states),
            chance.below(states),
        ]),
        6 | 7 => machine.either(chance.below(states), chance.below(states)),
        8 => {
            let next = chance.below(states);
            if size.slots == 0 {
                return machine.fail();
            }
            machine.capture(chance.below(size.slots), next)
        }
        9 | 10 => machine.accept(chance.below(size.patterns)),
        _ => machine.fail(),
    }
}

// One target in three is none.
fn target(chance: &mut Chance, states: usize) -> Option<usize> {
    if chance.below(3) == 0 {
        None
    } else {
        Some(chance.below(states))
    }
}
