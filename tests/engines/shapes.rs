//! NFAs that no regular expression is compiled to.

use std::alloc::Global;
use test_support::machine::Machine;
use test_support::samples::MakeError;
use thompson_nfa::NFA;

/// What an NFA looks like.
#[derive(Clone, Copy, Debug)]
pub enum Shape {
    /// Two patterns that match the same, and no captures.
    TwoBare,
    /// A loop of unions.
    UnionLoop,
    /// Two ways over each byte.
    TwoWays,
    /// A chain of this many states. Each leads twice to the next one, without reading a byte. The last is the match.
    Chain(usize),
    /// The same chain, of captures.
    Captures(usize),
    /// A union and its alternatives: this many states. The last reads an `a` and leads to the match, others a `b`.
    Fan(usize),
    /// A chain of this many states. Each but the last reads an `a`. The last is the match.
    Word(usize),
    /// Two patterns: one reads an `a`, the other is a loop of this many states that reads `c`s and never matches.
    ByteOrLoop(usize),
}

/// The NFA of this shape. It starts at its first state.
pub fn nfa_of(alloc: Global, shape: Shape) -> Result<NFA, MakeError> {
    let mut machine = Machine::new(alloc);
    match shape {
        Shape::TwoBare => add_two_bare(&mut machine)?,
        Shape::UnionLoop => add_union_loop(&mut machine)?,
        Shape::TwoWays => add_two_ways(&mut machine)?,
        Shape::Chain(len) => add_chain(&mut machine, len)?,
        Shape::Captures(len) => add_captures(&mut machine, len)?,
        Shape::Fan(len) => add_fan(&mut machine, alloc, len)?,
        Shape::Word(len) => add_word(&mut machine, len)?,
        Shape::ByteOrLoop(len) => add_byte_or_loop(&mut machine, len)?,
    }
    machine.build(0, 0)
}

fn add_two_bare(machine: &mut Machine) -> Result<(), MakeError> {
    machine.either(1, 3)?;
    machine.bytes(b'a', b'a', 2)?;
    machine.accept(0)?;
    machine.bytes(b'a', b'a', 4)?;
    machine.accept(1)?;
    machine.pattern(1)?;
    machine.pattern(3)
}

fn add_union_loop(machine: &mut Machine) -> Result<(), MakeError> {
    machine.either(1, 2)?;
    machine.either(0, 1)?;
    machine.accept(0)?;
    machine.pattern(0)
}

fn add_two_ways(machine: &mut Machine) -> Result<(), MakeError> {
    machine.union(&[1, 2, 3])?;
    machine.bytes(b'a', b'a', 0)?;
    machine.bytes(b'a', b'a', 0)?;
    machine.bytes(b'b', b'b', 4)?;
    machine.accept(0)?;
    machine.pattern(0)
}

fn add_chain(machine: &mut Machine, len: usize) -> Result<(), MakeError> {
    for next in 1..len {
        machine.either(next, next)?;
    }
    machine.accept(0)?;
    machine.pattern(0)?;
    machine.groups(5)
}

fn add_captures(machine: &mut Machine, len: usize) -> Result<(), MakeError> {
    for next in 1..len {
        machine.capture(next % 12, next)?;
    }
    machine.accept(0)?;
    machine.pattern(0)?;
    machine.groups(5)
}

fn add_fan(machine: &mut Machine, alloc: Global, len: usize) -> Result<(), MakeError> {
    let targets: Vec<usize> = (1..len).collect(alloc)?;
    machine.union(&targets)?;
    for _ in 2..len {
        machine.bytes(b'b', b'b', 0)?;
    }
    machine.bytes(b'a', b'a', len)?;
    machine.accept(0)?;
    machine.pattern(0)
}

fn add_word(machine: &mut Machine, len: usize) -> Result<(), MakeError> {
    for next in 1..len {
        machine.bytes(b'a', b'a', next)?;
    }
    machine.accept(0)?;
    machine.pattern(0)
}

fn add_byte_or_loop(machine: &mut Machine, len: usize) -> Result<(), MakeError> {
    machine.either(1, 5)?;
    machine.capture(0, 2)?;
    machine.bytes(b'a', b'a', 3)?;
    machine.capture(1, 4)?;
    machine.accept(0)?;
    for next in 1..len {
        machine.bytes(b'c', b'c', next + 5)?;
    }
    machine.bytes(b'c', b'c', 5)?;
    machine.pattern(1)?;
    machine.groups(0)?;
    machine.pattern(5)?;
    machine.groups(0)
}
