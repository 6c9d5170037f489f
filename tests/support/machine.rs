//! NFAs other than the samples, written state by state.

use crate::samples::MakeError;
use regex_search_core::{GroupInfo, PatternID, StateID};
use std::alloc::Global;
use thompson_nfa::{Look, NFA, State, Transition};

/// Builds an NFA from its states, in the order of their numbers, and its patterns. It is not in UTF-8 mode and has no
/// empty match, unless `set_flags` says otherwise.
#[derive(Drop)]
pub struct Machine {
    alloc: Global,
    states: Vec<State>,
    starts: Vec<StateID>,
    groups: Vec<Vec<Option<String>>>,
    has_empty: bool,
    utf8: bool,
}

impl Machine {
    /// Begins without states and patterns.
    pub fn new(alloc: Global) -> Machine {
        Machine {
            alloc,
            states: Vec::new(alloc),
            starts: Vec::new(alloc),
            groups: Vec::new(alloc),
            has_empty: false,
            utf8: false,
        }
    }

    /// The number of states.
    pub fn len(&self) -> usize {
        self.states.len()
    }

    /// Whether there are no states.
    pub fn is_empty(&self) -> bool {
        self.states.is_empty()
    }

    /// Sets whether the NFA may match the empty string, and whether it is in UTF-8 mode.
    pub fn set_flags(&mut self, has_empty: bool, utf8: bool) {
        self.has_empty = has_empty;
        self.utf8 = utf8;
    }

    /// Adds a state that reads a byte from `start` to `end`.
    pub fn bytes(&mut self, start: u8, end: u8, next: usize) -> Result<(), MakeError> {
        let trans = transition(start, end, next)?;
        self.states.push(State::ByteRange { trans })?;
        Ok(())
    }

    /// Adds a state of several ranges of bytes, each with its next state.
    pub fn sparse(&mut self, ranges: &[(u8, u8, usize)]) -> Result<(), MakeError> {
        let mut transitions = Vec::new(self.alloc);
        for &(start, end, next) in ranges {
            transitions.push(transition(start, end, next)?)?;
        }
        self.states.push(State::Sparse(transitions))?;
        Ok(())
    }

    /// Adds a state that has these targets for the bytes from `first` on, and none for other bytes.
    pub fn dense(&mut self, first: usize, targets: &[Option<usize>]) -> Result<(), MakeError> {
        let mut all = vec![in self.alloc; None; first]?;
        for &target in targets {
            all.push(target.map(state_id).transpose()?)?;
        }
        self.states.push(State::Dense(all))?;
        Ok(())
    }

    /// Adds a state that goes on if the assertion holds.
    pub fn assert(&mut self, look: Look, next: usize) -> Result<(), MakeError> {
        let next = state_id(next)?;
        self.states.push(State::Look { look, next })?;
        Ok(())
    }

    /// Adds a state that goes on to any of these, and prefers the first.
    pub fn union(&mut self, targets: &[usize]) -> Result<(), MakeError> {
        let mut alternates = Vec::new(self.alloc);
        for &target in targets {
            alternates.push(state_id(target)?)?;
        }
        self.states.push(State::Union { alternates })?;
        Ok(())
    }

    /// Adds a state that goes on to either of two, and prefers the first.
    pub fn either(&mut self, first: usize, second: usize) -> Result<(), MakeError> {
        let (alt1, alt2) = (state_id(first)?, state_id(second)?);
        self.states.push(State::BinaryUnion { alt1, alt2 })?;
        Ok(())
    }

    /// Adds a state that writes the position into a slot.
    pub fn capture(&mut self, slot: usize, next: usize) -> Result<(), MakeError> {
        let next = state_id(next)?;
        self.states.push(State::Capture { next, slot })?;
        Ok(())
    }

    /// Adds a state that goes nowhere.
    pub fn fail(&mut self) -> Result<(), MakeError> {
        self.states.push(State::Fail)?;
        Ok(())
    }

    /// Adds a state at which the pattern matches.
    pub fn accept(&mut self, pattern: usize) -> Result<(), MakeError> {
        let pattern_id = PatternID::new(pattern).ok_or(MakeError::TooLarge)?;
        self.states.push(State::Match { pattern_id })?;
        Ok(())
    }

    /// Adds a pattern that starts at this state. If no pattern has groups, none has slots.
    pub fn pattern(&mut self, start: usize) -> Result<(), MakeError> {
        self.starts.push(state_id(start)?)?;
        Ok(())
    }

    /// Gives the next pattern `explicit` explicit groups without names.
    pub fn groups(&mut self, explicit: usize) -> Result<(), MakeError> {
        self.groups.push(vec![in self.alloc; None; explicit]?)?;
        Ok(())
    }

    /// Makes the NFA with these two starts.
    pub fn build(self, anchored: usize, unanchored: usize) -> Result<NFA, MakeError> {
        let groups = GroupInfo::new(self.groups).ok_or(MakeError::TooLarge)?;
        Ok(NFA::from_states(
            self.states,
            state_id(anchored)?,
            state_id(unanchored)?,
            self.starts,
            groups,
            self.has_empty,
            self.utf8,
        )?)
    }
}

fn state_id(index: usize) -> Result<StateID, MakeError> {
    StateID::new(index).ok_or(MakeError::TooLarge)
}

fn transition(start: u8, end: u8, next: usize) -> Result<Transition, MakeError> {
    let next = state_id(next)?;
    Ok(Transition { start, end, next })
}
