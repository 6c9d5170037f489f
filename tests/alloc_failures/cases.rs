//! The cases, and what is noted of their refusals.

mod captures;
mod choice;
mod copies;
mod engines;
mod hybrid;
mod iteration;
mod makers;
mod pikevms;
mod quiet;
mod searches;

use std::alloc::Global;

/// A request that stands directly before or behind calls whose requests are counted: their name, and where it stands.
#[derive(Clone, Copy, Debug)]
pub enum Edge {
    /// The one before.
    Opening(&'static str),
    /// The one behind.
    Closing(&'static str),
}

/// Whether a call has said that it was refused memory, and which edge was.
#[derive(Clone, Copy, Debug)]
pub struct Seen {
    refused: bool,
    edge: Option<Edge>,
}

impl Seen {
    /// No call has, and no edge was.
    pub fn new() -> Seen {
        Seen {
            refused: false,
            edge: None,
        }
    }

    /// Whether a call has.
    pub fn refused(&self) -> bool {
        self.refused
    }

    /// The edge that was refused.
    pub fn edge(&self) -> Option<Edge> {
        self.edge
    }

    /// Makes the request before the calls of that name.
    pub fn opens(&mut self, alloc: Global, calls: &'static str) {
        self.mark(alloc, Edge::Opening(calls));
    }

    /// Makes the request behind them.
    pub fn closes(&mut self, alloc: Global, calls: &'static str) {
        self.mark(alloc, Edge::Closing(calls));
    }

    // Makes one request for memory, gives it back, and notes where it was refused.
    fn mark(&mut self, alloc: Global, edge: Edge) {
        if Vec::<u8>::with_capacity(alloc, 1).is_err() {
            self.edge = Some(edge);
        }
    }

    /// Notes an error, which has to be a refusal.
    pub fn note(&mut self, is_refusal: bool) -> Result<(), Wrong> {
        self.refused = true;
        expect(is_refusal, "another error than the refusal")
    }

    /// Notes an error in place of a value, which has to be a refusal: there is no value, so `false`.
    pub fn is_refusal(&mut self, is_refusal: bool) -> Result<bool, Wrong> {
        self.note(is_refusal)?;
        Ok(false)
    }
}

/// What is not as it has to be.
#[derive(Clone, Copy, Debug)]
pub struct Wrong(&'static str);

impl Wrong {
    /// It in words.
    pub fn text(&self) -> &'static str {
        self.0
    }
}

/// What has to hold, and what is wrong where it does not.
pub fn expect(holds: bool, wrong: &'static str) -> Result<(), Wrong> {
    if holds { Ok(()) } else { Err(Wrong(wrong)) }
}

/// `true` where it holds, and what is wrong where it does not. Where something is owned that is asked for, the answer
/// is given at once, with no way out.
pub fn is_right(holds: bool, wrong: &'static str) -> Result<bool, Wrong> {
    if holds { Ok(true) } else { Err(Wrong(wrong)) }
}

// What the expression makes. Where that was refused memory, which is this error, it is made once more. It stands alone
// in a small function, so that a caller has the value and one way out.
macro_rules! made {
    ($seen:expr, $refusal:expr, $make:expr) => {
        match $make {
            Ok(made) => Ok(made),
            Err(error) => {
                $seen.note(error == $refusal)?;
                match $make {
                    Ok(made) => Ok(made),
                    Err(_) => Err(Wrong("two refusals")),
                }
            }
        }
    };
}

use made;

// One case. Each makes what it searches with.
type Case = fn(Global, &mut Seen) -> Result<(), Wrong>;

/// Runs the case of this number.
pub fn run(alloc: Global, seen: &mut Seen, number: usize) -> Result<(), Wrong> {
    let cases: &[Case] = &[
        searches::slots,
        searches::matches,
        searches::captures,
        pikevms::resets,
        pikevms::searches,
        quiet::warm_backtracker,
        quiet::warm_choice,
        quiet::piked_in_all,
        quiet::new_caches,
        quiet::iterators,
        quiet::finders_item,
        quiet::replacement,
        copies::backtracked,
        iteration::lists,
        captures::lists,
        makers::samples,
        makers::trivial_engines,
        makers::backtrackers,
        makers::pikevms,
        makers::captures,
        makers::sets,
        choice::searches,
        choice::lists,
        choice::replacements,
        hybrid::searches,
        hybrid::lists,
        hybrid::replacements,
        hybrid::warm,
    ];
    match cases.get(number) {
        Some(case) => case(alloc, seen),
        None => Err(Wrong("no case")),
    }
}
