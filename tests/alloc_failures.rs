//! What is left where memory was refused: every call answers that it was refused, or what it answers otherwise, and the
//! next one has its memory. A refusal is made by the option of `rt try` that refuses one allocation;
//! `.ci/alloc_failures` runs this once for each request of each case.

mod cases;

use std::alloc::Global;
use std::io::{Read, Write};
use std::process::ExitCode;
use std::{io, str};

/// How many requests come after a case. If one of them is refused, the case made fewer requests than were to come before
/// the refused one.
const REST: usize = 100;

// Makes so many requests for memory, and gives each one back. Whether none was refused.
fn spend(alloc: Global, count: usize) -> bool {
    let mut granted = true;
    for _ in 0..count {
        granted = Vec::<u8>::with_capacity(alloc, 1).is_ok() && granted;
    }
    granted
}

// The two numbers in the text, 0 for one that is missing.
fn numbers_in(text: &[u8]) -> (usize, usize) {
    let text = str::from_utf8(text).unwrap_or("");
    let mut words = text.trim().split(' ');
    (number_in(words.next()), number_in(words.next()))
}

fn number_in(word: Option<&str>) -> usize {
    word.and_then(|digits| digits.parse().ok()).unwrap_or(0)
}

/// Reads how many requests to make before the case, and its number; runs it, and says what came of it: `wrong` and what,
/// or `ok`; whether a call said that it was refused; and which request was refused: one before the case, the one before
/// or behind calls whose requests are counted, one behind the case, which shows that no earlier one was, or another. If
/// no case has the number, it says so.
fn main(rt: HostRuntime) -> io::Result<ExitCode> {
    let mut text = [0; 32];
    let mut input = rt.stdin();
    let len = input.read(&mut text)?.min(32);
    let alloc = rt.alloc();
    let (count, number) = numbers_in(&text[..len]);
    let before = spend(alloc, count);
    let mut seen = cases::Seen::new();
    let ended = cases::run(alloc, &mut seen, number);
    let behind = spend(alloc, REST);
    let mut out = rt.stdout();
    let right = match ended {
        Ok(()) => "ok",
        Err(wrong) => wrong.text(),
    };
    out.write_all(right.as_bytes())?;
    out.write_all(if seen.refused() {
        b" refused"
    } else {
        b" granted"
    })?;
    for word in which(before, &seen, behind) {
        out.write_all(word.as_bytes())?;
    }
    out.write_all(b"\n")?;
    Ok(ExitCode::from(if ended.is_ok() { 0 } else { 1 }))
}

// Which request was refused, in words.
fn which(before: bool, seen: &cases::Seen, behind: bool) -> [&'static str; 2] {
    if !before {
        return [" before", ""];
    }
    if !behind {
        return [" rest-refused", ""];
    }
    match seen.edge() {
        Some(cases::Edge::Opening(calls)) => [" opening ", calls],
        Some(cases::Edge::Closing(calls)) => [" closing ", calls],
        None => [" all", ""],
    }
}
