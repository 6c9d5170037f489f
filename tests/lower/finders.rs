//! Callers of iterators over stored finders, as a user would write them. The finders are functions and never err.

use super::fixtures::captures_at;
use callers::sure::{captures_surely_collected, halves_surely_collected, surely_collected};
use std::test::Fail;

// An empty match at each offset of two bytes, and after them.
#[test]
fn functions_are_finders(rt: HostRuntime) -> Result<(), Fail> {
    let matches = surely_collected(rt.alloc(), b"ab")?;
    assert_eq!(rt; matches.len(), 3);
    for (at, found) in matches.iter().enumerate() {
        assert_eq!(rt; (found.start(), found.end()), (at, at));
    }
    Ok(())
}

#[test]
fn functions_are_finders_of_ends(rt: HostRuntime) -> Result<(), Fail> {
    let halves = halves_surely_collected(rt.alloc(), b"ab")?;
    assert_eq!(rt; halves.len(), 3);
    for (at, half) in halves.iter().enumerate() {
        assert_eq!(rt; half.offset(), at);
    }
    Ok(())
}

// The slots of the captures are the bounds of the first byte.
#[test]
fn functions_are_finders_of_captures(rt: HostRuntime) -> Result<(), Fail> {
    let all = captures_surely_collected(rt.alloc(), b"ab", captures_at(&rt, 0, 1))?;
    assert_eq!(rt; all.len(), 1);
    Ok(())
}
