//! Functions of `callers` that list captures of both engines, or captures and matches.

use crate::tests::{engine_named, threads, vm_named};
use callers::capture_lists::{captures_and_matches, caught_by_both};
use std::test::Fail;

const TEXT: &[u8] = b"abc 1 foo 4567 0 quux";

#[test]
fn lists_of_captures_are_one(rt: HostRuntime) -> Result<(), Fail> {
    let alloc = rt.alloc();
    let vm = vm_named(&rt, "words_numbers");
    let engine = engine_named(&rt, "words_numbers");
    let mut cache = threads(&rt, &vm);
    let mut marks = engine.create_cache(alloc);
    let (first, second) = caught_by_both(alloc, (&vm, &engine), &mut cache, &mut marks, TEXT)?;
    assert_eq!(rt; first.len(), 6);
    assert_eq!(rt; second.len(), 6);

    let mut cache = threads(&rt, &vm);
    let mut other = threads(&rt, &vm);
    let (captures, matches) = captures_and_matches(alloc, &vm, &mut cache, &mut other, TEXT)?;
    assert_eq!(rt; captures.len(), 6);
    assert_eq!(rt; matches.len(), 6);
    Ok(())
}
