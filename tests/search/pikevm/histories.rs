//! Earlier searches with a cache do not show: a used cache and a fresh one give the same answer.

use crate::tests::{engine_named, threads, vm_named};
use callers::histories::{found_twice, tried_twice};
use regex_search_core::Input;
use std::test::Fail;
use test_support::samples::parts;

const TEXT: &[u8] = b"x foo12 foo1";

#[test]
fn a_used_cache_answers_as_a_fresh_one(rt: HostRuntime) {
    let vm = vm_named(&rt, "foo_num");
    let mut used = threads(&rt, &vm);
    let mut fresh = threads(&rt, &vm);
    assert!(rt; vm.is_match(&mut used, Input::new(b"foo foo7")));
    let (one, two) = found_twice(&vm, &mut used, &mut fresh, TEXT);
    assert_eq!(rt; one.map(parts), Some((0, 2, 7)));
    assert_eq!(rt; two.map(parts), Some((0, 2, 7)));
}

#[test]
fn a_used_cache_of_a_backtracker_answers_as_a_fresh_one(rt: HostRuntime) -> Result<(), Fail> {
    let engine = engine_named(&rt, "foo_num");
    let mut used = engine.create_cache(rt.alloc());
    let mut fresh = engine.create_cache(rt.alloc());
    assert!(rt; engine.try_is_match(&mut used, Input::new(b"foo foo7"))?);
    let (one, two) = tried_twice(&engine, &mut used, &mut fresh, TEXT);
    assert_eq!(rt; one?.map(parts), Some((0, 2, 7)));
    assert_eq!(rt; two?.map(parts), Some((0, 2, 7)));
    Ok(())
}

const TEXTS: &[&[u8]] = &[TEXT, b"", b"foo3 foo", TEXT];

#[test]
fn one_cache_serves_many_texts(rt: HostRuntime) {
    let vm = vm_named(&rt, "foo_num");
    let mut cache = threads(&rt, &vm);
    let mut count = 0;
    for text in TEXTS {
        count += vm.find_iter(&mut cache, Input::new(text)).count();
    }
    assert_eq!(rt; count, 5);
}
