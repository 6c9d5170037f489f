//! Functions of `callers` that use the lists of a PikeVM, and what they return.

use crate::tests::{expect_matches, threads, vm_named};
use callers::matches::{collected, first_alone, how_many};
use std::test::Fail;
use test_support::samples::parts;

const HAYSTACK: &[u8] = b"foo1 foo12 foo123";

// The matches of `foo_num` in it: each one's pattern, start and end.
const MATCHES: &[(usize, usize, usize)] = &[(0, 0, 4), (0, 5, 10), (0, 11, 17)];

#[test]
fn callers_list_all_matches(rt: HostRuntime) -> Result<(), Fail> {
    let vm = vm_named(&rt, "foo_num");
    let mut cache = threads(&rt, &vm);
    let all = collected(rt.alloc(), &vm, &mut cache, HAYSTACK)?;
    expect_matches(&rt, &all, MATCHES);
    assert_eq!(rt; how_many(&vm, &mut cache, HAYSTACK), 3);
    let first = first_alone(&vm, &mut cache, HAYSTACK);
    assert_eq!(rt; first.map(parts), Some((0, 0, 4)));
    Ok(())
}
