//! Captures in a span that is too long.
use crate::tests::with_capacity;
use callers::capture_lists::tries_collected;
use nfa_engines::Input;
use nfa_engines::error::SearchError::HaystackTooLong;
use std::test::Fail;

#[test]
fn the_refusal_is_the_one_item(rt: HostRuntime) -> Result<(), Fail> {
    let alloc = rt.alloc();
    let engine = with_capacity(&rt, "alnum100", 10);
    let mut cache = engine.create_cache(alloc);
    let items = tries_collected(alloc, &engine, &mut cache, b"abc").expect(&rt, "memory");
    assert!(rt; matches!(items.as_slice(), [Err(HaystackTooLong { len: 3 })]));
    let mut items = engine.try_captures_iter(alloc, &mut cache, Input::new(b"abc"))?;
    assert!(rt; matches!(items.next(), Some(Err(HaystackTooLong { len: 3 }))));
    assert!(rt; items.next().is_none() && items.next().is_none());
    Ok(())
}
