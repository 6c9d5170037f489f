//! Time that the count of turns does not show: a search takes time only for the states that it reaches.

use super::shapes::{Shape, nfa_of};
use nfa_engines::pikevm::PikeVM;
use regex_search_core::Input;
use std::test::Fail;
use test_support::engines::fitting;

// At each position, the search reaches only a few of fifty thousand states. It searches 400,000 bytes, and then
// ten thousand that are one match each. If a search cleared all rows, or a position all marks, this would take
// minutes.
#[test]
fn states_out_of_reach_take_no_time(rt: HostRuntime) -> Result<(), Fail> {
    let alloc = rt.alloc();
    let vm = PikeVM::new_from_nfa(nfa_of(alloc, Shape::ByteOrLoop(50000))?)?;
    let mut cache = vm.create_cache(alloc)?;
    let text = vec![in alloc; b'c'; 400000]?;
    assert!(rt; !vm.is_match(fitting(&vm, &mut cache), Input::new(&text)));
    let ones = vec![in alloc; b'a'; 10000]?;
    let matches = vm.find_iter(fitting(&vm, &mut cache), Input::new(&ones));
    assert_eq!(rt; matches.count(), 10000);
    Ok(())
}
