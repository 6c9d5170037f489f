//! The searches of each span of a haystack, in several ways.

use regex_search_core::{Anchored, Input, PatternID};
use std::alloc::{AllocError, Global};

/// The searches of each span of the haystack: unanchored, also with `earliest`, anchored, and anchored to the first
/// pattern.
pub fn searches_of<'h>(alloc: Global, haystack: &'h [u8]) -> Result<Vec<Input<'h>>, AllocError> {
    let first = PatternID::new(0).unwrap();
    let mut searches = Vec::new(alloc);
    for start in 0..=haystack.len() {
        for end in start..=haystack.len() {
            let input = Input::new(haystack).range(start..end);
            searches.push(input)?;
            searches.push(input.earliest(true))?;
            searches.push(input.anchored(Anchored::Yes))?;
            searches.push(input.anchored(Anchored::Pattern(first)))?;
        }
    }
    Ok(searches)
}
