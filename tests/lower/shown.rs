//! Assertions about the texts of values.
use std::fmt::{Debug, Display};
use std::process::Abort;

/// Expects this `Debug` text of the value.
pub fn expect_shown(rt: &(impl Abort + AllocGlobal), value: &impl Debug, want: &str) {
    let text = format!(in rt.alloc(); "{value:?}").expect(rt, "memory");
    assert_eq!(rt; text.as_str(), want);
}

/// Expects this text of the error.
pub fn expect_told(rt: &(impl Abort + AllocGlobal), error: &impl Display, want: &str) {
    let text = format!(in rt.alloc(); "{error}").expect(rt, "memory");
    assert_eq!(rt; text.as_str(), want);
}
