//! What tests share.
use std::panic::{self, AssertUnwindSafe};

/// The text with which a call panics; None where it doesn't.
pub fn panics(call: impl FnOnce()) -> Option<String> {
    let refused = panic::catch_unwind(AssertUnwindSafe(call)).err()?;
    let text = refused.downcast_ref::<String>().cloned();
    text.or_else(|| refused.downcast_ref::<&str>().map(ToString::to_string))
}
