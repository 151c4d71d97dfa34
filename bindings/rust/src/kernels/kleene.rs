//! Combines truth values that may be null by three-valued logic.

use crate::written::Written;
use crate::{Bits, portable};

#[cfg(vortex_bits_native)]
use crate::level::kernels;

/// Truth values that may be null: their bits, and which are valid. None means that all are valid.
pub type Column<'a> = (Bits<'a>, Option<Bits<'a>>);

/// An operator on two truth values that may be null.
#[derive(Clone, Copy, PartialEq, Eq)]
pub enum Logic {
    And,
    Or,
}

/// Combines the truth values of two columns, and writes which are true and which aren't null. All
/// windows have one length.
#[inline]
pub fn combine_truths(
    trues: &mut Written<'_>,
    valid: &mut Written<'_>,
    left: Column<'_>,
    right: Column<'_>,
    logic: Logic,
) {
    debug_assert!([left.0.len(), right.0.len(), valid.len()] == [trues.len(); 3]);
    debug_assert!(
        [left.1, right.1]
            .iter()
            .flatten()
            .all(|it| it.len() == trues.len())
    );
    if trues.len() <= 64 {
        return portable::combine_truth_word(trues, valid, left, right, logic);
    }
    #[cfg(vortex_bits_native)]
    {
        let len = trues.len();
        let (left_all, left_valid) = (left.1.is_none(), left.1.unwrap_or_default());
        let (right_all, right_valid) = (right.1.is_none(), right.1.unwrap_or_default());
        macro_rules! by {
            ($name:ident) => {
                native!($name: start_mut trues, start_mut valid, start left.0, value left_all,
                    start left_valid, start right.0, value right_all, start right_valid, value len)
            };
        }
        match logic {
            Logic::And => by!(and_kleene),
            Logic::Or => by!(or_kleene),
        }
    }
    portable::combine_truths(trues, valid, left, right, logic);
}
