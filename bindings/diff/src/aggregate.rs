//! Sums, the least and the greatest of the values that a mask selects, and of all values.

use vortex_bits::{Bits, values};

use crate::ask::same;
use crate::case::{Case, bit};
use crate::random::Random;

/// Numbers of a type: any in half of the cases, else those at its ends and near the greatest one.
macro_rules! column {
    ($value:ty, $case:ident, $random:ident) => {
        (0..$case.len)
            .map(|_| match $random.below(5) {
                _ if $case.value => $random.next() as $value,
                0 => <$value>::MIN,
                1 => <$value>::MAX,
                few => <$value>::MIN.wrapping_sub(few as $value),
            })
            .collect::<Vec<$value>>()
    };
}

/// The calls of each type up to 64 bits, compared with Rust's sums and extremes.
macro_rules! wide {
    ($case:ident, $random:ident: $($value:ty as $total:ty;)*) => {
        let mut calls = 0;
        $(
            let column = column!($value, $case, $random);
            for mask in [Some($case.right()), None] {
                let chosen = selected($case, &column, mask);
                let exact: $total = chosen.iter().map(|&it| it as $total).sum();
                let checked = <$value>::try_from(exact).ok();
                calls += same("masked_sum", values::masked_sum(&column, mask), exact)?
                    + same(
                        "masked_checked_sum",
                        values::masked_checked_sum(&column, mask),
                        checked,
                    )?;
            }
        )*
        return Ok(calls $(+ narrow!($case, $random, $value))*);
    };
}

/// The calls for a type of any width: the wrapping sum, the least and the greatest.
macro_rules! narrow {
    ($case:ident, $random:ident, $value:ty) => {{
        let column = column!($value, $case, $random);
        let mut calls = 0;
        for mask in [Some($case.right()), None] {
            let chosen = selected($case, &column, mask);
            let wrapped = chosen
                .iter()
                .fold(0, |sum: $value, &it| sum.wrapping_add(it));
            let (least, greatest) = (chosen.iter().copied().min(), chosen.iter().copied().max());
            calls += same(
                "masked_wrapping_sum",
                values::masked_wrapping_sum(&column, mask),
                wrapped,
            )? + same("masked_min", values::masked_min(&column, mask), least)?
                + same("masked_max", values::masked_max(&column, mask), greatest)?;
        }
        calls
    }};
}

fn selected<T: Copy>(case: &Case, column: &[T], mask: Option<Bits<'_>>) -> Vec<T> {
    let is_in = |&i: &usize| mask.is_none() || bit(&case.right, case.r + i);
    (0..case.len).filter(is_in).map(|i| column[i]).collect()
}

fn up_to_64_bits(case: &Case, random: &mut Random) -> Result<u64, String> {
    wide! {
        case, random:
        u8 as u128; u16 as u128; u32 as u128; u64 as u128; usize as u128;
        i8 as i128; i16 as i128; i32 as i128; i64 as i128; isize as i128;
    }
}

pub fn compare(case: &Case, random: &mut Random) -> Result<u64, String> {
    Ok(up_to_64_bits(case, random)? + narrow!(case, random, u128) + narrow!(case, random, i128))
}
