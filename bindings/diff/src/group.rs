//! Counts, sums, minimum, maximum and bitmaps by group, and sums, minimum and maximum of floats, of
//! the rows that a mask selects, and of all rows.

use vortex_bits::{BitIndex, Bitmap, Bits, GroupError, values};

use crate::ask::same;
use crate::case::Case;
use crate::random::Random;

/// The number of groups.
const GROUPS: usize = 100;

/// The counts and the sums of plain loops; or the first selected row without a group.
fn plain(
    case: &Case,
    mask: Option<Bits<'_>>,
    codes: &[i128],
    column: &[i64],
) -> Result<([u64; GROUPS], [i64; GROUPS]), usize> {
    let (mut counts, mut sums) = ([3; GROUPS], [5; GROUPS]);
    for row in (0..case.len).filter(|&row| case.is_selected(mask, row)) {
        let group = usize::try_from(codes[row]).ok().filter(|&it| it < GROUPS);
        let group = group.ok_or(row)?;
        counts[group] += 1;
        sums[group] = column[row].wrapping_add(sums[group]);
    }
    Ok((counts, sums))
}

/// Compares the bitmaps by code. `refused` is the first selected row whose code has no bitmap.
fn by_code<I: BitIndex>(
    case: &Case,
    mask: Option<Bits<'_>>,
    codes: &[I],
    wide: &[i128],
    refused: Option<usize>,
) -> Result<u64, String> {
    let got = values::try_bitmaps_by_code(codes, GROUPS, mask);
    let got = match got {
        Ok(bitmaps) => bitmaps,
        Err(error) => return same("bitmaps_by_code", Some(row_of(error)), refused),
    };
    let mut calls = same("bitmaps_by_code", None, refused)?;
    let rows = (0..case.len).filter(|&it| case.is_selected(mask, it));
    let found: usize = got.iter().map(Bitmap::count_ones).sum();
    calls += same("the rows of all bitmaps by code", found, rows.count())?;
    for (code, bitmap) in (0..).zip(&got).step_by(7) {
        let rows = (0..case.len).filter(|&it| case.is_selected(mask, it) && wide[it] == code);
        let found: Vec<usize> = bitmap.set_indices().collect();
        calls += same("a bitmap by code", found, rows.collect::<Vec<usize>>())?;
    }
    Ok(calls)
}

/// The minimum and the maximum of each group.
fn extremes<I: BitIndex>(
    case: &Case,
    mask: Option<Bits<'_>>,
    codes: &[I],
    column: &[i64],
    wide: &[i128],
    refused: Option<usize>,
) -> Result<u64, String> {
    let [mut least, mut greatest] = [[Some(-7); GROUPS]; 2];
    let [mut min, mut max] = [least; 2];
    let rows = (0..case.len).filter(|&row| refused.is_none() && case.is_selected(mask, row));
    for row in rows {
        let group = usize::try_from(wide[row]).map_err(|it| it.to_string())?;
        min[group] = min[group].min(Some(column[row]));
        max[group] = max[group].max(Some(column[row]));
    }
    let below = values::try_group_min(&mut least, codes, column, mask).map_err(row_of);
    let above = values::try_group_max(&mut greatest, codes, column, mask).map_err(row_of);
    Ok(same("group_min", (below.err(), least), (refused, min))?
        + same("group_max", (above.err(), greatest), (refused, max))?)
}

/// All calls with codes of each type. In half of the cases each code has a group; in the others a
/// few codes may have none.
macro_rules! grouped {
    ($case:ident, $random:ident: $($code:ty)*) => {{
        let mut calls = 0;
        $(
            let any = |random: &mut Random| match random.below(200) {
                0 if $case.value => random.next() as $code,
                _ => random.below(GROUPS) as $code,
            };
            let codes: Vec<$code> = (0..$case.len).map(|_| any($random)).collect();
            let column: Vec<i64> = (0..$case.len).map(|_| $random.next() as i64).collect();
            let wide: Vec<i128> = codes.iter().map(|&code| code as i128).collect();
            for mask in [Some($case.right()), None] {
                let (mut counts, mut sums) = ([3; GROUPS], [5; GROUPS]);
                let counted = values::try_group_counts(&mut counts, &codes, mask).map_err(row_of);
                let summed =
                    values::try_group_sums(&mut sums, &codes, &column, mask).map_err(row_of);
                let wanted = plain($case, mask, &wide, &column);
                let refused = wanted.err();
                let (all, total) = wanted.unwrap_or(([3; GROUPS], [5; GROUPS]));
                calls += same("group_counts", (counted.err(), counts), (refused, all))?
                    + same("group_sums", (summed.err(), sums), (refused, total))?
                    + by_code($case, mask, &codes, &wide, refused)?
                    + extremes($case, mask, &codes, &column, &wide, refused)?;
            }
        )*
        calls
    }};
}

fn row_of(error: GroupError) -> usize {
    match error {
        GroupError::Code { row, .. } => row,
        other => unreachable!("{other}"),
    }
}

/// Sums, minimum and maximum of floats that have any bits, or are each one of seven values.
macro_rules! floats {
    ($case:ident, $random:ident: $($float:ident)*) => {{
        let mut calls = 0;
        $(
            let few = [0.0, -0.0, 1.5, -2.25, $float::INFINITY, $float::NAN, $float::MIN_POSITIVE];
            let any = |random: &mut Random| match $case.value {
                true => $float::from_bits(random.next() as _),
                false => few[random.below(few.len())],
            };
            let column: Vec<$float> = (0..$case.len).map(|_| any($random)).collect();
            for mask in [Some($case.right()), None] {
                let rows = (0..$case.len).filter(|&row| $case.is_selected(mask, row));
                let chosen: Vec<$float> = rows.map(|row| column[row]).collect();
                let sum = chosen.iter().fold(0.0, |sum: $float, value| sum + value);
                let numbers = || chosen.iter().copied().filter(|it| !it.is_nan());
                let bits = |value: Option<$float>| value.map($float::to_bits);
                let got = values::masked_float_sum(&column, mask);
                calls += same("masked_float_sum", got.is_nan(), sum.is_nan())?
                    + same(
                        "masked_float_sum",
                        got.is_nan() || got.to_bits() == sum.to_bits(),
                        true,
                    )?
                    + same(
                        "masked_float_min",
                        bits(values::masked_float_min(&column, mask)),
                        bits(numbers().min_by($float::total_cmp)),
                    )?
                    + same(
                        "masked_float_max",
                        bits(values::masked_float_max(&column, mask)),
                        bits(numbers().max_by($float::total_cmp)),
                    )?;
            }
        )*
        calls
    }};
}

pub fn compare(case: &Case, random: &mut Random) -> Result<u64, String> {
    let grouped = grouped!(case, random: u8 u16 u32 u64 u128 usize i8 i16 i32 i64 i128 isize);
    Ok(grouped + floats!(case, random: f32 f64))
}
