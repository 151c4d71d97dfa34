//! Bits and values taken at indices or filtered by a mask; bits are written at any offset too.

use std::fmt::Debug;

use vortex_bits::{
    BitIndex, Bits, BitsMut, Compare, Comparison, TakeError, TakeValuesError, Value, values,
};

use crate::ask::same;
use crate::case::{Case, bit, put};
use crate::random::Random;

/// Bytes of any contents, enough for `len` bits from bit `l` or `r` on.
fn room(case: &Case, len: usize) -> Vec<u8> {
    let size = (case.l.max(case.r) + len).div_ceil(8) + 2;
    case.right.iter().copied().cycle().take(size).collect()
}

/// Returns the bytes after a take at these indices, with false bits at positions where `counts` is
/// false. The error is the first position that counts whose index is out of range.
fn taken(case: &Case, places: &[usize], counts: impl Fn(usize) -> bool) -> Result<Vec<u8>, usize> {
    let past = |&p: &usize| counts(p) && places[p] >= case.len;
    if let Some(position) = (0..places.len()).find(past) {
        return Err(position);
    }
    let mut bytes = room(case, places.len());
    for (p, &place) in places.iter().enumerate() {
        put(
            &mut bytes,
            case.r + p,
            counts(p) && bit(&case.left, case.l + place),
        );
    }
    Ok(bytes)
}

/// The result of a call that writes from bit `r` of the bytes of [`room`] on.
fn answer(
    case: &Case,
    len: usize,
    take: impl FnOnce(BitsMut<'_>) -> Result<(), TakeError>,
) -> Result<Result<Vec<u8>, usize>, String> {
    let mut bytes = room(case, len);
    match take(BitsMut::new(&mut bytes, case.r, len)) {
        Ok(()) => Ok(Ok(bytes)),
        Err(TakeError::Index { position, .. }) => Ok(Err(position)),
        Err(refused) => Err(refused.to_string()),
    }
}

/// Compares takes by a type of indices. An index out of range or too large for the type becomes
/// `past`.
fn takes<I: BitIndex + TryFrom<usize> + Debug>(
    case: &Case,
    places: &[usize],
    past: I,
) -> Result<u64, String>
where
    I: Copy,
{
    let index = |&place: &usize| match I::try_from(place) {
        Ok(index) if place < case.len => index,
        _ => past,
    };
    let indices: Vec<I> = places.iter().map(index).collect();
    let valid = Bits::new(&case.right, case.r, places.len());
    let len = places.len();
    let all = answer(case, len, |out| case.left().try_take_into(&indices, out))?;
    let some = answer(case, len, |out| {
        case.left().try_take_valid_into(&indices, valid, out)
    })?;
    let counts = |p| bit(&case.right, case.r + p);
    Ok(same("take_into", all, taken(case, places, |_| true))?
        + same("take_valid_into", some, taken(case, places, counts))?
        + values_at(case, places, &indices, |i| i as u8)?
        + values_at(case, places, &indices, |i| i as i16)?
        + values_at(case, places, &indices, |i| i as f32)?
        + values_at(case, places, &indices, |i| [i as u16, 7])?
        + values_at(case, places, &indices, |i| i as u64)?
        + values_at(case, places, &indices, |i| !(i as i128))?)
}

/// Values of one type at the same indices: all of them, and only the valid ones.
fn values_at<T: Value + PartialEq + Debug, I: BitIndex>(
    case: &Case,
    places: &[usize],
    indices: &[I],
    value: impl Fn(usize) -> T,
) -> Result<u64, String> {
    let column: Vec<T> = (0..case.len).map(&value).collect();
    let valid = Bits::new(&case.right, case.r, places.len());
    let taken = |counts: &dyn Fn(usize) -> bool| -> Result<Vec<Option<T>>, usize> {
        (0..places.len())
            .map(|p| match counts(p) {
                true => column.get(places[p]).copied().map(Some).ok_or(p),
                false => Ok(None),
            })
            .collect()
    };
    let given =
        |wanted: &Result<Vec<Option<T>>, usize>, out: Result<Vec<T>, TakeValuesError>| match (
            wanted, out,
        ) {
            (Ok(wanted), Ok(out)) => {
                let zero = values::take_valid(&column, &[0u8], Bits::new(&[0], 0, 1))[0];
                wanted.iter().map(|it| it.unwrap_or(zero)).eq(out)
            }
            (Err(wanted), Err(TakeValuesError::Index { position, .. })) => *wanted == position,
            _ => false,
        };
    let counts = |p| bit(&case.right, case.r + p);
    let all = given(&taken(&|_| true), values::try_take(&column, indices));
    let some = given(
        &taken(&counts),
        values::try_take_valid(&column, indices, valid),
    );
    Ok(same("values::take", all, true)? + same("values::take_valid", some, true)?)
}

fn filters(case: &Case) -> Result<u64, String> {
    let mask = case.right();
    let kept: Vec<usize> = (0..case.len)
        .filter(|&i| bit(&case.right, case.r + i))
        .collect();
    let mut bytes = room(case, kept.len());
    let out = BitsMut::new(&mut bytes, case.r, kept.len());
    case.left().filter_into(mask, out);
    let some = Bits::new(&bytes, case.r, kept.len());
    let mut back = room(case, case.len);
    some.deposit_into(mask, BitsMut::new(&mut back, case.l, case.len));
    let mut wanted = room(case, case.len);
    for i in 0..case.len {
        let both = bit(&case.left, case.l + i) && bit(&case.right, case.r + i);
        put(&mut wanted, case.l + i, both);
    }
    Ok(same(
        "filter_into",
        Ok(&bytes),
        taken(case, &kept, |_| true).as_ref(),
    )? + same("deposit_into", &back, &wanted)?)
}

/// Values of one width, some of which the mask selects.
fn keeps<T: Value + Copy + PartialEq + Debug>(
    case: &Case,
    value: impl Fn(usize) -> T,
) -> Result<u64, String> {
    let values: Vec<T> = (0..case.len).map(&value).collect();
    let mut out: Vec<T> = (0..case.len + 1).map(|_| value(case.len)).collect();
    let mut wanted = out.clone();
    let kept: Vec<T> = (0..case.len)
        .filter(|&i| bit(&case.right, case.r + i))
        .map(&value)
        .collect();
    wanted[..kept.len()].copy_from_slice(&kept);
    let count = case.right().keep_into(&values, &mut out);
    let mut back: Vec<T> = (0..case.len).map(|_| value(case.len)).collect();
    let mut scattered = back.clone();
    for i in (0..case.len).filter(|&i| bit(&case.right, case.r + i)) {
        scattered[i] = values[i];
    }
    let put = case.right().scatter_into(&out[..kept.len() + 1], &mut back);
    let mut column = values.clone();
    let retained = values::retain(&mut column, case.right());
    let mut front = values.clone();
    front[..kept.len()].copy_from_slice(&kept);
    Ok(same("keep_into", (count, out), (kept.len(), wanted))?
        + same("retain", (retained, column), (kept.len(), front))?
        + same("scatter_into", (put, back), (kept.len(), scattered))?)
}

/// Compares values with a number and with other values, by each comparison.
fn compares<T: Compare + Debug>(case: &Case, value: impl Fn(usize) -> T) -> Result<u64, String> {
    let column: Vec<T> = (0..case.len)
        .map(|i| value(3 * usize::from(bit(&case.left, case.l + i)) + i % 3))
        .collect();
    let others: Vec<T> = (0..case.len).map(|i| value(i % 5)).collect();
    let number = value(3);
    let mut calls = 0;
    for (op, holds) in [
        (Comparison::Equal, T::eq as fn(&T, &T) -> bool),
        (Comparison::NotEqual, T::ne),
        (Comparison::Less, T::lt),
        (Comparison::LessOrEqual, T::le),
        (Comparison::Greater, T::gt),
        (Comparison::GreaterOrEqual, T::ge),
    ] {
        let (mut one, mut all) = (room(case, case.len), room(case, case.len));
        let (mut wanted, mut pairs) = (one.clone(), all.clone());
        for i in 0..case.len {
            put(&mut wanted, case.r + i, holds(&column[i], &number));
            put(&mut pairs, case.r + i, holds(&column[i], &others[i]));
        }
        values::compare_into(
            &column,
            op,
            number,
            BitsMut::new(&mut one, case.r, case.len),
        );
        let out = BitsMut::new(&mut all, case.r, case.len);
        values::compare_with_into(&column, op, &others, out);
        calls += same("compare_into", one, wanted)? + same("compare_with_into", all, pairs)?;
    }
    Ok(calls)
}

/// Compares comparisons of values of each type, near the ends of its range.
fn comparisons(case: &Case) -> Result<u64, String> {
    Ok(compares(case, |i| (i as u8).wrapping_sub(2))?
        + compares(case, |i| i as i8 - 3)?
        + compares(case, |i| (i as u16).wrapping_sub(3))?
        + compares(case, |i| i16::MIN.wrapping_add(i as i16 - 2))?
        + compares(case, |i| (i as u32).wrapping_sub(4))?
        + compares(case, |i| i as i32 - 3)?
        + compares(case, |i| (i as u64).wrapping_sub(3))?
        + compares(case, |i| i64::MIN.wrapping_add(i as i64 - 2))?
        + compares(case, |i| i.wrapping_sub(1))?
        + compares(case, |i| i as isize - 3)?
        + compares(case, |i| i as u128)?
        + compares(case, |i| i as i128 - 3)?
        + compares(case, |i| if i == 4 { f32::NAN } else { i as f32 - 3.0 })?
        + compares(case, |i| if i == 3 { f64::NAN } else { i as f64 })?
        + compares(case, |i| {
            [f32::INFINITY, -0.0, 0.0, f32::NAN, f32::MIN][i % 5]
        })?
        + compares(case, |i| {
            [0.0, f64::NAN, f64::NEG_INFINITY, -0.0, 1.0][i % 5]
        })?)
}

/// Compares takes by narrow types of indices, from at most 200 bits that these can index. In half
/// of the cases an index may be past these bits.
fn narrow<I, J>(case: &Case, random: &mut Random, past: I, negative: J) -> Result<u64, String>
where
    I: BitIndex + TryFrom<usize> + Debug + Copy,
    J: BitIndex + TryFrom<usize> + Debug + Copy,
{
    let below = (0..case.len.min(200))
        .take_while(|&place| J::try_from(place).is_ok())
        .count();
    let few = Case {
        left: case.left.clone(),
        right: case.right.clone(),
        len: below,
        ..*case
    };
    let most = below + random.below(2);
    let count = random.below(if most == 0 { 1 } else { case.len + 1 });
    let places: Vec<usize> = (0..count).map(|_| random.below(most)).collect();
    Ok(takes(&few, &places, past)? + takes(&few, &places, negative)?)
}

/// In half of the cases an index may be past the window.
pub fn compare(case: &Case, random: &mut Random) -> Result<u64, String> {
    let most = case.len + random.below(2);
    let count = if most == 0 {
        0
    } else {
        random.below(case.len + 1)
    };
    let places: Vec<usize> = (0..count).map(|_| random.below(most)).collect();
    Ok(filters(case)?
        + comparisons(case)?
        + keeps(case, |i| i as u8)?
        + keeps(case, |i| i as i16)?
        + keeps(case, |i| i as f32)?
        + keeps(case, |i| i as u64)?
        + keeps(case, |i| i as u128)?
        + narrow(case, random, u8::MAX, -1i8)?
        + narrow(case, random, u16::MAX, i16::MIN)?
        + takes(case, &places, u32::MAX)?
        + takes(case, &places, case.len as u64)?
        + takes(case, &places, case.len)?
        + takes(case, &places, -1i32)?
        + takes(case, &places, i64::MIN)?)
}
