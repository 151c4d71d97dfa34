//! Questions on one window, and the comparison of two.

use std::fmt::Debug;

use vortex_bits::{Bitmap, Ranks, blocks};

use crate::case::Case;
use crate::plain;

/// Compares a result with `wanted`.
pub fn same<T: PartialEq<U> + Debug, U: Debug>(
    name: &str,
    got: T,
    wanted: U,
) -> Result<u64, String> {
    if got == wanted {
        Ok(1)
    } else {
        Err(format!("{name} returns {got:?} in place of {wanted:?}"))
    }
}

pub fn compare(case: &Case) -> Result<u64, String> {
    let (bits, n) = (case.left(), case.n);
    let list = plain::bits(bits);
    let trues = plain::places(&list, true);
    let falses = plain::places(&list, false);
    Ok(same("count_ones", bits.count_ones(), trues.len())?
        + same("count_zeros", bits.count_zeros(), falses.len())?
        + same("select", bits.select(n), trues.get(n).copied())?
        + same("select_unset", bits.select_unset(n), falses.get(n).copied())?
        + same("last_set", bits.last_set(), trues.last().copied())?
        + same("any", bits.any(), !trues.is_empty())?
        + same("all", bits.all(), falses.is_empty())?
        + same("get", bits.get(n), list.get(n).copied())?
        + same(
            "==",
            bits == case.right(),
            list == plain::bits(case.right()),
        )?
        + nearest(case, &list)?
        + walks(case, &list, &trues)?
        + ranks(case, &list, &trues, &falses)?)
}

/// The nearest bits at or after a position, and before it: at `n`, at the end, and past the end.
fn nearest(case: &Case, list: &[bool]) -> Result<u64, String> {
    let bits = case.left();
    let mut calls = 0;
    for n in [case.n, case.len, usize::MAX] {
        let cut = n.min(list.len());
        let after = |value| (cut..list.len()).find(|&i| list[i] == value);
        let before = |value| (0..cut).rev().find(|&i| list[i] == value);
        calls += same("next_set", bits.next_set(n), after(true))?
            + same("next_unset", bits.next_unset(n), after(false))?
            + same("previous_set", bits.previous_set(n), before(true))?
            + same("previous_unset", bits.previous_unset(n), before(false))?;
    }
    Ok(calls)
}

/// Returns the number of items that a walk writes to an output of `room` items, and this output.
/// The items after them stay `usize::MAX`.
fn filled(items: &[usize], room: usize) -> (usize, Vec<usize>) {
    let mut out = items[..room.min(items.len())].to_vec();
    let count = out.len();
    out.resize(room, usize::MAX);
    (count, out)
}

/// Compares the iterators: `n` single steps, and then the rest in one call.
fn walks(case: &Case, list: &[bool], trues: &[usize]) -> Result<u64, String> {
    let (bits, n) = (case.left(), case.n);
    let mut out = vec![usize::MAX; n];
    let count = bits.write_set_indices(&mut out);
    let mut narrow = vec![u32::MAX; n];
    let narrow_count = bits.write_set_indices_u32(&mut narrow);
    let written: Vec<u32> = out[..count].iter().map(|&place| place as u32).collect();
    let mut places = bits.set_indices();
    let mut stepped: Vec<usize> = places.by_ref().take(n).collect();
    let left = places.len();
    places.for_each(|place| stepped.push(place));
    let mut slices = bits.set_slices();
    let mut runs: Vec<_> = slices.by_ref().take(n / 3).collect();
    slices.for_each(|run| runs.push(run));
    let mut all = bits.iter();
    let mut bools: Vec<bool> = all.by_ref().take(n).collect();
    let rest = all.len();
    all.for_each(|bit| bools.push(bit));
    Ok(same("write_set_indices", (count, out), filled(trues, n))?
        + same(
            "write_set_indices_u32",
            (narrow_count, &narrow[..count]),
            (count, &written[..]),
        )?
        + same(
            "behind them",
            narrow[count..].iter().all(|&place| place == u32::MAX),
            true,
        )?
        + same("set_indices", stepped, trues)?
        + same("set_indices, left", left, trues.len().saturating_sub(n))?
        + same("set_slices", runs, plain::runs(list))?
        + same("iter", bools, list)?
        + same("iter, left", rest, list.len().saturating_sub(n))?
        + same(
            "words",
            bits.words().collect::<Vec<_>>(),
            plain::words(list),
        )?)
}

/// Compares ranks over a table, which has one entry more than there are blocks. Calls over a table
/// of wrong counts must end; their results are meaningless.
fn ranks(case: &Case, list: &[bool], trues: &[usize], falses: &[usize]) -> Result<u64, String> {
    let (bits, n) = (case.left(), case.n);
    let mut table = vec![usize::MAX; blocks(case.len) + 1];
    let wrong = Ranks::with_table(bits, &table);
    let _ = (
        wrong.count(),
        wrong.select(n),
        wrong.select_unset(n),
        wrong.try_rank(n),
    );
    let _ = Ranks::new(bits, &mut table);
    let ranked = Bitmap::new(case.left.as_slice(), case.l, case.len).ranked();
    let i = n.min(list.len());
    let wanted = list[..i].iter().filter(|&&bit| bit).count();
    let mut calls = same("the table", table.last(), Some(&usize::MAX))?;
    for ranks in [Ranks::with_table(bits, &table), ranked.ranks()] {
        calls += same("rank", ranks.rank(i), wanted)?
            + same("count by ranks", ranks.count(), trues.len())?
            + same("select by ranks", ranks.select(n), trues.get(n).copied())?
            + same(
                "select_unset by ranks",
                ranks.select_unset(n),
                falses.get(n).copied(),
            )?;
    }
    Ok(calls)
}
