//! Steps of queries: two counts, members of a set, comparisons in place, and the first rows of an
//! order, of the rows that a mask selects, and of all rows.

use vortex_bits::{BitIndex, BitsMut, Comparison, TopK, values};

use crate::ask::same;
use crate::case::{Case, bit, put};
use crate::plain;
use crate::random::Random;

/// Compares the counts of set bits on the left: those that are set on the right, and the others.
fn counts(case: &Case) -> Result<u64, String> {
    let (left, right) = (plain::bits(case.left()), plain::bits(case.right()));
    let count = |with| {
        (0..case.len)
            .filter(|&i| left[i] && right[i] == with)
            .count()
    };
    let wanted = (count(true), count(false));
    same("split_count", case.left().split_count(case.right()), wanted)
}

/// Compares which values are the index of a set bit on the left. Some values are out of range.
fn members<I: BitIndex + Copy>(
    case: &Case,
    random: &mut Random,
    of: impl Fn(i64) -> I,
) -> Result<u64, String> {
    let any = |_| random.below(case.len + 3) as i64 - 1;
    let places: Vec<i64> = (0..case.len).map(any).collect();
    let column: Vec<I> = places.iter().map(|&it| of(it)).collect();
    let mut calls = 0;
    for mask in [Some(case.right()), None] {
        let is_in = |row: usize| {
            let place = usize::try_from(places[row])
                .ok()
                .filter(|&it| it < case.len);
            case.is_selected(mask, row) && place.is_some_and(|it| bit(&case.left, case.l + it))
        };
        let wanted: Vec<bool> = (0..case.len).map(is_in).collect();
        let got = values::is_in(&column, case.left(), mask);
        calls += same("is_in", plain::bits(got.bits()), wanted)?;
        let mut into = case.right.clone();
        let out = BitsMut::new(&mut into, case.r, case.len);
        values::is_in_into(&column, case.left(), mask, out);
        let mut put_one_by_one = case.right.clone();
        for (row, is_in) in got.iter().enumerate() {
            put(&mut put_one_by_one, case.r + row, is_in);
        }
        calls += same("is_in_into", into, put_one_by_one)?;
    }
    Ok(calls)
}

fn comparisons(case: &Case, random: &mut Random) -> Result<u64, String> {
    let column: Vec<i32> = (0..case.len).map(|_| random.below(5) as i32 - 2).collect();
    let number = random.below(5) as i32 - 2;
    let (mut got, mut wanted) = (case.left.clone(), case.left.clone());
    let out = BitsMut::new(&mut got, case.l, case.len);
    values::and_compare(&column, Comparison::GreaterOrEqual, number, out);
    for (row, value) in column.iter().enumerate() {
        let holds = bit(&wanted, case.l + row) && *value >= number;
        put(&mut wanted, case.l + row, holds);
    }
    let mut calls = same("and_compare", got.clone(), wanted)?;
    let others: Vec<i32> = (0..case.len).map(|_| random.below(5) as i32 - 2).collect();
    let mut wanted = got.clone();
    let out = BitsMut::new(&mut got, case.l, case.len);
    values::and_compare_with(&column, Comparison::NotEqual, &others, out);
    for (row, (value, other)) in column.iter().zip(&others).enumerate() {
        let holds = bit(&wanted, case.l + row) && value != other;
        put(&mut wanted, case.l + row, holds);
    }
    calls += same("and_compare_with", got.clone(), wanted)?;
    let mut wanted = got.clone();
    values::and_is_in(
        &column,
        case.right(),
        BitsMut::new(&mut got, case.l, case.len),
    );
    for (row, value) in column.iter().enumerate() {
        let is_in = usize::try_from(*value).is_ok_and(|it| case.right().get(it) == Some(true));
        let holds = bit(&wanted, case.l + row) && is_in;
        put(&mut wanted, case.l + row, holds);
    }
    Ok(calls + same("and_is_in", got, wanted)?)
}

fn orders(case: &Case, random: &mut Random) -> Result<u64, String> {
    let most = if case.value { 9 } else { 1 << 20 };
    let column: Vec<f64> = (0..case.len).map(|_| random.below(most) as f64).collect();
    let mut calls = 0;
    for mask in [Some(case.right()), None] {
        let k = if case.n % 8 == 0 { case.n } else { case.n % 40 };
        let mut rows: Vec<usize> = (0..case.len).collect();
        rows.retain(|&row| case.is_selected(mask, row));
        rows.sort_by(|&a, &b| column[a].total_cmp(&column[b]));
        let first = |rows: &[usize]| rows[..rows.len().min(k)].to_vec();
        let least = first(&rows);
        rows.sort_by(|&a, &b| column[b].total_cmp(&column[a]).then(a.cmp(&b)));
        calls += same("bottom_k", values::bottom_k(&column, k, mask), least)?
            + same("top_k", values::top_k(&column, k, mask), first(&rows))?;
        let (mut best, mid) = (TopK::greatest(k), case.len / 3);
        best.append(&column[..mid], mask.map(|it| it.slice(..mid)));
        best.append(&column[mid..], mask.map(|it| it.slice(mid..)));
        let found: Vec<usize> = best.rows().iter().map(|it| it.1).collect();
        calls += same("TopK of two batches", found, first(&rows))?;
    }
    Ok(calls)
}

pub fn compare(case: &Case, random: &mut Random) -> Result<u64, String> {
    Ok(counts(case)?
        + members(case, random, |it| it)?
        + members(case, random, |it| it as u32)?
        + comparisons(case, random)?
        + orders(case, random)?)
}
