//! Calls that do a step of a query at once, compared with plain loops over rows, at every offset of
//! the bits that they read and write: two counts, comparisons in place, members of a set, and the
//! first `k` of an order.
use rows::{Random, Rows, each};
use support::panics;
use vortex_bits::*;

#[path = "support/rows.rs"]
mod rows;
mod support;

#[test]
fn two_counts_are_those_of_a_loop() {
    each(|random, rows| {
        let (bytes, offset) = (
            random.bytes(),
            [rows.offset, random.below(10)][random.below(2)],
        );
        let left = Bits::new(&bytes, offset, rows.len);
        let count = |with| {
            let found = |row: &usize| left[*row] && rows.is_selected(*row) == with;
            (0..rows.len).filter(found).count()
        };
        let wanted = (count(true), count(false));
        assert_eq!(left.split_count(rows.mask), wanted);
        assert_eq!(Bitmap::from(left).split_count(rows.mask), wanted);
        let one_by_one = (left.and_count(rows.mask), left.and_not_count(rows.mask));
        assert_eq!(one_by_one, wanted);
    });
    let bits = Bitmap::new_set(70);
    let refused = panics(|| assert_eq!(bits.split_count(Bitmap::new_set(71)), (0, 0)));
    assert_eq!(refused.unwrap(), "a mask of 71 bits for 70");
}

/// On x86 without `popcnt`, portable code counts whole bytes in blocks of 1,024 bits, and the rest
/// by words.
#[test]
fn counts_of_blocks_are_those_of_a_loop() {
    let mut random = Random(3);
    for len in [1023, 1024, 1025, 2047, 2048, 2112, 9215, 9216, 9300] {
        for (offset, other) in [(0, 0), (8, 16), (3, 3), (3, 8)] {
            let mut bytes = || -> Vec<u8> { (0..40).flat_map(|_| random.bytes()).collect() };
            let bytes = [bytes(), bytes()];
            let left = Bits::new(&bytes[0], offset, len);
            let right = Bits::new(&bytes[1], other, len);
            let rows = |is: fn(bool, bool) -> bool| {
                (0..len).filter(|&row| is(left[row], right[row])).count()
            };
            let wanted = [
                rows(|a, b| a && b),
                rows(|a, b| a && !b),
                rows(|a, b| a ^ b),
            ];
            let (with, without) = left.split_count(right);
            assert_eq!([with, without, left.xor_count(right)], wanted, "{len} bits");
            assert_eq!(
                [left.and_count(right), left.and_not_count(right)],
                wanted[..2]
            );
            assert_eq!(
                left.count_ones(),
                wanted[0] + wanted[1],
                "{len} bits at {offset}"
            );
        }
    }
}

#[test]
fn comparisons_of_64_bits_are_those_of_one_value() {
    let ends = [
        i64::MIN,
        i64::MIN + 1,
        -2,
        -1,
        0,
        1,
        2,
        i64::MAX - 1,
        i64::MAX,
    ];
    let column: Vec<i64> = ends.iter().copied().cycle().take(150).collect();
    let floats = [f64::NAN, -0.0, 0.0, 1.5, f64::INFINITY, f64::NEG_INFINITY];
    let prices: Vec<f64> = floats.iter().copied().cycle().take(150).collect();
    for op in ALL {
        for end in ends {
            let wanted: Bitmap = column.iter().map(|it| holds(*it, op, end)).collect();
            assert_eq!(values::compare(&column, op, end), wanted, "{op:?} {end}");
        }
        for end in floats {
            let wanted: Bitmap = prices.iter().map(|it| holds(*it, op, end)).collect();
            assert_eq!(values::compare(&prices, op, end), wanted, "{op:?} {end}");
        }
    }
}

/// Indices of each width are tested against a length in their own width.
#[test]
fn the_first_index_of_no_row_is_refused_in_each_width() {
    #[track_caller]
    fn refused<I: BitIndex>(index: I, len: usize, is: bool) {
        let (indices, rows) = ([index; 70], Validity::new(None, len));
        let position = rows.try_take(&indices).map_err(|error| match error {
            TakeError::Index { position, .. } => position,
            _ => usize::MAX,
        });
        assert_eq!(position, if is { Err(0) } else { Ok(None) });
        let valid = Bitmap::new_unset(70);
        assert!(
            rows.try_take_valid(&indices, Validity::from(valid.bits()))
                .is_ok()
        );
    }
    refused(0u8, 0, true);
    refused(255u8, 255, true);
    refused(255u8, 256, false);
    refused(127i8, 127, true);
    refused(127i8, 128, false);
    refused(-1i8, 1000, true);
    refused(-1i64, usize::MAX, true);
    refused(i32::MIN, 3, true);
    refused(65_535u16, 65_536, false);
    refused(u64::MAX, 10, true);
    refused(u128::MAX, usize::MAX, true);
    refused(9i128, 10, false);
}

const ALL: [Comparison; 6] = [
    Comparison::Equal,
    Comparison::NotEqual,
    Comparison::Less,
    Comparison::LessOrEqual,
    Comparison::Greater,
    Comparison::GreaterOrEqual,
];

fn holds<T: PartialOrd + Copy>(value: T, op: Comparison, number: T) -> bool {
    match op {
        Comparison::Equal => value == number,
        Comparison::NotEqual => value != number,
        Comparison::Less => value < number,
        Comparison::LessOrEqual => value <= number,
        Comparison::Greater => value > number,
        Comparison::GreaterOrEqual => value >= number,
    }
}

/// Compares in place from bit `offset` of the bytes on. No other bit may change.
#[track_caller]
fn compared<T: Compare>(column: &[T], number: T, bytes: &[u8], offset: usize) {
    for op in ALL {
        let (mut got, mut wanted) = (bytes.to_vec(), bytes.to_vec());
        values::and_compare(
            column,
            op,
            number,
            BitsMut::new(&mut got, offset, column.len()),
        );
        for (row, &value) in column.iter().enumerate() {
            let bit = offset + row;
            wanted[bit / 8] &= !(u8::from(!holds(value, op, number)) << (bit % 8));
        }
        assert_eq!(got, wanted, "{op:?} of {} from bit {offset}", column.len());
    }
}

#[test]
fn comparisons_in_place_are_those_of_a_loop() {
    const FLOATS: [f64; 5] = [0.0, -0.0, 1.5, f64::NAN, f64::NEG_INFINITY];
    each(|random, rows| {
        let bytes = random.bytes();
        let few: Vec<i64> = (0..rows.len)
            .map(|_| i64::from(random.below(3) == 0) - 1)
            .collect();
        compared(&few, -1, &bytes, rows.offset);
        let floats: Vec<f64> = (0..rows.len).map(|_| FLOATS[random.below(5)]).collect();
        compared(&floats, FLOATS[random.below(5)], &bytes, rows.offset);
    });
    // Blocks of the comparison.
    for len in [511usize, 512, 513, 1024, 1100] {
        let column: Vec<u8> = (0..len).map(|row| (row % 7).to_le_bytes()[0]).collect();
        compared(&column, 3, &[0xA7; 140], 5);
    }
    for len in [1usize, 64, 511, 512, 513, 1100] {
        // A block begins with another value than the one before it.
        let column: Vec<usize> = (0..len).map(|row| row % 7).collect();
        let others: Vec<usize> = column.iter().map(|it| 6 - it).collect();
        let (mut got, mut wanted) = (vec![0xB6; 140], vec![0xB6; 140]);
        let out = BitsMut::new(&mut got, 3, len);
        values::and_compare_with(&column, Comparison::Less, &others, out);
        for (row, (value, other)) in column.iter().zip(&others).enumerate() {
            wanted[(3 + row) / 8] &= !(u8::from(value >= other) << ((3 + row) % 8));
        }
        assert_eq!(got, wanted, "{len}");
    }
    let (mut mask, column) = (Bitmap::new_set(70), [0u8; 71]);
    let refused = panics(|| values::and_compare(&column, Comparison::Less, 0, mask.bits_mut()));
    assert!(refused.is_some() && mask.all());
}

#[test]
fn values_without_another_one_are_refused_by_name() {
    let (values, others, less) = ([0u8; 3], [1u8; 2], Comparison::Less);
    let mut rows = Bitmap::new_set(3);
    let refused = [
        panics(|| _ = values::compare_with(&values, less, &others)),
        panics(|| values::compare_with_into(&values, less, &others, rows.bits_mut())),
        panics(|| values::and_compare_with(&values, less, &others, rows.bits_mut())),
    ];
    assert!(
        refused
            .iter()
            .all(|it| it.as_deref() == Some("2 others for 3 values"))
    );
    assert!(rows.all());
}

/// Tests the members of a set by a type of values.
macro_rules! members {
    ($random:ident, $rows:ident, $set:ident: $($value:ty)*) => {$(
        let any = |random: &mut Random| match random.below(9) {
            0 => random.next() as $value,
            _ => (random.below($set.len() + 3) as $value).wrapping_sub(1),
        };
        let column: Vec<$value> = (0..$rows.len).map(|_| any($random)).collect();
        let is_in = |row: usize| {
            let place = usize::try_from(column[row]).ok();
            $rows.is_selected(row) && place.and_then(|it| $set.get(it)) == Some(true)
        };
        let found = values::is_in(&column, $set, $rows.mask);
        assert!(found.iter().eq((0..$rows.len).map(is_in)), "{column:?} {:?}", $set);
        let (mut got, offset) = ($random.bytes(), $random.below(10));
        let mut wanted = got.clone();
        let mut out = BitsMut::new(&mut wanted, offset, $rows.len);
        (0..$rows.len).for_each(|row| out.set(row, is_in(row)));
        let out = BitsMut::new(&mut got, offset, $rows.len);
        values::is_in_into(&column, $set, $rows.mask, out);
        assert_eq!(got, wanted);
        let (mut got, offset) = ($random.bytes(), $random.below(10));
        let mut wanted = got.clone();
        let mut out = BitsMut::new(&mut wanted, offset, $rows.len);
        for (row, value) in column.iter().enumerate() {
            let place = usize::try_from(*value).ok();
            let is_in = place.and_then(|it| $set.get(it)) == Some(true);
            out.set(row, is_in && out.as_bits()[row]);
        }
        values::and_is_in(&column, $set, BitsMut::new(&mut got, offset, $rows.len));
        assert_eq!(got, wanted);
    )*};
}

#[test]
#[allow(
    clippy::cast_possible_truncation,
    clippy::cast_possible_wrap,
    reason = "any value will do"
)]
#[allow(clippy::cast_lossless, reason = "of each type")]
fn members_of_a_set_are_those_of_a_loop() {
    each(|random, rows| {
        let bytes = random.bytes();
        let set = Bits::new(&bytes, random.below(10), random.below(100));
        members!(random, rows, set: i8 u32 i64 u128);
        let set = Bits::new(&[], 0, 0);
        members!(random, rows, set: u8 i64);
    });
    let (set, mask) = (Bitmap::new_set(5), Bitmap::new_set(3));
    assert!(panics(|| drop(values::is_in(&[1, 2], &set, &mask))).is_some());
    let mut out = Bitmap::new_unset(3);
    let into = || values::is_in_into(&[1, 2], &set, None::<Bits>, out.bits_mut());
    assert!(panics(into).is_some() && !out.any());
    let mut kept = Bitmap::new_set(3);
    let and = || values::and_is_in(&[1, 2], &set, kept.bits_mut());
    assert!(panics(and).is_some() && kept.all());
}

/// Blocks of 64 rows of which all, few or none are selected, one after the other.
#[test]
fn members_are_found_where_the_share_of_selected_rows_changes() {
    let mut random = Random(11);
    let set: Bitmap = (0..4000).map(|_| random.below(3) == 0).collect();
    for len in [1000, 1024, 1025, 2113] {
        let shares = [1, 30, usize::MAX, 1, 4, 1];
        let mask: Bitmap = (0..len)
            .map(|row| random.below(shares[row / 64 % shares.len()]) == 0)
            .collect();
        let column: Vec<u16> = (0..len)
            .map(|_| u16::try_from(random.below(4100)).unwrap())
            .collect();
        let is_in = |row: &u16| set.get(usize::from(*row)) == Some(true);
        let all = column.iter().map(is_in);
        let wanted: Bitmap = all.zip(&mask).map(|(is_in, bit)| is_in && bit).collect();
        let wide: Vec<i64> = column.iter().map(|it| i64::from(*it)).collect();
        assert_eq!(values::is_in(&column, &set, &mask), wanted);
        assert_eq!(values::is_in(&wide, &set, &mask), wanted);
        let mut rows = mask.clone();
        values::and_is_in(&wide, &set, rows.bits_mut());
        assert_eq!(rows, wanted, "{len} rows");
    }
}

/// Returns the first `k` selected rows in the order of `total_cmp`, without NaN.
fn ordered(column: &[f64], rows: &Rows<'_>, k: usize, is_greatest: bool) -> Vec<usize> {
    let is_there = |row: &usize| rows.is_selected(*row) && !column[*row].is_nan();
    let mut all: Vec<usize> = (0..rows.len).filter(is_there).collect();
    all.sort_by(|&a, &b| {
        let order = column[a].partial_cmp(&column[b]).unwrap();
        if is_greatest { order.reverse() } else { order }
    });
    all.truncate(k);
    all
}

#[test]
fn the_first_rows_of_an_order_are_those_of_a_sort() {
    const FLOATS: [f64; 7] = [
        0.0,
        -0.0,
        1.5,
        f64::NAN,
        -2.5,
        f64::INFINITY,
        f64::NEG_INFINITY,
    ];
    each(|random, rows| {
        let few = random.below(2) == 0;
        let any = |random: &mut Random| {
            if few {
                FLOATS[random.below(7)]
            } else {
                f64::from(u32::try_from(random.below(1 << 20)).unwrap())
            }
        };
        let column: Vec<f64> = (0..rows.len).map(|_| any(random)).collect();
        let k = [0, 1, 3, 10, 250][random.below(5)];
        let [greatest, least] = [true, false].map(|it| ordered(&column, rows, k, it));
        assert_eq!(
            values::top_k(&column, k, rows.mask),
            greatest,
            "{k} of {column:?}"
        );
        assert_eq!(
            values::bottom_k(&column, k, rows.mask),
            least,
            "{k} of {column:?}"
        );
        // Two batches.
        let mid = random.below(rows.len + 1);
        let mut both = [TopK::greatest(k), TopK::least(k)];
        for (best, wanted) in both.iter_mut().zip([greatest, least]) {
            best.append(&column[..mid], rows.mask.map(|it| it.slice(..mid)));
            best.append(&column[mid..], rows.mask.map(|it| it.slice(mid..)));
            let found: Vec<usize> = best.rows().iter().map(|it| it.1).collect();
            assert_eq!(found, wanted, "{k} of {column:?} in two batches");
            let all = best.clone().into_rows();
            assert!(
                all.iter()
                    .all(|&(value, row)| value.to_bits() == column[row].to_bits())
            );
        }
    });
    let mut best = TopK::least(3);
    best.append(&[5, 4], None::<Bits>);
    assert!(panics(|| best.append(&[1, 2], Bitmap::new_set(3))).is_some());
    best.append(&[1], None::<Bits>);
    assert_eq!(best.rows(), [(1, 2), (4, 1), (5, 0)]);
}

/// Appends random batches of fewer than `most` rows, and compares with a stable sort after each of
/// them. Later values tend to come before those of earlier batches.
fn appended(random: &mut Random, k: usize, most: usize, is_greatest: bool) {
    let (mut best, sign) = if is_greatest {
        (TopK::greatest(k), 1.0)
    } else {
        (TopK::least(k), -1.0)
    };
    let (mut all, mut rows): (Vec<(f64, usize)>, _) = (Vec::new(), 0);
    for _ in 0..30 {
        let len = random.below(most);
        let any = |random: &mut Random| match random.below(20) {
            0 => f64::NAN,
            1 => [0.0, -0.0][rows % 2],
            _ => sign * f64::from(u32::try_from(random.below(60) + rows / 16).unwrap()),
        };
        let batch: Vec<f64> = (0..len).map(|_| any(random)).collect();
        let mask: Bitmap = (0..len).map(|_| random.below(8) > 0).collect();
        best.append(&batch, &mask);
        let new = batch.iter().copied().zip(rows..).zip(&mask);
        all.extend(new.filter_map(|(it, is)| (is && !it.0.is_nan()).then_some(it)));
        all.sort_by(|one, other| {
            let order = one.0.partial_cmp(&other.0).unwrap();
            if is_greatest { order.reverse() } else { order }
        });
        all.truncate(k);
        let bits = |it: &[(f64, usize)]| -> Vec<(u64, usize)> {
            it.iter().map(|it| (it.0.to_bits(), it.1)).collect()
        };
        assert_eq!(bits(best.rows()), bits(&all), "{k} at row {rows}");
        rows += len;
    }
}

/// Up to 16 new values of a batch are inserted one by one; if there are more, all are sorted.
#[test]
fn batches_of_few_values_and_of_many_are_those_of_a_sort() {
    let mut random = Random(7);
    for round in 0..200 {
        let k = [1, 4, 16, 30, 200][random.below(5)];
        let most = [3, 17, 18, 40, 400][random.below(5)];
        appended(&mut random, k, most, round % 2 == 0);
    }
}

/// If the column ascends, each row comes before all earlier rows in the order of `top_k`.
#[test]
#[cfg(not(miri))]
fn the_greatest_values_of_an_ascending_column_are_its_last_ones() {
    const ROWS: usize = 40_000;
    let column: Vec<u64> = (0..ROWS as u64).collect();
    for k in [1, 64, 10_000, ROWS / 2, usize::MAX] {
        let wanted: Vec<usize> = (0..ROWS).rev().take(k).collect();
        assert_eq!(values::top_k(&column, k, None::<Bits>), wanted, "{k}");
    }
    let mut batches = TopK::greatest(100);
    for batch in column.chunks(1000) {
        batches.append(batch, None::<Bits>);
    }
    let wanted: Vec<(u64, usize)> = (0..ROWS)
        .rev()
        .take(100)
        .map(|it| (it as u64, it))
        .collect();
    assert_eq!(batches.rows(), wanted);
}
