//! Values at indices, under masks and by group: errors, widths of values, what stays unchanged, and
//! sums.
use support::panics;
use vortex_bits::*;

mod support;

#[test]
fn values_at_indices_are_refused_by_name() {
    let (column, mut out) = ([1u32, 2, 3], [9; 2]);
    let valid = Bits::new(&[0b110], 0, 3);
    let refused = values::try_take_into(&column, &[0u8], &mut out).unwrap_err();
    assert_eq!(
        refused,
        TakeValuesError::Room {
            room: 2,
            indices: 1
        }
    );
    assert_eq!(refused.to_string(), "1 indices and 2 values to write");
    let refused = values::try_take_valid_into(&column, &[0i64, 1], valid, &mut out).unwrap_err();
    assert_eq!(refused.to_string(), "2 indices and 3 bits of validity");
    assert_eq!(out, [9; 2]);
    let bad = [
        (values::try_take(&column, &[2, -1]), -1),
        (values::try_take(&column, &[2u128, u128::MAX]), i128::MAX),
        (values::try_take(&column, &[0i128, 3]), 3),
        (
            values::try_take(&column, &[0isize, isize::MIN]),
            isize::MIN as i128,
        ),
    ];
    for (answer, index) in bad {
        let refused = answer.unwrap_err();
        assert_eq!(
            refused,
            TakeValuesError::Index {
                position: 1,
                index,
                values: 3
            }
        );
        let text = format!("index {index} at position 1 names none of 3 values");
        assert_eq!(refused.to_string(), text);
        assert!(panics(|| drop(values::take(&column, &[0, 3]))).is_some());
    }
}

#[test]
fn values_of_any_width_and_alignment_are_taken_and_kept() {
    #[track_caller]
    fn each<T: Value + PartialEq + std::fmt::Debug>(column: [T; 200], zero: T) {
        let places: Vec<u8> = (0..200).rev().collect();
        let mut turned = column;
        turned.reverse();
        assert_eq!(values::take(&column, &places), turned);
        let valid: Bitmap = (0..200).map(|i| i % 3 == 0).collect();
        let some = values::take_valid(&column, &places, &valid);
        assert!((0..200).all(|i| some[i] == if i % 3 == 0 { turned[i] } else { zero }));
        let mut kept = vec![zero; 67];
        assert_eq!(valid.bits().keep_into(&column, &mut kept), 67);
        assert!((0..67).all(|i| kept[i] == column[3 * i]));
    }
    let byte = |i| u8::try_from(i).unwrap();
    each(std::array::from_fn(|i| [byte(i); 3]), [0; 3]);
    each(std::array::from_fn(|i| [byte(i); 16]), [0; 16]);
    each(std::array::from_fn(|i| [u64::from(byte(i)); 4]), [0; 4]);
    each(std::array::from_fn(|i| [i64::from(byte(i)), 1]), [0; 2]);
    each(std::array::from_fn(|i| u128::from(byte(i))), 0);
    each(std::array::from_fn(|i| f64::from(byte(i))), 0.0);
    each(std::array::from_fn(|i| i % 2 == 1), false);
}

#[test]
fn values_that_a_mask_keeps_are_added_behind_others() {
    let (mask, none) = (Bits::new(&[0b1_0100], 1, 4), None::<Bits<'_>>);
    let column = [1i16, 2, 3, 4];
    assert_eq!(values::filter(&column, mask), [2, 4]);
    assert_eq!(values::filter(&column, none), column);
    let mut kept = vec![9];
    for mask in [Some(mask), None] {
        values::filter_onto(&column, mask, &mut kept);
    }
    assert_eq!(kept, [9, 2, 4, 1, 2, 3, 4]);
    let text = panics(|| values::filter_onto(&[1], mask, &mut kept));
    assert_eq!(text.as_deref(), Some("a mask of 4 bits for 1"));
    assert_eq!(kept.len(), 7);
}

/// Each number of set bits in a word of the mask, at some offset.
#[test]
fn bits_that_a_mask_keeps_are_those_of_a_loop() {
    for ones in 0..=64 {
        for (offset, len) in [(0, 64), (3, 200), (7, 129)] {
            let chosen = |row: usize| row * 37 % 64 < ones;
            let all: Bitmap = (0..offset + len).map(|row| row * 7919 % 11 < 5).collect();
            let mask: Bitmap = (0..offset + len).map(chosen).collect();
            let (all, mask) = (all.bits().slice(offset..), mask.bits().slice(offset..));
            let kept: Bitmap = mask.set_indices().map(|row| all[row]).collect();
            assert_eq!(all.filter(mask), kept, "{ones} of 64, {len} from {offset}");
        }
    }
}

#[test]
fn values_under_a_mask_are_summed_and_ordered() {
    let all: Vec<i64> = (0..200).map(|row| row * 7919 % 1000 - 500).collect();
    for len in 0..=all.len() {
        let column = &all[..len];
        for step in [1, 2, 40, 300] {
            let mask: Bitmap = (0..len).map(|row| row % step == step / 2).collect();
            let chosen: Vec<i64> = mask.set_indices().map(|row| column[row]).collect();
            let sum: i64 = chosen.iter().sum();
            assert_eq!(values::masked_sum(column, &mask), i128::from(sum));
            assert_eq!(values::masked_checked_sum(column, &mask), Some(sum));
            assert_eq!(values::masked_wrapping_sum(column, &mask), sum);
            let ends = (chosen.iter().min(), chosen.iter().max());
            assert_eq!(values::masked_min(column, &mask).as_ref(), ends.0);
            assert_eq!(values::masked_max(column, &mask).as_ref(), ends.1);
        }
    }
}

#[test]
fn sums_past_the_end_of_their_type() {
    let (mask, none) = (Bits::new(&[0xFF; 9], 1, 70), Bits::new(&[0; 9], 1, 70));
    let most = [u64::MAX; 70];
    assert_eq!(values::masked_sum(&most, mask), 70 * u128::from(u64::MAX));
    assert_eq!(values::masked_checked_sum(&most, mask), None);
    assert_eq!(values::masked_wrapping_sum(&most, mask), u64::MAX - 69);
    assert_eq!(values::masked_checked_sum(&most, none), Some(0));
    assert_eq!(values::masked_max(&most, none), None);
    let turning: [i8; 70] = std::array::from_fn(|row| if row < 35 { 127 } else { -128 });
    for mask in [Some(mask), None] {
        assert_eq!(values::masked_sum(&turning, mask), -35);
        assert_eq!(values::masked_checked_sum(&turning, mask), Some(-35));
        assert_eq!(values::masked_min(&turning, mask), Some(-128));
    }
    let wide = [u128::MAX, 2];
    assert_eq!(values::masked_wrapping_sum(&wide, None::<Bits<'_>>), 1);
    assert_eq!(values::masked_min(&[0i128; 0], None::<Bits<'_>>), None);
    let text = panics(|| _ = values::masked_sum(&most, mask.slice(0..69)));
    assert_eq!(text.as_deref(), Some("a mask of 69 bits for 70"));
}

/// Returns codes, values and a mask. The codes of unselected rows name no group.
fn rows(len: usize, step: usize) -> (Vec<i16>, Vec<i32>, Bitmap) {
    let mask: Bitmap = (0..len).map(|row| row % step == step / 2).collect();
    let code = |row: usize| {
        if mask.bits().get(row) == Some(true) {
            row * 31 % 7
        } else {
            9999
        }
    };
    let codes = (0..len)
        .map(|row| i16::try_from(code(row)).unwrap())
        .collect();
    let values = (0..len)
        .map(|row| i32::MAX - i32::try_from(row).unwrap())
        .collect();
    (codes, values, mask)
}

#[test]
fn rows_are_counted_and_summed_by_group() {
    for len in 0..=200 {
        for step in [1, 2, 40, 300] {
            let (codes, values, mask) = rows(len, step);
            let (mut counts, mut sums) = ([5u64; 7], [-1i64; 7]);
            let (mut counted, mut summed) = (counts, sums);
            for row in mask.set_indices() {
                let group = usize::try_from(codes[row]).unwrap();
                counted[group] += 1;
                summed[group] += i64::from(values[row]);
            }
            values::group_counts(&mut counts, &codes, &mask);
            values::group_sums(&mut sums, &codes, &values, &mask);
            assert_eq!(
                (counts, sums),
                (counted, summed),
                "{len} rows, each {step}th"
            );
            if step == 1 {
                values::group_counts(&mut counts, &codes, None::<Bits<'_>>);
                let twice = std::array::from_fn(|group| 2 * counted[group] - 5);
                assert_eq!(counts, twice);
            }
        }
    }
}

#[test]
fn the_first_code_of_no_group_is_refused_and_nothing_is_changed() {
    for len in [1, 63, 64, 65, 130, 200] {
        for (bad, code) in [(0, 7), (len / 2, -1), (len - 1, i64::MAX)] {
            let mut codes = vec![6i64; len];
            codes[bad] = code;
            codes[len - 1] = codes[len - 1].max(7);
            let refused = GroupError::Code {
                row: bad,
                code: codes[bad].into(),
                groups: 7,
            };
            let (mut counts, mut sums) = ([3; 7], [0.5; 7]);
            let answer = values::try_group_counts(&mut counts, &codes, None::<Bits<'_>>);
            assert_eq!(answer, Err(refused));
            let column = vec![1.5f32; len];
            let mask: Bitmap = (0..len).map(|row| row >= bad).collect();
            let answer = values::try_group_sums(&mut sums, &codes, &column, &mask);
            assert_eq!(answer, Err(refused));
            assert_eq!((counts, sums), ([3; 7], [0.5; 7]));
            // If the mask leaves out that row and the last one, the others count.
            let mask: Bitmap = (0..len).map(|row| row != bad && row != len - 1).collect();
            assert!(values::try_group_sums(&mut sums, &codes, &column, &mask).is_ok());
            let many = mask.count_ones();
            let sum = 0.5 + 1.5 * f64::from(u32::try_from(many).unwrap());
            assert_eq!(
                sums.map(f64::to_bits),
                [0.5, 0.5, 0.5, 0.5, 0.5, 0.5, sum].map(f64::to_bits)
            );
        }
    }
}

/// Sums may wrap around in the rows before the wrong code. The codes of unselected rows name no
/// group.
#[test]
fn sums_and_counts_are_unchanged_after_a_code_of_no_group() {
    for bad in [0, 1, 40, 63, 64, 100, 190, 199] {
        for step in [1, 2, 40] {
            let (mut codes, values, mask) = rows(200, step);
            let mask: Bitmap = (0..200).map(|row| row == bad || mask.bits()[row]).collect();
            codes[bad] = -1;
            let (mut counts, mut sums) = ([u64::MAX; 7], [i64::MAX; 7]);
            let refused = GroupError::Code {
                row: bad,
                code: -1,
                groups: 7,
            };
            let answer = values::try_group_counts(&mut counts, &codes, &mask);
            assert_eq!(answer, Err(refused));
            let answer = values::try_group_sums(&mut sums, &codes, &values, &mask);
            assert_eq!(answer, Err(refused));
            let turned: Vec<u64> = (0..200).map(|row| u64::MAX - row).collect();
            let mut unsigned = [u64::MAX; 7];
            let answer = values::try_group_sums(&mut unsigned, &codes, &turned, &mask);
            assert_eq!(answer, Err(refused));
            assert_eq!(
                (counts, sums, unsigned),
                ([u64::MAX; 7], [i64::MAX; 7], [u64::MAX; 7])
            );
        }
    }
}

#[test]
fn rows_without_a_value_or_a_bit_are_refused_by_name() {
    let mask = Bits::new(&[0b110], 0, 3);
    let mut sums = [0u64; 4];
    let refused = values::try_group_sums(&mut sums, &[1u8, 2], &[7u8], None::<Bits<'_>>);
    assert_eq!(refused, Err(GroupError::Values { values: 1, rows: 2 }));
    assert_eq!(refused.unwrap_err().to_string(), "1 values for 2 codes");
    let refused = values::try_group_counts(&mut sums, &[1u8, 2], mask).unwrap_err();
    assert_eq!(refused, GroupError::Mask { bits: 3, rows: 2 });
    let text = panics(|| values::group_counts(&mut sums, &[1u8, 2], mask));
    assert_eq!(text, Some(refused.to_string()));
    assert_eq!(refused.to_string(), "a mask of 3 bits for 2");
    let text = panics(|| values::group_counts(&mut sums, &[1, 2, -7i8], mask));
    assert_eq!(
        text.as_deref(),
        Some("code -7 of row 2 names none of 4 groups")
    );
    assert_eq!(sums, [0; 4]);
}

#[test]
fn counts_and_sums_by_group_wrap_around() {
    let (mut counts, mut sums, mut unsigned) = ([u64::MAX], [i64::MAX], [u64::MAX]);
    values::group_counts(&mut counts, &[0u128; 3], None::<Bits<'_>>);
    values::group_sums(&mut sums, &[0u8; 2], &[1i64, -3], None::<Bits<'_>>);
    values::group_sums(&mut unsigned, &[0usize; 2], &[u8::MAX, 1], None::<Bits<'_>>);
    assert_eq!((counts, sums, unsigned), ([2], [i64::MAX - 2], [255]));
}

#[test]
fn floats_under_a_mask_are_summed_in_order_and_ordered() {
    let all: Vec<f64> = (0..200u32)
        .map(|row| f64::from(row * 7919 % 1000) * 0.1 - 40.0)
        .collect();
    for len in 0..=all.len() {
        let column = &all[..len];
        for step in [1, 2, 40, 300] {
            let mask: Bitmap = (0..len).map(|row| row % step == step / 2).collect();
            let chosen = mask.set_indices().map(|row| column[row]);
            let sum = chosen.clone().fold(0.0, |sum: f64, value| sum + value);
            assert_eq!(
                values::masked_float_sum(column, &mask).to_bits(),
                sum.to_bits()
            );
            let ends = (chosen.clone().reduce(f64::min), chosen.reduce(f64::max));
            assert_eq!(values::masked_float_min(column, &mask), ends.0);
            assert_eq!(values::masked_float_max(column, &mask), ends.1);
        }
    }
}

/// Tests all values, and those that a mask selects, with each kind of value at each position.
#[test]
fn extremes_of_floats_are_those_of_a_loop_to_the_bit() {
    let kinds = [
        f64::NAN,
        -f64::NAN,
        0.0,
        -0.0,
        1.5,
        -1.5,
        f64::INFINITY,
        f64::NEG_INFINITY,
    ];
    for len in 0..=40 {
        for (turn, step) in (0..8).flat_map(|turn| [1, 3, 7, 8, 11].map(|step| (turn, step))) {
            let column: Vec<f64> = (0..len).map(|row| kinds[(row / step + turn) % 8]).collect();
            let mask: Bitmap = (0..len).map(|row| row % 5 != turn % 5).collect();
            for mask in [None, Some(&mask)] {
                let chosen = |row: &usize| mask.is_none_or(|mask| mask.bits()[*row]);
                let numbers = (0..len).filter(chosen).map(|row| column[row]);
                let numbers = numbers.filter(|value| !value.is_nan());
                let bits = |value: Option<f64>| value.map(f64::to_bits);
                let (least, most) = (
                    numbers.clone().min_by(f64::total_cmp),
                    numbers.max_by(f64::total_cmp),
                );
                assert_eq!(bits(values::masked_float_min(&column, mask)), bits(least));
                assert_eq!(bits(values::masked_float_max(&column, mask)), bits(most));
            }
        }
    }
}

#[test]
fn floats_that_are_no_numbers_zeros_and_ends() {
    let (none, nan) = (None::<Bits<'_>>, f32::NAN);
    let bits = |value: Option<f32>| value.map(f32::to_bits);
    for zeros in [[0.0, -0.0, nan, -nan], [-nan, -0.0, nan, 0.0]] {
        assert_eq!(
            bits(values::masked_float_min(&zeros, none)),
            bits(Some(-0.0))
        );
        assert_eq!(
            bits(values::masked_float_max(&zeros, none)),
            bits(Some(0.0))
        );
        assert!(values::masked_float_sum(&zeros, none).is_nan());
    }
    assert_eq!(values::masked_float_sum(&[-0.0f32], none).to_bits(), 0);
    assert_eq!(values::masked_float_min(&[nan, -nan], none), None);
    assert_eq!(values::masked_float_max(&[nan, -nan], none), None);
    assert_eq!(values::masked_float_max::<f64>(&[], none), None);
    let ends = [
        1.0,
        f64::NEG_INFINITY,
        f64::MAX,
        f64::INFINITY,
        f64::MIN,
        5e-324,
    ];
    assert_eq!(
        values::masked_float_min(&ends, none),
        Some(f64::NEG_INFINITY)
    );
    assert_eq!(values::masked_float_max(&ends, none), Some(f64::INFINITY));
    let some = Bits::new(&[0b11_0101], 0, 6);
    assert_eq!(values::masked_float_min(&ends, some), Some(f64::MIN));
    assert_eq!(values::masked_float_max(&ends, some), Some(f64::MAX));
    let text = panics(|| _ = values::masked_float_min(&ends, some.slice(0..5)));
    assert_eq!(text.as_deref(), Some("a mask of 5 bits for 6"));
}
