//! Bitmaps by code, and the minimum and maximum by group, compared with plain loops over rows, at
//! every offset of the bits that they read.
use rows::{Random, Rows, each};
use support::panics;
use vortex_bits::*;

#[path = "support/rows.rs"]
mod rows;
mod support;

const CODES: usize = 5;

/// Returns random codes. If `has_wrong`, a few of them name no group.
fn codes(random: &mut Random, len: usize, has_wrong: bool) -> Vec<i32> {
    let any = |random: &mut Random| match random.below(40) {
        0 if has_wrong => [-1, 5, i32::MAX, i32::MIN][random.below(4)],
        _ => i32::try_from(random.below(CODES)).unwrap(),
    };
    (0..len).map(|_| any(random)).collect()
}

/// Returns the first selected row whose code names no group.
fn first_wrong(codes: &[i32], rows: &Rows<'_>) -> Option<usize> {
    let is_wrong = |row: &usize| !(0..5).contains(&codes[*row]);
    (0..rows.len)
        .filter(|row| rows.is_selected(*row))
        .find(is_wrong)
}

#[test]
fn bitmaps_by_code_are_those_of_comparisons() {
    each(|random, rows| {
        let has_wrong = random.below(2) == 0;
        let codes = codes(random, rows.len, has_wrong);
        let before = self::codes(random, random.0.to_le_bytes()[0].into(), false);
        let mut all = BitmapsByCode::with_capacity(CODES, [0, 10, 1000][random.below(3)]);
        all.append(&before, None::<Bits>);
        let added = all.try_append(&codes, rows.mask);
        let alone = values::try_bitmaps_by_code(&codes, CODES, rows.mask);
        let wrong = first_wrong(&codes, rows);
        let error = wrong.map(|row| GroupError::Code {
            row,
            code: codes[row].into(),
            groups: CODES,
        });
        assert_eq!((added.err(), alone.as_ref().err()), (error, error.as_ref()));
        let has = |row: usize, code: usize| {
            rows.is_selected(row) && usize::try_from(codes[row]) == Ok(code)
        };
        if let Ok(alone) = alone {
            assert_eq!(alone.len(), CODES);
            for (code, bitmap) in alone.iter().enumerate() {
                assert!(bitmap.iter().eq((0..rows.len).map(|row| has(row, code))));
            }
        }
        // A batch with an error leaves no bit: rows that are added later have only their own.
        let rest = if wrong.is_some() { 0 } else { rows.len };
        assert_eq!(all.len(), before.len() + rest);
        all.append(&[0u64; 70], Bitmap::new_unset(70));
        for (code, bitmap) in all.into_bitmaps().iter().enumerate() {
            let own = before.iter().map(|&it| usize::try_from(it) == Ok(code));
            let own = own.chain((0..rest).map(|row| has(row, code)));
            assert!(bitmap.iter().eq(own.chain([false; 70])), "code {code}");
        }
    });
}

#[test]
fn bitmaps_by_code_have_no_rows_or_no_codes() {
    let mut none = BitmapsByCode::with_capacity(0, 0);
    none.append::<u8>(&[], None::<Bits>);
    none.append(&[7], Bits::new(&[0], 0, 1));
    assert!(none.try_append(&[0], None::<Bits>).is_err());
    assert_eq!((none.len(), none.is_empty(), none.get(0)), (1, false, None));
    assert!(none.into_bitmaps().is_empty());
    let two = BitmapsByCode::with_capacity(2, 0);
    assert!(two.is_empty() && two.get(2).is_none());
    assert_eq!(format!("{two:?}"), "[Bits(), Bits()]");
    assert!(two.into_bitmaps().iter().all(Bitmap::is_empty));
    let refused = values::try_bitmaps_by_code(&[0, 1], 2, Bitmap::new_set(3)).unwrap_err();
    assert_eq!(refused, GroupError::Mask { bits: 3, rows: 2 });
    assert!(panics(|| drop(BitmapsByCode::with_capacity(usize::MAX / 8, 9))).is_some());
    let (codes, most) = ([0u8; 9], usize::MAX / 8);
    let too_many = || drop(values::try_bitmaps_by_code(&codes, most, None::<Bits>));
    assert!(panics(too_many).is_some());
    assert!(panics(|| drop(BitmapsByCode::with_capacity(0, usize::MAX))).is_some());
}

/// The bitmaps share one buffer; one that is made owned has only the bytes of its own rows.
#[test]
fn bitmaps_by_code_share_a_buffer_until_one_is_owned() {
    let codes: Vec<usize> = (0..1000).map(|row| row % 50).collect();
    let bitmaps = values::bitmaps_by_code(&codes, 50, None::<Bits>);
    let place = |it: &Bitmap| it.clone().into_inner().as_ref().as_ptr();
    assert!(bitmaps.iter().all(|it| place(it) == place(&bitmaps[0])));
    let owned: Vec<BitmapMut> = bitmaps.iter().cloned().map(Bitmap::into_owned).collect();
    assert!(owned.iter().zip(&bitmaps).all(|(one, other)| one == other));
    assert!(owned.into_iter().all(|it| it.into_inner().len() <= 128));
}

#[test]
fn minimum_and_maximum_by_group_are_those_of_a_loop() {
    const FLOATS: [f32; 5] = [0.5, -1.5, f32::NAN, 7.0, f32::NEG_INFINITY];
    each(|random, rows| {
        let has_wrong = random.below(3) == 0;
        let codes = codes(random, rows.len, has_wrong);
        let column: Vec<f32> = (0..rows.len).map(|_| FLOATS[random.below(5)]).collect();
        let start = [None, Some(0.25), None, Some(-9.5), None];
        let [mut least, mut greatest] = [start; 2];
        let (mut min, mut max) = (start, start);
        let wrong = first_wrong(&codes, rows);
        let selected = (0..rows.len).filter(|&row| wrong.is_none() && rows.is_selected(row));
        for row in selected.filter(|&row| !column[row].is_nan()) {
            let (code, value) = (usize::try_from(codes[row]).unwrap(), column[row]);
            min[code] = Some(min[code].map_or(value, |it: f32| it.min(value)));
            max[code] = Some(max[code].map_or(value, |it: f32| it.max(value)));
        }
        let found = values::try_group_min(&mut least, &codes, &column, rows.mask);
        assert_eq!((found.is_err(), least), (wrong.is_some(), min));
        let found = values::try_group_max(&mut greatest, &codes, &column, rows.mask);
        assert_eq!((found.is_err(), greatest), (wrong.is_some(), max));
    });
    let mut best = [Some(3u128); 2];
    let refused = values::try_group_min(&mut best, &[0u8, 1], &[1], None::<Bits>);
    assert_eq!(refused, Err(GroupError::Values { values: 1, rows: 2 }));
    let refused = values::try_group_max(&mut best, &[0u8, 1], &[9, 9], Bitmap::new_set(1));
    assert_eq!(refused, Err(GroupError::Mask { bits: 1, rows: 2 }));
    let refused = panics(|| values::group_min(&mut best, &[0, 2], &[1, 1], None::<Bits>));
    assert_eq!(refused.unwrap(), "code 2 of row 1 names none of 2 groups");
    assert_eq!(best, [Some(3); 2]);
    // A NaN isn't the minimum of a group, even if it is given.
    let mut nans = [Some(f64::NAN); 2];
    values::group_min(&mut nans, &[0u8, 0, 0], &[f64::NAN, 2.0, 1.0], None::<Bits>);
    assert!(nans[0] == Some(1.0) && nans[1].is_some_and(f64::is_nan));
    // The first of equal values is the maximum.
    let mut zeros = [None];
    values::group_max(&mut zeros, &[0u8, 0], &[-0.0, 0.0], None::<Bits>);
    assert!(zeros[0].is_some_and(f64::is_sign_negative));
}
