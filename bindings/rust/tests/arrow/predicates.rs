//! Which texts pass a test, compared with plain calls for each row.
use std::collections::BTreeSet;
use std::panic::{AssertUnwindSafe, catch_unwind};

use vortex_bits::Bitmap;
use vortex_bits::arrow::{Array, ArrowError, Export, StreamError, Texts};
use vortex_bits::{Bits, BitsMut, values};

use crate::made::{Maker, rounds};
use crate::raw::{self, Buffer, Count, import, import_as};

/// Texts by chance, of each type, at some offset.
fn some(maker: &mut Maker) -> Array {
    loop {
        let len = maker.one_of(&[0, 1, 7, 64, 65, 200, 600]);
        let (array, schema) = maker.tree(len, 0);
        let array = import(array, schema).unwrap();
        if array.texts().is_ok() {
            let start = maker.below(array.len().min(20) + 1);
            return array.slice(start..start + maker.below(array.len() - start + 1));
        }
    }
}

fn rows(texts: &Texts<'_>, test: impl Fn(&[u8]) -> bool) -> Bitmap {
    texts.iter().map(|row| row.is_some_and(&test)).collect()
}

const ALL: [&str; 11] = [
    "",
    "a",
    "\u{e9}",
    "twelve bytes",
    "thirteen text",
    "text",
    "a text of more than twelve bytes",
    "t",
    "ee",
    "elve",
    "more than twelve bytes and more than that",
];

#[test]
fn rows_that_pass_are_those_of_plain_calls() {
    let mut maker = Maker::new(21, false);
    let mut passed = 0;
    for _ in 0..rounds(1500) {
        maker.count = Count::default();
        let array = some(&mut maker);
        let texts = array.texts().unwrap();
        let text = maker.one_of(&ALL);
        let of = text.as_bytes();
        let has = |row: &[u8]| of.is_empty() || row.windows(of.len()).any(|part| part == of);
        let set: BTreeSet<&[u8]> = ALL[..maker.below(6)]
            .iter()
            .map(|it| it.as_bytes())
            .collect();
        let equal = texts.equals(text);
        assert_eq!(equal, rows(&texts, |row| row == of), "{array:?} {text:?}");
        assert_eq!(texts.less_than(of), rows(&texts, |row| row < of));
        assert_eq!(
            texts.starts_with(text),
            rows(&texts, |row| row.starts_with(of))
        );
        assert_eq!(texts.ends_with(text), rows(&texts, |row| row.ends_with(of)));
        assert_eq!(
            texts.contains(text),
            rows(&texts, has),
            "{array:?} {text:?}"
        );
        assert_eq!(
            texts.is_in(set.iter().rev()),
            rows(&texts, |row| set.contains(row))
        );
        assert_eq!(texts.validity(), array.validity().unwrap());
        passed += equal.count_ones();
    }
    assert!(passed > 1000, "{passed}");
}

/// Applies a call in place to a mask at each offset. It must equal `&` with a bitmap, and change no
/// other bit.
#[track_caller]
fn in_place(mask: &Bitmap, passed: &Bitmap, call: impl Fn(BitsMut<'_>)) {
    for offset in 0..=9 {
        let size = (offset + mask.len()).div_ceil(8) + 1;
        let (mut got, mut wanted) = (vec![0xA5; size], vec![0xA5; size]);
        BitsMut::new(&mut got, offset, mask.len()).copy_from(mask.bits());
        call(BitsMut::new(&mut got, offset, mask.len()));
        let both = mask & passed;
        BitsMut::new(&mut wanted, offset, mask.len()).copy_from(both.bits());
        assert_eq!(got, wanted, "{} rows from bit {offset}", mask.len());
    }
}

#[test]
fn masks_in_place_are_those_of_both() {
    let mut maker = Maker::new(24, false);
    for _ in 0..rounds(300) {
        maker.count = Count::default();
        let array = some(&mut maker);
        let texts = array.texts().unwrap();
        let (text, few) = (maker.one_of(&ALL), maker.one_of(&[1, 2, 9, 70]));
        let mask: Bitmap = (0..texts.len()).map(|_| maker.below(few) == 0).collect();
        let set = &ALL[..maker.below(6)];
        in_place(&mask, &texts.equals(text), |it| texts.and_equals(text, it));
        in_place(&mask, &texts.less_than(text), |it| {
            texts.and_less_than(text, it);
        });
        in_place(&mask, &texts.starts_with(text), |it| {
            texts.and_starts_with(text, it);
        });
        in_place(&mask, &texts.ends_with(text), |it| {
            texts.and_ends_with(text, it);
        });
        in_place(&mask, &texts.contains(text), |it| {
            texts.and_contains(text, it);
        });
        in_place(&mask, &texts.is_in(set), |it| texts.and_is_in(set, it));
    }
    let names = Export::texts(["a", "b"], None).into_array();
    let mut mask = Bitmap::new_set(3);
    let call = || names.texts().unwrap().and_equals("a", mask.bits_mut());
    assert!(catch_unwind(AssertUnwindSafe(call)).is_err());
    assert!(mask.all());
}

#[test]
fn starts_of_every_length_are_found() {
    let text = b"https://example.org/a";
    let rows: Vec<Vec<u8>> = (0..=text.len()).map(|len| text[..len].to_vec()).collect();
    let valid = Bitmap::new_set(rows.len());
    let array = binary(&rows, &valid);
    let texts = array.texts().unwrap();
    for len in 0..=text.len() {
        let mut start = text[..len].to_vec();
        let found = texts.starts_with(&start);
        assert!(found.iter().eq((0..rows.len()).map(|row| row >= len)));
        for place in 0..len {
            start[place] ^= 1;
            assert!(!texts.starts_with(&start).any(), "{len} {place}");
            start[place] ^= 1;
        }
    }
}

/// Bytes of few kinds, often with eight zeros at the end or with a common start. A search by only
/// the first bytes or only the length would confuse them.
fn bytes(maker: &mut Maker) -> Vec<u8> {
    let mut bytes = [&b""[..], b"https://", b"longer than sixteen "][maker.below(3)].to_vec();
    for _ in 0..maker.one_of(&[0, 0, 1, 1, 2, 3, 7, 8, 9, 62]) {
        bytes.push(maker.one_of(&[0, 0, b'a', 0xFF]));
    }
    bytes.resize(bytes.len() + maker.one_of(&[0, 0, 0, 1, 8]), 0);
    bytes
}

/// Binary values of these bytes.
fn binary(rows: &[Vec<u8>], valid: &Bitmap) -> Array {
    let (mut end, mut ends) = (0i32, vec![0; 4]);
    for row in rows {
        end += i32::try_from(row.len()).unwrap();
        ends.extend_from_slice(&end.to_ne_bytes());
    }
    let valid = valid.bits().bytes();
    let buffers = [valid, &ends, &rows.concat()].map(|it| Some(Buffer::new(it, 0)));
    let len = i64::try_from(rows.len()).unwrap();
    let array = raw::Array::new(len, buffers.into(), &Count::default());
    import_as(array, "z").unwrap()
}

#[test]
fn rows_in_a_set_are_those_of_a_loop_over_it() {
    let mut maker = Maker::new(23, false);
    let (mut passed, mut all) = (0, 0);
    for _ in 0..rounds(300) {
        let rows: Vec<Vec<u8>> = (0..maker.below(90)).map(|_| bytes(&mut maker)).collect();
        let mut set: Vec<Vec<u8>> = (0..maker.below(20)).map(|_| bytes(&mut maker)).collect();
        if let Some(row) = rows.first() {
            set.extend([row.clone(), row.clone()]);
        }
        let valid: Bitmap = rows.iter().map(|_| maker.below(8) > 0).collect();
        let wanted = rows.iter().map(|row| set.iter().any(|it| it == row));
        let wanted = wanted.collect::<Bitmap>() & &valid;
        let found = binary(&rows, &valid).texts().unwrap().is_in(&set);
        assert_eq!(found, wanted, "{rows:?} {set:?}");
        passed += wanted.count_ones();
        all += wanted.len();
    }
    assert!(passed > all / 20 && passed < all / 2, "{passed} of {all}");
}

#[test]
fn rows_of_loops_are_those_of_iterators() {
    let mut maker = Maker::new(22, false);
    for _ in 0..rounds(100) {
        maker.count = Count::default();
        let array = some(&mut maker);
        let texts = array.texts().unwrap();
        let mut found = Vec::new();
        for row in &texts {
            found.push(row);
        }
        let all: Vec<_> = (0..texts.len()).map(|row| texts.get(row)).collect();
        assert_eq!(found, all);
        let back: Vec<_> = texts.iter().rev().collect();
        assert!(back.iter().rev().eq(&all));
        assert_eq!(
            (texts.iter().len(), texts.iter().nth(3)),
            (all.len(), all.get(3).copied())
        );
        let Ok(ranges) = array.ranges() else {
            continue;
        };
        let all: Vec<_> = (0..ranges.len())
            .map(|row| ranges.get(row).unwrap())
            .collect();
        let mut found = Vec::new();
        for row in ranges {
            found.push(row);
        }
        assert_eq!(found, all);
        assert!(ranges.iter().rev().eq(all.iter().rev().cloned()));
        let (third, len) = (ranges.into_iter().nth(3), (&ranges).into_iter().len());
        assert_eq!((third, len), (all.get(3).cloned(), all.len()));
    }
}

/// The error of one of the calls of windows and values.
fn refused(which: usize) -> Result<(), ArrowError> {
    let bits = Bits::new(&[5], 0, 3);
    match which {
        0 => drop(values::try_take(&[7u8], &[1])?),
        1 => drop(bits.try_take(&[3])?),
        2 => drop(Bitmap::try_from_indices(3, &[3])?),
        _ => drop(Export::texts(["a"], None).into_array().try_slice(1..3)?),
    }
    Ok(())
}

#[test]
fn refusals_of_windows_and_values_are_errors_of_arrays() {
    let texts = [
        "index 1 at position 0 names none of 1 values",
        "index 3 at position 0 names none of 3 bits",
        "index 3 at position 0 names none of 3 bits",
        "the 2 rows from row 1 on are not among 1 rows",
    ];
    for (which, text) in texts.into_iter().enumerate() {
        let error = refused(which).unwrap_err();
        assert_eq!(error.to_string(), text);
        assert_eq!(StreamError::from(error).text, text);
    }
}
