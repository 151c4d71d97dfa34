//! Validities with bits and without, compared with loops over rows.
mod support;

use std::cell::Cell;
use std::ops::Bound;

use support::panics;
use vortex_bits::{Bitmap, BitmapMut, Bits, Mask, Validity};

/// The bits of these rows at this offset. Those around them are true.
fn bitmap(rows: &[bool], offset: usize) -> Bitmap {
    let ends = || (0..offset).map(|_| true);
    let bits: Bitmap = ends().chain(rows.iter().copied()).chain(ends()).collect();
    bits.slice(offset..offset + rows.len())
}

fn rows(len: usize, step: usize) -> Vec<bool> {
    (0..len).map(|row| row * row % step < 2).collect()
}

/// Calls `look` for rows without bits, with bits that are all true, and with others.
fn each(len: usize, offset: usize, look: impl Fn(Validity<'_>, &[bool])) {
    let all = vec![true; len];
    look(Validity::new(None, len), &all);
    for rows in [all, rows(len, 3), rows(len, 7), vec![false; len]] {
        look(Validity::from(bitmap(&rows, offset).bits()), &rows);
    }
}

const LENGTHS: [usize; 8] = [0, 1, 9, 63, 64, 65, 130, 1000];
const OFFSETS: [usize; 4] = [0, 3, 8, 69];

#[test]
fn rows_that_batches_keep_are_joined() {
    for len in LENGTHS {
        for offset in OFFSETS {
            let chosen = rows(len, 5);
            let mask = bitmap(&chosen, 5);
            each(len, offset, |validity, valid| {
                let kept = || valid.iter().zip(&chosen).filter(|it| *it.1).map(|it| *it.0);
                let before = [false, true, true];
                let wanted: Vec<bool> = before.into_iter().chain(kept()).chain(kept()).collect();
                let mut shared = bitmap(&before, 1);
                let mut own: BitmapMut = bitmap(&before, 6).into_owned();
                for _ in 0..2 {
                    validity.filter_onto(&mask, &mut shared);
                    validity.filter_onto(mask.bits(), &mut own);
                }
                assert_eq!(
                    (Vec::from(shared), Vec::from(own)),
                    (wanted.clone(), wanted)
                );
                // All rows: by a missing mask, and appended as they are.
                let mut all = Bitmap::growing(0);
                validity.filter_onto(None::<Bits>, &mut all);
                all.extend([validity, validity.slice(len / 2..)]);
                let joined: Bitmap = [validity, validity].into_iter().collect();
                assert_eq!(Vec::from(joined.clone()), [valid, valid].concat());
                assert_eq!(Vec::from(all), [valid, valid, &valid[len / 2..]].concat());
            });
        }
    }
}

#[test]
fn a_mask_of_another_length_leaves_what_was_kept() {
    for validity in [
        Validity::new(None, 8),
        Validity::from(Bits::new(&[5], 0, 8)),
    ] {
        let mut kept = Bitmap::new_set(3);
        let said = panics(|| validity.filter_onto(Bits::new(&[7], 0, 7), &mut kept));
        assert_eq!(said.as_deref(), Some("a mask of 7 bits for 8"));
        assert_eq!(kept, Bitmap::new_set(3));
    }
}

/// Bytes that change after this number of calls.
struct Changing(Cell<usize>);

impl AsRef<[u8]> for Changing {
    fn as_ref(&self) -> &[u8] {
        let left = self.0.get();
        self.0.set(left.saturating_sub(1));
        if left > 0 { &[0x0F] } else { &[0xFF] }
    }
}

/// The bits of the mask are read once, so its number of rows is that of the bits that follow.
#[test]
fn a_mask_that_changes_is_read_once() {
    let validity = Validity::from(Bits::new(&[0xFF], 0, 8));
    for calls in 0..9 {
        let mask = Bitmap::new(Changing(Cell::new(calls)), 0, 8);
        let mut kept: BitmapMut = Bitmap::growing(8);
        validity.filter_onto(mask, &mut kept);
        assert!(kept.all() && [4, 8].contains(&kept.len()));
    }
}

#[test]
fn nulls_and_valid_rows_have_a_bit_each() {
    for len in LENGTHS {
        for offset in OFFSETS {
            each(len, offset, |validity, valid| {
                let nulls: Vec<bool> = valid.iter().map(|it| !it).collect();
                assert_eq!(Vec::from(!validity), nulls);
                assert_eq!(!&validity, !validity);
                assert_eq!(Vec::from(Bitmap::from(validity)), valid);
            });
        }
    }
}

/// The three operators with this right side.
fn by(left: Validity<'_>, right: impl Mask + Copy) -> [Vec<bool>; 3] {
    let answers = [left & right, left | right, left ^ right];
    let by_reference = &left;
    assert_eq!(
        answers,
        [
            by_reference & right,
            by_reference | right,
            by_reference ^ right
        ]
    );
    answers.map(Vec::from)
}

#[test]
fn operators_take_a_validity_on_both_sides() {
    for len in LENGTHS {
        for offset in OFFSETS {
            each(len, offset, |left, a| {
                each(len, offset + 1, |right, b| {
                    let with = |of: fn(bool, bool) -> bool| {
                        a.iter().zip(b).map(|(&a, &b)| of(a, b)).collect::<Vec<_>>()
                    };
                    let wanted = [with(|a, b| a & b), with(|a, b| a | b), with(|a, b| a ^ b)];
                    assert_eq!(by(left, right), wanted);
                    let bitmap = Bitmap::from(right);
                    assert_eq!(by(left, &bitmap), wanted);
                    assert_eq!(by(left, right.bits()), wanted);
                    let named = left.and(right).unwrap_or(Bitmap::new_set(len));
                    assert_eq!(Vec::from(named), wanted[0]);
                });
            });
        }
    }
    let said = panics(|| drop(Validity::new(None, 8) & Validity::new(None, 7)));
    assert_eq!(said.as_deref(), Some("windows of 8 and 7 bits"));
    let said = panics(|| drop(Validity::new(None, 8) | Bits::new(&[7], 0, 7)));
    assert_eq!(said.as_deref(), Some("windows of 8 and 7 bits"));
}

#[test]
fn ranges_after_the_greatest_index_are_out_of_bounds() {
    let all = Validity::new(None, usize::MAX);
    assert_eq!(all.try_slice(..).map(Validity::len), Ok(usize::MAX));
    assert!(all.try_slice(..=usize::MAX).is_err());
    let last = all.try_slice(usize::MAX..=usize::MAX).unwrap_err();
    assert_eq!((last.offset, last.len), (usize::MAX, 1));
    for end in [Bound::Unbounded, Bound::Included(usize::MAX)] {
        let behind = all.try_slice((Bound::Excluded(usize::MAX), end));
        assert_eq!(behind.unwrap_err().len, 0);
    }
    let last = (Bound::Excluded(usize::MAX - 1), Bound::Unbounded);
    assert_eq!(all.try_slice(last).map(Validity::len), Ok(0));
}

#[test]
fn errors_of_ranges_name_rows() {
    let rows = Validity::new(None, 4);
    let said = |start, end| rows.try_slice(start..end).unwrap_err().to_string();
    assert_eq!(said(3, 5), "the 2 rows from row 3 on are not among 4 rows");
    assert_eq!(said(3, 2), "the range starts at row 3, after its end");
    assert_eq!(said(5, 5), "row 5 is past 4 rows");
}

#[test]
fn validities_are_equal_where_they_say_the_same() {
    for len in LENGTHS {
        each(len, 3, |left, a| {
            each(len, 70, |right, b| assert_eq!(left == right, a == b));
            assert_ne!(left, Validity::new(None, len + 1));
        });
    }
    assert_ne!(
        Validity::new(None, 1),
        Validity::from(Bits::new(&[3], 0, 2))
    );
}
