//! Three-valued logic, compared with a loop over the nine cases.
use vortex_bits::{Bitmap, Bits, BitsMut, Validity, values};

/// A truth value; None is null.
type Truth = Option<bool>;

const ALL: [Truth; 3] = [Some(true), Some(false), None];

fn and(a: Truth, b: Truth) -> Truth {
    match (a, b) {
        (Some(false), _) | (_, Some(false)) => Some(false),
        (Some(true), Some(true)) => Some(true),
        _ => None,
    }
}

fn or(a: Truth, b: Truth) -> Truth {
    match (a, b) {
        (Some(true), _) | (_, Some(true)) => Some(true),
        (Some(false), Some(false)) => Some(false),
        _ => None,
    }
}

/// The bits of truth values at this offset, and their validity. Bits before and after them are
/// true, and those of nulls are `at_null`.
fn column(truths: &[Truth], offset: usize, at_null: bool) -> [Bitmap; 2] {
    let ends = || (0..offset).map(|_| true);
    let bits = truths.iter().map(|it| it.unwrap_or(at_null));
    let valid = truths.iter().map(Option::is_some);
    let bits: Bitmap = ends().chain(bits).chain(ends()).collect();
    let valid: Bitmap = ends().chain(valid).chain(ends()).collect();
    [bits, valid].map(|it| it.slice(offset..offset + truths.len()))
}

/// A result as a list. Tests that bits of nulls are false, and that the validity is None if all are
/// valid.
#[track_caller]
fn truths((trues, valid): (Bitmap, Option<Bitmap>)) -> Vec<Truth> {
    assert!(valid.as_ref().is_none_or(|valid| !valid.all()));
    let valid = Validity::new(valid.as_ref().map(Bitmap::bits), trues.len());
    let row = |(row, is_true): (usize, bool)| {
        let is_valid = valid.get(row) == Some(true);
        assert!(is_valid || !is_true);
        is_valid.then_some(is_true)
    };
    trues.iter().enumerate().map(row).collect()
}

#[track_caller]
fn compare(a: &[Truth], b: &[Truth], offsets: [usize; 2]) {
    let by = |of: fn(Truth, Truth) -> Truth| {
        let rows = a.iter().zip(b);
        rows.map(|(&a, &b)| of(a, b)).collect::<Vec<_>>()
    };
    for at_null in [false, true] {
        let [x, x_valid] = column(a, offsets[0], at_null);
        let [y, y_valid] = column(b, offsets[1], !at_null);
        let x_valid = a.contains(&None).then_some(x_valid);
        let y_valid = b.contains(&None).then_some(y_valid);
        let (x, y) = (x.bits(), y.bits());
        assert_eq!(
            truths(values::and_kleene(x, &x_valid, y, &y_valid)),
            by(and)
        );
        assert_eq!(truths(values::or_kleene(x, &x_valid, y, &y_valid)), by(or));
        written(&by(and), offsets, |trues, valid| {
            values::and_kleene_into(x, &x_valid, y, &y_valid, trues, valid);
        });
        written(&by(or), offsets, |trues, valid| {
            values::or_kleene_into(x, &x_valid, y, &y_valid, trues, valid);
        });
    }
}

/// Windows from any bit on have what is wanted, and the bits beside them stay.
#[track_caller]
fn written(wanted: &[Truth], offsets: [usize; 2], write: impl Fn(BitsMut<'_>, BitsMut<'_>)) {
    let len = wanted.len();
    for beside in [0x00, 0xFF] {
        let [mut trues, mut valid] = offsets.map(|at| vec![beside; (at + len).div_ceil(8) + 1]);
        write(
            BitsMut::new(&mut trues, offsets[0], len),
            BitsMut::new(&mut valid, offsets[1], len),
        );
        let bit = |bytes: &[u8], at: usize| bytes[at / 8] >> (at % 8) & 1 == 1;
        for (bytes, offset, is_valid) in [(&trues, offsets[0], false), (&valid, offsets[1], true)] {
            for at in 0..8 * bytes.len() {
                let value = at.checked_sub(offset).and_then(|row| wanted.get(row));
                let here = value.map(|it| {
                    if is_valid {
                        it.is_some()
                    } else {
                        *it == Some(true)
                    }
                });
                assert_eq!(
                    bit(bytes, at),
                    here.unwrap_or(beside == 0xFF),
                    "bit {at} of {len}"
                );
            }
        }
    }
}

/// Rows that combine each of `a` with each of `b`, again and again.
fn pairs(a: &[Truth], b: &[Truth], len: usize) -> [Vec<Truth>; 2] {
    let row = |row: usize| (a[row % a.len()], b[row / a.len() % b.len()]);
    let (a, b) = (0..len).map(row).unzip();
    [a, b]
}

#[test]
fn nulls_count_where_the_other_side_does_not_decide() {
    let sides = [&ALL[..], &ALL[..2], &ALL[..1], &ALL[1..2], &ALL[2..]];
    for len in [0, 1, 9, 63, 64, 65, 130, 1000] {
        for offsets in [[0, 0], [3, 5], [8, 1], [7, 70]] {
            for (a, b) in sides.iter().flat_map(|a| sides.map(|b| (a, b))) {
                let [a, b] = pairs(a, b, len);
                compare(&a, &b, offsets);
            }
        }
    }
}

#[test]
fn an_answer_without_nulls_has_no_validity() {
    let (trues, valid) = (
        Bits::new(&[0xFF; 20], 1, 150),
        Bits::new(&[0x5A; 20], 3, 150),
    );
    assert_eq!(values::or_kleene(trues, valid, trues, None::<Bits>).1, None);
    assert_eq!(
        values::and_kleene(trues, None::<Bits>, trues, Some(trues)).1,
        None
    );
    let nulls = values::and_kleene(trues, valid, trues, Validity::new(None, 150));
    assert_eq!(nulls, (valid.into(), Some(valid.into())));
}

#[test]
fn bitmaps_and_windows_stand_by_reference() {
    let [a, b, valid] = [&[0b0110], &[0b0011], &[0b1011]].map(|it| Bits::new(it, 0, 4));
    let (owned, lent) = (Bitmap::from(a), Bitmap::new(vec![0b0110u8], 1, 2));
    let both = values::and_kleene(a, b, b, valid);
    assert_eq!(
        both,
        (Bits::new(&[0b0010], 0, 4).into(), Some(valid.into()))
    );
    let by_reference = &b;
    let again = values::and_kleene(&owned, by_reference, by_reference, Some(valid));
    assert_eq!(again, both);
    assert_eq!(
        values::or_kleene(&owned, Some(b), &owned, Validity::new(None, 4)),
        values::or_kleene(a, b, a, None::<Bits>)
    );
    let all = values::or_kleene(&lent, None::<Bits>, &lent, None::<&Bitmap>);
    assert_eq!(all, (Bitmap::new_set(2), None));
    let (mut trues, mut known) = (Bitmap::new_unset(4), Bitmap::new_unset(4));
    values::and_kleene_into(
        &owned,
        b,
        by_reference,
        valid,
        trues.bits_mut(),
        known.bits_mut(),
    );
    assert_eq!((trues, Some(known)), both);
}

/// `&` and `|` find the same true rows if you first `&` each column with its validity.
#[test]
fn a_where_without_not_needs_no_nulls() {
    for offsets in [[0, 0], [3, 5]] {
        let [a, b] = pairs(&ALL, &ALL, 200);
        let ([a, a_valid], [b, b_valid]) =
            (column(&a, offsets[0], true), column(&b, offsets[1], true));
        let (x, y) = (&a & &a_valid, &b & &b_valid);
        assert_eq!(values::and_kleene(&a, &a_valid, &b, &b_valid).0, &x & &y);
        assert_eq!(values::or_kleene(&a, &a_valid, &b, &b_valid).0, x | y);
    }
}

#[test]
#[should_panic(expected = "a mask of 7 bits for 8")]
fn a_validity_of_another_length_is_refused() {
    let eight = Bits::new(&[0], 0, 8);
    let _ = values::and_kleene(eight, None::<Bits>, eight, eight.slice(1..));
}

#[test]
#[should_panic(expected = "a mask of 7 bits for 8")]
fn two_lengths_are_refused() {
    let eight = Bits::new(&[0], 0, 8);
    let _ = values::or_kleene(eight, None::<Bits>, eight.slice(1..), None::<Bits>);
}

#[test]
#[should_panic(expected = "7 bits to write and 8 to read")]
fn a_window_of_another_length_is_refused() {
    let (eight, mut trues, mut valid) = (Bits::new(&[0], 0, 8), [0], [0]);
    let (trues, valid) = (
        BitsMut::new(&mut trues, 0, 8),
        BitsMut::new(&mut valid, 1, 7),
    );
    values::and_kleene_into(eight, None::<Bits>, eight, None::<Bits>, trues, valid);
}
