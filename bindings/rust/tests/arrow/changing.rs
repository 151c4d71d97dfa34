//! Masks whose bits change between two looks at them: each call looks once.
use std::cell::Cell;

use vortex_bits::Bitmap;
use vortex_bits::arrow::{ArrowError, Export, TextsMut};

/// Bytes that are others after some looks at them.
struct Changing {
    first: [u8; 1],
    then: [u8; 1],
    left: Cell<usize>,
}

impl AsRef<[u8]> for Changing {
    fn as_ref(&self) -> &[u8] {
        let left = self.left.get();
        self.left.set(left.saturating_sub(1));
        if left > 0 { &self.first } else { &self.then }
    }
}

/// Three bits, for each number of looks before they change.
fn masks(first: u8, then: u8) -> impl Iterator<Item = Bitmap<Changing>> {
    let bytes = move |left| Changing {
        first: [first],
        then: [then],
        left: Cell::new(left),
    };
    (0..9).map(move |left| Bitmap::new(bytes(left), 0, 3))
}

#[test]
fn texts_that_are_kept_have_a_validity_each() {
    let names = Export::texts(["a", "bc", "d"], None).into_array();
    for mask in masks(0b111, 0b001) {
        let mut kept = TextsMut::new();
        kept.append_kept(&names, mask).unwrap();
        assert!([1, 3].contains(&kept.len()));
        let all = [&b"a"[..], b"bc", b"d"].map(Some);
        let wanted = all.into_iter().take(kept.len());
        let kept = Export::from(kept).into_array();
        assert!(kept.texts().unwrap().iter().eq(wanted));
    }
}

#[test]
fn rows_that_are_taken_exist_or_are_null() {
    for rows in [
        Export::values(Vec::<i64>::new(), None),
        Export::texts([""; 0], None),
        Export::texts(["a", "bc"], None),
    ] {
        let rows = rows.into_array();
        for valid in masks(0b111, 0b000) {
            match rows.take_valid(&[5u8; 3], valid) {
                Ok(taken) => assert_eq!(taken.into_array().null_count(), Ok(3)),
                Err(error) => assert!(matches!(error, ArrowError::Take { .. })),
            }
        }
    }
}
