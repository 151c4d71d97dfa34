//! Walks over texts and over their ranges, from both ends and past some rows, and texts that grow,
//! compared with plain lists of rows.
use std::collections::VecDeque;
use std::fmt::Debug;

use vortex_bits::Bitmap;
use vortex_bits::arrow::{Array, Export, TextsMut};

use crate::export::ReadBack;
use crate::made::{Maker, rounds};
use crate::raw::{Count, import};

/// Texts or binary values by chance, of each type.
fn some(maker: &mut Maker) -> Array {
    maker.count = Count::default();
    let (kind, len) = (maker.one_of(&[2, 3]), maker.one_of(&[0, 1, 9, 70, 200]));
    let (array, schema) = maker.tree_of(kind, len, 0);
    let array = import(array, schema).unwrap();
    let start = maker.below(array.len().min(9) + 1);
    array.slice(start..)
}

fn mask(maker: &mut Maker, len: usize) -> Bitmap {
    let most = maker.one_of(&[1, 2, 30]);
    (0..len).map(|_| maker.below(most) == 0).collect()
}

/// Compares random steps of a walk with those of a queue.
#[track_caller]
fn steps<T, I>(maker: &mut Maker, walk: I, all: Vec<T>)
where
    T: Clone + PartialEq + Debug,
    I: DoubleEndedIterator<Item = T> + ExactSizeIterator + Clone,
{
    let (mut walk, mut queue) = (walk, VecDeque::from(all));
    for _ in 0..maker.below(30) {
        let past = maker.below(3);
        let (front, back) = (past.min(queue.len()), queue.len().saturating_sub(past));
        match maker.below(4) {
            0 => assert_eq!(walk.next(), queue.pop_front()),
            1 => assert_eq!(walk.next_back(), queue.pop_back()),
            2 => {
                drop(queue.drain(..front));
                assert_eq!(walk.nth(past), queue.pop_front());
            }
            _ => {
                queue.truncate(back);
                assert_eq!(walk.nth_back(past), queue.pop_back());
            }
        }
        assert_eq!(walk.len(), queue.len());
    }
    let mut folded = Vec::new();
    walk.clone().for_each(|item| folded.push(item));
    assert!(folded.iter().eq(&queue));
    assert_eq!(walk.clone().last(), queue.pop_back());
    walk.next_back();
    assert!(walk.rev().eq(queue.into_iter().rev()));
}

#[test]
fn steps_from_both_ends_are_those_of_plain_lists() {
    let mut maker = Maker::new(41, false);
    for _ in 0..rounds(400) {
        let array = some(&mut maker);
        let texts = array.texts().unwrap();
        let rows = (0..texts.len()).map(|row| texts.get(row)).collect();
        steps(&mut maker, texts.iter(), rows);
        if let Ok(ranges) = array.ranges() {
            let rows = (0..ranges.len()).map(|row| ranges.get(row).unwrap());
            steps(&mut maker, ranges.iter(), rows.collect());
        }
    }
}

#[test]
fn texts_grow_by_the_rows_that_masks_keep() {
    let mut maker = Maker::new(42, false);
    for _ in 0..rounds(300) {
        let (mut kept, mut rows) = (TextsMut::new(), Vec::new());
        for _ in 0..maker.below(6) {
            let batch = some(&mut maker);
            let mask = mask(&mut maker, batch.len());
            let (before, added) = (kept.len(), kept.append_kept(&batch, &mask));
            if !matches!(batch.field().format(), "u" | "U" | "vu") {
                assert!(added.unwrap_err().to_string().ends_with("that of texts"));
                assert_eq!(kept.len(), before);
                continue;
            }
            added.unwrap();
            let texts = batch.texts().unwrap();
            rows.extend(
                mask.set_indices()
                    .map(|row| texts.get(row).map(<[u8]>::to_vec)),
            );
            if maker.below(4) == 0 {
                kept.append_kept(&batch, None::<Bitmap>).unwrap();
                rows.extend(texts.iter().map(|row| row.map(<[u8]>::to_vec)));
            }
        }
        for row in [Some("\u{e9}"), None] {
            kept.append(row);
            rows.push(row.map(|row| row.as_bytes().to_vec()));
        }
        let len = kept.len();
        let texts = Export::from(kept).read_back();
        assert_eq!((texts.len(), texts.field().format()), (len, "U"));
        assert!(
            texts
                .texts()
                .unwrap()
                .iter()
                .eq(rows.iter().map(Option::as_deref))
        );
    }
}

#[test]
fn rows_that_are_refused_are_not_added() {
    let names = Export::texts(["a", "b"], None).named("name").into_array();
    let mut kept = TextsMut::default();
    let refused = kept.append_kept(&names, Bitmap::new_set(3)).unwrap_err();
    assert_eq!(
        refused.to_string(),
        "column \"name\": a mask of 3 bits for 2 rows"
    );
    let numbers = Export::values(vec![1u8], None).into_array();
    let refused = kept.append_kept(&numbers, None::<Bitmap>).unwrap_err();
    assert_eq!(refused.to_string(), "format \"C\" isn't that of texts");
    assert!(kept.is_empty());
}
