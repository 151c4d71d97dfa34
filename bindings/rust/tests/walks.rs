//! Walks stop once they have the requested number of items, whatever follows, and count the bits at
//! most once for their lengths.
use std::hint::black_box;
use std::time::{Duration, Instant};

use vortex_bits::Bits;

/// The least times of calls with two numbers. They take turns, so that other programs slow down
/// both.
fn least(numbers: [usize; 2], mut call: impl FnMut(usize)) -> [Duration; 2] {
    let mut least = [Duration::MAX; 2];
    for _ in 0..40 {
        for (least, number) in least.iter_mut().zip(numbers) {
            let start = Instant::now();
            call(number);
            *least = start.elapsed().min(*least);
        }
    }
    least
}

#[test]
fn places_without_room_are_not_looked_for() {
    let mut bytes = vec![0; 1 << 22];
    bytes[0] = 0b1_0101;
    let bits = Bits::from_bytes(&bytes);
    let mut out = [usize::MAX; 4];
    let [three, four] = least([3, 4], |room| {
        assert_eq!(black_box(bits).write_set_indices(&mut out[..room]), 3);
        assert_eq!(out[..3], [0, 2, 4]);
    });
    assert!(
        10 * three < four,
        "{three:?} with room for three, {four:?} for four"
    );
}

#[test]
fn items_beyond_the_first_ones_are_not_looked_for() {
    let mut bytes = vec![0; 1 << 22];
    bytes[..8].fill(0b0101_0101);
    bytes[8..16].fill(0b0101_0101);
    let bits = Bits::from_bytes(&bytes);
    let [some, all] = least([64, 65], |room| {
        let places = black_box(bits).set_indices().take(room);
        assert_eq!(places.fold(0, |found, _| found + 1), 64);
        let runs = black_box(bits).set_slices().take(room);
        assert_eq!(runs.fold(0, |found, _| found + 1), 64);
    });
    assert!(
        10 * some < all,
        "{some:?} for what is there, {all:?} for one more"
    );
}

#[test]
fn bits_are_counted_once_for_all_items_from_the_end() {
    let bytes = vec![0b0101_0101; 1 << 20];
    let bits = Bits::from_bytes(&bytes);
    let [some, all] = least([64, 640], |number| {
        let mut set = black_box(bits).set_indices().enumerate();
        let mut unset = black_box(bits).unset_indices().skip(1);
        for k in (bits.len() / 2 - number..bits.len() / 2).rev() {
            assert_eq!(set.next_back(), Some((k, 2 * k)));
            assert_eq!(unset.next_back(), Some(2 * k + 1));
        }
    });
    assert!(
        all < 4 * some,
        "{some:?} for the last 64 indices, {all:?} for 640"
    );
}

#[test]
fn lengths_follow_both_ends() {
    let bytes: Vec<u8> = (0..=255).cycle().take(1_000).collect();
    let bits = Bits::new(&bytes, 3, 7_990);
    for (set, len) in [(true, bits.count_ones()), (false, bits.count_zeros())] {
        let (mut ones, mut zeros) = (bits.set_indices(), bits.unset_indices());
        let mut left = if set { ones.len() } else { zeros.len() };
        assert_eq!(left, len);
        for step in 0_usize.. {
            let from_end = step % 7 > 2;
            let index = match (set, from_end) {
                (true, false) => ones.next(),
                (true, true) => ones.next_back(),
                (false, false) => zeros.next(),
                (false, true) => zeros.next_back(),
            };
            let Some(index) = index else { break };
            assert_eq!(bits.get(index), Some(set));
            left -= 1;
            let [this, copy] = if set {
                [ones.len(), ones.clone().count()]
            } else {
                [zeros.len(), zeros.clone().count()]
            };
            assert_eq!([this, copy], [left; 2]);
        }
        assert_eq!(left, 0);
    }
}
