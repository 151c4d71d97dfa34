//! Walks from both ends at once, compared with the items of a walk from the front over single bits.
#[path = "arrow/plain.rs"]
#[allow(dead_code, reason = "the tests of arrays need all of it")]
mod random;

use std::collections::VecDeque;
use std::fmt::Debug;
use std::ops::Range;

use random::Random;
use vortex_bits::Bits;

/// Compares random steps from either end with those of a queue, and then the rest from the front,
/// from the back, and by its last item.
#[track_caller]
fn ends<T, I>(random: &mut Random, walk: I, all: impl IntoIterator<Item = T>, is_exact: bool)
where
    T: PartialEq + Debug,
    I: DoubleEndedIterator<Item = T> + Clone,
{
    let mut queue: VecDeque<T> = all.into_iter().collect();
    let (mut walk, mostly) = (walk, random.number() % 4);
    for _ in 0..random.number() % 200 {
        let (least, most) = walk.size_hint();
        assert!(least <= queue.len() && queue.len() <= most.unwrap());
        assert!(!is_exact || least == queue.len());
        if random.number() % 4 < mostly {
            assert_eq!(walk.next(), queue.pop_front());
        } else {
            assert_eq!(walk.next_back(), queue.pop_back());
        }
    }
    let forwards = walk.clone().fold(Vec::new(), |mut all, item| {
        all.push(item);
        all
    });
    assert!(forwards.iter().eq(&queue), "{forwards:?} {queue:?}");
    assert!(walk.clone().rev().eq(queue.drain(..).rev()));
    assert_eq!(walk.clone().last().as_ref(), forwards.last());
    assert_eq!(walk.count(), forwards.len());
}

/// Bytes of which most are 0, or 255, or neither.
fn bytes(random: &mut Random, len: usize) -> Vec<u8> {
    let kind = random.number() % 4;
    let byte = |random: &mut Random| match (kind, random.number() % 8) {
        (0, 1..) => 0,
        (1, 1..) => 255,
        (2, _) => random.number().to_le_bytes()[1] & random.number().to_le_bytes()[2],
        _ => random.number().to_le_bytes()[3],
    };
    (0..len).map(|_| byte(random)).collect()
}

fn runs(bits: &[bool], of: bool) -> Vec<Range<usize>> {
    let mut runs: Vec<Range<usize>> = Vec::new();
    for place in (0..bits.len()).filter(|place| bits[*place] == of) {
        match runs.last_mut() {
            Some(last) if last.end == place => last.end += 1,
            _ => runs.push(place..place + 1),
        }
    }
    runs
}

fn words(bits: &[bool]) -> Vec<u64> {
    let word = |bits: &[bool]| {
        let bits = bits.iter().rev();
        bits.fold(0, |word, bit| word << 1 | u64::from(*bit))
    };
    bits.chunks(64).map(word).collect()
}

#[test]
fn walks_from_both_ends_have_each_item_once() {
    let mut random = Random(7);
    for offset in 0..128 {
        for len in [0, 1, 5, 63, 64, 65, 127, 128, 129, 200, 700, 2050, 4500] {
            let bytes = bytes(&mut random, 600 + offset);
            let bits = Bits::new(&bytes, offset, len);
            let all: Vec<bool> = (0..len).map(|place| bits[place]).collect();
            let places = |of| (0..len).filter(|place| all[*place] == of).collect();
            let (set, unset): (Vec<usize>, Vec<usize>) = (places(true), places(false));
            let random = &mut random;
            ends(random, bits.set_indices(), set, true);
            ends(random, bits.unset_indices(), unset, true);
            ends(random, bits.set_slices(), runs(&all, true), false);
            ends(random, bits.unset_slices(), runs(&all, false), false);
            ends(random, bits.words(), words(&all), true);
            ends(random, bits.iter(), all, true);
        }
    }
}
