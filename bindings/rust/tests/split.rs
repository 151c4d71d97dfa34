//! Parts of a window that share no byte: what they cover, which calls fail, and that no bit is lost
//! if threads write them.
use std::ops::Range;
use std::thread;

use support::panics;
use vortex_bits::iter::ChunksMut;
use vortex_bits::{Bits, BitsMut, SplitError};

mod support;

/// The addresses of the bytes of a part.
fn addresses(part: &mut BitsMut<'_>) -> Range<usize> {
    let bytes = part.bytes_mut().as_ptr_range();
    bytes.start.addr()..bytes.end.addr()
}

/// Windows that begin within the second or the third byte.
fn windows() -> impl Iterator<Item = (usize, usize)> {
    (9..24).flat_map(|offset| {
        (0..=70)
            .chain([127, 128, 129])
            .map(move |len| (offset, len))
    })
}

const BYTES: [u8; 20] = [0b0110_1001; 20];

#[test]
fn a_split_gives_all_bits_once_and_shares_no_byte() {
    for (offset, len) in windows() {
        for mid in 0..=len + 2 {
            let (mut bytes, mut copy) = (BYTES, BYTES);
            let mut bits = BitsMut::new(&mut bytes, offset, len);
            let is_border = (offset + mid) % 8 == 0 || mid == 0 || mid == len;
            let Ok((mut low, mut high)) = bits.try_split_at_mut(mid) else {
                assert!(
                    mid > len || !is_border,
                    "place {mid} of {len} bits from {offset} on"
                );
                continue;
            };
            assert!(is_border && mid <= len);
            assert_eq!((low.len(), high.len()), (mid, len - mid));
            assert!(low.offset() < 8 && high.offset() < 8);
            let size = |part: &BitsMut<'_>| match part.len() {
                0 => 0,
                len => (part.offset() + len).div_ceil(8),
            };
            let sizes = [size(&low), size(&high)];
            let [first, second] = [addresses(&mut low), addresses(&mut high)];
            assert_eq!([first.len(), second.len()], sizes);
            assert!(sizes.contains(&0) || first.end == second.start);
            low.negate();
            high.fill(true);
            BitsMut::new(&mut copy, offset, mid).negate();
            BitsMut::new(&mut copy, offset + mid, len - mid).fill(true);
            assert_eq!(bytes, copy, "{len} bits from {offset} on, at place {mid}");
        }
    }
}

/// Takes the parts from both ends, from the front if `front` says so. Returns the length and the
/// addresses of each in their order.
fn parts(mut chunks: ChunksMut<'_>, front: impl Fn(usize) -> bool) -> Vec<(usize, Range<usize>)> {
    let (count, mut first, mut last) = (chunks.len(), Vec::new(), Vec::new());
    for taken in 0..count {
        assert_eq!(chunks.len(), count - taken);
        let from = if front(taken) { &mut first } else { &mut last };
        let next = if front(taken) {
            chunks.next()
        } else {
            chunks.next_back()
        };
        let mut part = next.unwrap();
        part.negate();
        from.push((part.len(), addresses(&mut part)));
    }
    assert!(chunks.len() == 0 && chunks.next_back().is_none() && chunks.next().is_none());
    first.extend(last.into_iter().rev());
    first
}

#[test]
fn parts_are_the_window_in_order_whichever_end_they_are_taken_from() {
    let fronts: [fn(usize) -> bool; 3] = [|_| true, |_| false, |taken| taken % 3 == 1];
    for (offset, len) in windows() {
        for bits in [8, 16, 24, 64, 136, usize::MAX - 7] {
            for front in fronts {
                let (mut bytes, mut copy) = (BYTES, BYTES);
                let mut whole = BitsMut::new(&mut bytes, offset, len);
                let parts = parts(whole.chunks_mut(bits), front);
                let lens: Vec<usize> = parts.iter().map(|part| part.0).collect();
                assert_eq!(lens.iter().sum::<usize>(), len);
                if let [first, middle @ .., last] = &lens[..] {
                    assert_eq!(*first, bits - offset % 8);
                    assert!(middle.iter().all(|len| *len == bits) && (1..=bits).contains(last));
                }
                assert!(lens.iter().all(|len| *len > 0));
                assert!(parts.windows(2).all(|two| two[0].1.end == two[1].1.start));
                assert!(parts.iter().all(|part| part.1.len() <= bits / 8));
                BitsMut::new(&mut copy, offset, len).negate();
                assert_eq!(bytes, copy);
            }
        }
    }
}

#[test]
fn splits_within_a_byte_or_past_the_end_are_refused_by_name() {
    let mut bytes = BYTES;
    let mut bits = BitsMut::new(&mut bytes, 11, 30);
    let within = SplitError::WithinByte { place: 14, bit: 25 };
    assert_eq!(bits.try_split_at_mut(14).unwrap_err(), within);
    let past = SplitError::Past { place: 31, len: 30 };
    assert_eq!(bits.try_split_at_mut(31).unwrap_err(), past);
    let far = bits.try_split_at_mut(usize::MAX).unwrap_err();
    assert_eq!(
        far.to_string(),
        format!("index {} is past 30 bits", usize::MAX)
    );
    let texts = [14, 12, 31].map(|mid| panics(|| _ = bits.split_at_mut(mid)).unwrap());
    assert_eq!(texts[0], "index 14 is bit 25 of the bytes, within byte 3");
    assert_eq!(texts[1], "index 12 is bit 23 of the bytes, within byte 2");
    assert_eq!(texts[2], "index 31 is past 30 bits");
    for of in [0, 4, 12, usize::MAX] {
        let text = panics(|| _ = bits.chunks_mut(of));
        assert_eq!(text, Some(format!("parts of {of} bits aren't whole bytes")));
    }
    assert_eq!(bits.split_at_mut(13).1.len(), 17);
    assert_eq!(bytes, BYTES);
}

#[test]
fn threads_that_write_the_parts_lose_no_bit() {
    const BITS: usize = 8 * 131 - 9;
    let source = [0b0101_1010; 131];
    let (bits, others) = (Bits::new(&source, 2, BITS), source.map(|byte| !byte));
    let negated = Bits::new(&others, 2, BITS);
    let (mut bytes, mut halves) = ([0; 131], [0; 131]);
    for _ in 0..300 {
        let mut whole = BitsMut::new(&mut bytes, 5, BITS);
        thread::scope(|scope| {
            let mut end = 0;
            for mut part in whole.chunks_mut(264) {
                let read = bits.slice(end..end + part.len());
                end += part.len();
                scope.spawn(move || {
                    part.fill(false);
                    part.xor(read);
                    part.or(read);
                    part.negate();
                });
            }
        });
        let mut whole = BitsMut::new(&mut halves, 5, BITS);
        let (mut low, mut high) = whole.split_at_mut(8 * 65 - 5);
        thread::scope(|scope| {
            scope.spawn(|| low.fill_with(|place| !bits[place]));
            scope.spawn(|| high.fill_with(|place| !bits[8 * 65 - 5 + place]));
        });
        assert!(whole == negated);
        assert!(BitsMut::new(&mut bytes, 5, BITS) == negated);
    }
    assert_eq!([bytes[0] & 0x1F, bytes[130] >> 4], [0, 0]);
}
