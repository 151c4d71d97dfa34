//! The last window that fits and those that don't, and the errors of each call, which writes
//! nothing if it fails.
use std::collections::HashSet;
use std::error::Error;

use support::panics;
use vortex_bits::*;

mod support;

/// The error of a take at the first bad index.
fn no_place(position: usize, index: i128, len: usize) -> TakeError {
    TakeError::Index {
        position,
        index,
        len,
    }
}

#[test]
fn windows_that_end_with_their_bytes_are_made() {
    for (offset, len) in [(0, 16), (3, 13), (15, 1), (16, 0)] {
        let bits = Bits::new(&[0x5A; 2], offset, len);
        assert_eq!((bits.offset(), bits.len()), (offset, len));
        assert_eq!(BitsMut::new(&mut [0x5A; 2], offset, len), bits);
    }
    assert!(Bits::new(&[], 0, 0).is_empty() && Bits::default().is_empty());
    assert_eq!(Bits::from_bytes(&[0x5A; 2]).len(), 16);
    assert_eq!(BitsMut::from_bytes(&mut [0x5A; 2]).len(), 16);
}

#[test]
fn windows_that_do_not_lie_in_their_bytes_are_refused() {
    let past = [
        (0, 17),
        (3, 14),
        (16, 1),
        (17, 0),
        (1, usize::MAX),
        (usize::MAX, 1),
    ];
    for (offset, len) in past {
        let refused = Bits::try_new(&[0x5A; 2], offset, len).unwrap_err();
        assert_eq!(
            (refused.offset, refused.len, refused.bits),
            (offset, len, 16)
        );
        let mut bytes = [0x5A; 2];
        assert_eq!(
            BitsMut::try_new(&mut bytes, offset, len).err(),
            Some(refused)
        );
        let text = refused.to_string();
        assert_eq!(
            panics(|| drop(Bits::new(&bytes, offset, len).iter())),
            Some(text)
        );
    }
}

#[test]
#[cfg(target_pointer_width = "64")]
fn indices_of_32_bits_are_those_of_as_many_bits() {
    let bytes = vec![0; (1 << 29) + 1];
    let mut out = [7; 1];
    let refused = panics(|| {
        Bits::new(&bytes, 3, (1 << 32) + 1).write_set_indices_u32(&mut out);
    });
    assert_eq!(
        refused.as_deref(),
        Some("a u32 can't index 4294967297 bits")
    );
    assert_eq!(
        Bits::new(&bytes, 3, 1 << 32).write_set_indices_u32(&mut []),
        0
    );
    assert_eq!(out, [7]);
}

#[test]
fn slices_are_ranges_of_places() {
    let bytes = [0b1101_0110, 0b0000_0101];
    let bits = Bits::new(&bytes, 1, 10);
    assert_eq!(bits.slice(..), bits);
    assert_eq!(bits.slice(2..=4), Bits::new(&bytes, 3, 3));
    assert_eq!(bits.slice(3..).slice(..2), Bits::new(&bytes, 4, 2));
    assert!(bits.slice(10..).is_empty());
    let mut copy = bytes;
    BitsMut::new(&mut copy, 1, 10).slice(2..4).negate();
    assert_eq!(copy, [0b1100_1110, 0b0000_0101]);
    for (start, end) in [(0, 11), (11, 11), (4, 3), (usize::MAX, 0)] {
        let refused = bits.try_slice(start..end).unwrap_err();
        assert_eq!((refused.offset, refused.bits), (start, 10));
        assert_eq!(
            BitsMut::new(&mut copy, 1, 10).try_slice(start..end).err(),
            Some(refused)
        );
    }
    assert!(bits.try_slice(..=usize::MAX).is_err());
}

#[test]
fn errors_tell_how_ranges_are_out_of_bounds() {
    let bits = Bits::new(&[0; 2], 0, 10);
    let said = |start, end| bits.try_slice(start..end).unwrap_err().to_string();
    assert_eq!(
        said(2, 12),
        "the 10 bits from bit 2 on are not among 10 bits"
    );
    assert_eq!(said(5, 3), "the range starts at bit 5, after its end");
    assert_eq!(said(11, 3), "bit 11 is past 10 bits");
    for refused in [bits.slice(..8).try_slice(9..), Bits::try_new(&[0], 9, 0)] {
        let text = refused.unwrap_err().to_string();
        assert_eq!(text, "bit 9 is past 8 bits");
    }
}

#[test]
fn single_bits_have_their_ends() {
    let bits = Bits::new(&[0b1000_0001], 1, 7);
    assert_eq!(
        [bits.get(0), bits.get(6), bits.get(7)],
        [Some(false), Some(true), None]
    );
    assert_eq!(bits.get(usize::MAX), None);
    assert!(bits[6] && !bits[5]);
    let past = Some("index 7 is not among 7 bits".to_string());
    assert_eq!(panics(|| assert!(bits[7])), past);
    let mut bytes = [0];
    assert_eq!(panics(|| BitsMut::new(&mut bytes, 1, 7).set(7, true)), past);
    assert_eq!(bytes, [0]);
    BitsMut::new(&mut bytes, 1, 7).set(6, true);
    assert_eq!(bytes, [0x80]);
    BitsMut::new(&mut bytes, 1, 7).set(6, false);
    assert_eq!(bytes, [0]);
}

#[test]
fn bits_and_values_move_only_within_their_window() {
    let mut bytes = [0x5A; 2];
    let refused = |source: core::ops::Range<usize>, dest: usize| {
        let mut copy = [0x5A; 2];
        let text = panics(|| BitsMut::new(&mut copy, 3, 9).copy_within(source, dest));
        assert_eq!(copy, [0x5A; 2]);
        text
    };
    let no_room = |bits: usize, dest: usize| {
        Some(format!("{bits} bits from index {dest} on end past 9 bits"))
    };
    assert_eq!(refused(0..9, 1), no_room(9, 1));
    assert_eq!(refused(4..6, 8), no_room(2, 8));
    assert_eq!(refused(2..2, 10), no_room(0, 10));
    assert_eq!(refused(0..1, usize::MAX), no_room(1, usize::MAX));
    assert!(refused(0..10, 0).is_some() && refused(10..10, 0).is_some());
    BitsMut::new(&mut bytes, 3, 9).copy_within(9.., 9);
    assert_eq!(bytes, [0x5A; 2]);
    BitsMut::new(&mut bytes, 3, 9).copy_within(..=7, 1);
    assert_eq!(bytes, [0xBA, 0x54]);

    let mut column = [1, 2, 3];
    let text = panics(|| _ = values::retain(&mut column, Bits::new(&[0], 0, 4)));
    assert_eq!(text.as_deref(), Some("a mask of 4 bits for 3"));
    assert_eq!(column, [1, 2, 3]);
    assert_eq!(values::retain(&mut column, None::<Bits>), 3);
    assert_eq!(values::retain(&mut column, Bits::new(&[0b110], 0, 3)), 2);
    assert_eq!(column, [2, 3, 3]);
}

#[test]
fn windows_of_two_lengths_are_told_apart_and_not_combined() {
    let mut bytes = [0x5A; 2];
    let [seven, eight] = [7, 8].map(|len| Bits::new(&[0xFF], 0, len));
    assert!(seven != eight);
    let calls: [fn(&mut BitsMut<'_>, Bits<'_>); 10] = [
        |out, bits| out.copy_from(bits),
        |out, bits| out.and(bits),
        |out, bits| out.or(bits),
        |out, bits| out.xor(bits),
        |out, bits| out.and_not(bits),
        |out, bits| out.and_of(bits, Bits::new(&[0], 0, 8)),
        |out, bits| out.or_of(Bits::new(&[0], 0, 8), bits),
        |out, bits| out.xor_of(bits, bits),
        |out, bits| out.copy_from_bools(&vec![true; bits.len()]),
        |out, bits| out.copy_from_truthy(&vec![1; bits.len()]),
    ];
    for call in calls {
        let text = panics(|| call(&mut BitsMut::new(&mut bytes, 3, 8), seven));
        assert_eq!(text.as_deref(), Some("8 bits to write and 7 to read"));
        assert_eq!(bytes, [0x5A; 2]);
    }
    let mask = panics(|| eight.filter_into(seven, BitsMut::new(&mut bytes, 0, 7)));
    assert_eq!(mask.as_deref(), Some("a mask of 7 bits for 8"));
    let room = panics(|| eight.filter_into(eight, BitsMut::new(&mut bytes, 0, 7)));
    assert_eq!(room.as_deref(), Some("7 bits to write and 8 to read"));
    assert_eq!(bytes, [0x5A; 2]);
    let mask = panics(|| eight.deposit_into(seven, BitsMut::new(&mut bytes, 0, 7)));
    assert_eq!(mask.as_deref(), Some("7 bits to write and 8 to read"));
    let room = panics(|| seven.deposit_into(seven, BitsMut::new(&mut bytes, 0, 6)));
    assert_eq!(room.as_deref(), Some("6 bits to write and 7 to read"));
    assert_eq!(bytes, [0x5A; 2]);
    let mut out = [9u16; 7];
    let mask = panics(|| _ = eight.keep_into(&[1; 7], &mut out));
    assert_eq!(mask.as_deref(), Some("a mask of 8 bits for 7"));
    let room = panics(|| _ = eight.keep_into(&[1; 8], &mut out));
    assert_eq!(room.as_deref(), Some("room for 7 values and 8 to keep"));
    assert_eq!(out, [9; 7]);
}

#[test]
fn takes_want_a_bit_for_each_index_and_name_the_first_bad_one() {
    let mut bytes = [0x5A; 2];
    let bits = Bits::new(&[0xFF; 2], 1, 15);
    let mut take = |indices: &[i32], validity: Option<Bits<'_>>, room| {
        let out = BitsMut::new(&mut bytes, 3, room);
        let answer = match validity {
            Some(validity) => bits.try_take_valid_into(indices, validity, out),
            None => bits.try_take_into(indices, out),
        };
        (answer, bytes)
    };
    let (room, untouched) = take(&[1, 2], None, 3);
    assert_eq!(
        room,
        Err(TakeError::Room {
            bits: 3,
            indices: 2
        })
    );
    let valid = Bits::new(&[0b01], 0, 2);
    let (validity, still) = take(&[1, 2, 3], Some(valid), 3);
    assert_eq!(
        validity,
        Err(TakeError::Validity {
            bits: 2,
            indices: 3
        })
    );
    assert_eq!([untouched, still], [[0x5A; 2]; 2]);
    assert_eq!(take(&[14, 15, 16], None, 3).0, Err(no_place(1, 15, 15)));
    assert_eq!(take(&[14, -1], None, 2).0, Err(no_place(1, -1, 15)));
    let (taken, after) = take(&[14, -1], Some(valid), 2);
    assert_eq!((taken, after[0] >> 3 & 0b11), (Ok(()), 0b01));
    let text = panics(|| bits.take_into(&[15u64], BitsMut::new(&mut [0], 0, 1)));
    assert_eq!(
        text.as_deref(),
        Some("index 15 at position 0 names none of 15 bits")
    );
}

#[test]
fn ranks_want_a_table_and_places_of_the_window() {
    let bytes = [0xF0u8; 200];
    let bits = Bits::new(&bytes, 3, 1597);
    let mut table = [7; 5];
    let short = Ranks::try_new(bits, &mut table[..3]).unwrap_err();
    assert_eq!((short.blocks, short.entries), (4, 3));
    assert_eq!(table, [7; 5]);
    assert_eq!(Ranks::try_with_table(bits, &table[..3]).err(), Some(short));
    let ranks = Ranks::new(bits, &mut table);
    assert_eq!(
        (ranks.len(), ranks.count(), ranks.rank(1597)),
        (1597, 800, 800)
    );
    assert_eq!(ranks.try_rank(1598), None);
    assert_eq!(
        panics(|| assert_eq!(ranks.rank(1598), 0)).unwrap(),
        "index 1598 is past 1597 bits"
    );
    assert_eq!([ranks.select(0), ranks.select(800)], [Some(1), None]);
    assert_eq!(ranks.select_unset(usize::MAX), None);
    assert_eq!((ranks.table().len(), table[4]), (4, 7));
    assert_eq!(Ranks::new(Bits::default(), &mut []).count(), 0);
}

#[test]
fn ranks_over_any_table_answer() {
    let bytes = [0xF0u8; 200];
    let bits = Bits::new(&bytes, 3, 1597);
    for entry in [0, 1, 1000, usize::MAX - 100, usize::MAX] {
        let table = [entry; 4];
        let ranks = Ranks::with_table(bits, &table);
        for n in [0, 1, 511, 512, 1597, usize::MAX] {
            let _ = (
                ranks.select(n),
                ranks.select_unset(n),
                ranks.try_rank(n),
                ranks.count(),
            );
        }
    }
}

#[test]
fn bitmaps_keep_their_window() {
    let bits = Bits::new(&[0x0F; 100], 4, 796);
    let map = Bitmap::new(vec![0x0F; 100], 4, 796);
    assert_eq!(map.bits(), bits);
    assert_eq!(map.slice(8..).bits(), bits.slice(8..));
    assert_eq!(format!("{:?}", map.slice(..6)), "Bits(000011)");
    assert_eq!(map, Bitmap::from(bits));
    let ranked = map.ranked();
    assert_eq!((ranked.bits(), ranked.ranks().select(5)), (bits, Some(13)));
    assert_eq!(ranked.into_bitmap().into_inner(), [0x0F; 100]);
    let refused = Bitmap::try_new([0x0F; 2], 1, 16).unwrap_err();
    assert_eq!(refused, Bits::try_new(&[0; 2], 1, 16).unwrap_err());
    assert!(panics(|| drop(Bitmap::new([0x0F; 2], 1, 16))).is_some());
}

#[test]
fn calls_into_new_memory_give_what_the_others_write() {
    let (left, right) = (
        Bits::new(&[0b1010_0110], 1, 6),
        Bits::new(&[0b0011_0100], 0, 6),
    );
    let shown = |map: Bitmap| format!("{map:?}");
    assert_eq!(shown(left & right), "Bits(000010)");
    assert_eq!(shown(left | right), "Bits(111011)");
    assert_eq!(shown(left ^ right), "Bits(111001)");
    assert_eq!(shown(left.and_not(right)), "Bits(110000)");
    assert_eq!(shown(!left), "Bits(001101)");
    assert_eq!(shown(left.filter(right)), "Bits(010)");
    assert_eq!(shown(left.take(&[0usize, 5, 1])), "Bits(101)");
    assert_eq!(
        shown(left.take_valid(&[0, 9, 1], left.slice(1..4))),
        "Bits(100)"
    );
    assert_eq!(left.try_take(&[6u32]), Err(no_place(0, 6, 6)));
    let short = left.try_take_valid(&[6u32], left);
    assert_eq!(
        short,
        Err(TakeError::Validity {
            bits: 6,
            indices: 1
        })
    );
    assert_eq!(shown(left.iter().collect()), "Bits(110010)");
    assert!(panics(|| drop(left & right.slice(1..))).is_some());
    assert!(panics(|| drop(left.take(&[-1i64]))).is_some());
}

#[test]
#[allow(clippy::op_ref, reason = "references are what is tested")]
fn operators_take_windows_and_bitmaps_in_every_mixture() {
    let bytes = [0b1010_0110];
    let (a, b) = (Bits::new(&bytes, 1, 6), Bits::new(&[0b0011_0100], 0, 6));
    let (m, n) = (Bitmap::from(a), Bitmap::new(vec![0b0011_0100], 0, 6));
    let want = Bitmap::from([false, false, false, false, true, false]);
    let all = [
        a & b,
        a & &b,
        &a & b,
        a & &n,
        a & n.clone(),
        &m & b,
        m.clone() & &b,
        m.clone() & n.clone(),
        &m & &n,
        a & Some(b),
        a & Some(&n) & None::<Bits>,
        !(!&m | !n.clone()),
        (a ^ !b) ^ !a,
    ];
    let (last, same) = all.split_last().unwrap();
    assert!(same.iter().all(|it| *it == want));
    assert_eq!(*last, Bitmap::from(b));
    let mut copy = bytes;
    let mut out = BitsMut::new(&mut copy, 1, 6);
    out &= &n;
    assert_eq!((out.get(4), out[5]), (Some(true), false));
    out |= None::<Bitmap>;
    out ^= b;
    assert_eq!(copy, [0b1001_0110]);
    let text = panics(|| drop(a & &m.slice(1..)));
    assert_eq!(text.as_deref(), Some("windows of 6 and 5 bits"));
    let text = panics(|| _ = a.and_count(Validity::new(None, 7)));
    assert_eq!(text.as_deref(), Some("a mask of 7 bits for 6"));
}

#[test]
fn bitmaps_grow_in_aligned_bytes_and_share_what_they_had() {
    let mut rows = Bitmap::default();
    assert!(rows.is_empty() && rows.bits().bytes().is_empty());
    for row in 0..10_000 {
        rows.append(row % 3 == 0);
    }
    let address = |rows: &Bitmap| rows.bits().bytes().as_ptr().addr();
    let (before, kept) = (address(&rows), rows.clone());
    assert_eq!(address(&kept), before);
    rows.set(1, true);
    assert_ne!(address(&rows), before);
    assert_eq!((kept[1], rows.count_ones()), (false, 3335));
    let mut owned = rows.slice(3..9).into_owned();
    owned.append_bits(kept.bits());
    assert_eq!((owned.len(), owned.first_set()), (10_006, Some(0)));
    let places = [address(&rows), before, owned.bits().bytes().as_ptr().addr()];
    assert_eq!(places.map(|place| place % 64), [0; 3]);
    rows.truncate(20_000);
    assert_eq!(rows.len(), 10_000);
    let text = panics(|| rows.set(10_000, true));
    assert_eq!(text.as_deref(), Some("index 10000 is not among 10000 bits"));
}

#[test]
fn indices_and_validity_are_refused_by_name() {
    let refused = Bitmap::try_from_indices(9, &[8u64, 9, 1 << 40]).unwrap_err();
    assert_eq!((refused.position, refused.index, refused.len), (1, 9, 9));
    let all = Validity::new(None, 9);
    assert_eq!(all.try_take(&[8i64, -1]), Err(no_place(1, -1, 9)));
    let short = all.try_take_valid(&[1u32, 2], Validity::new(None, 3));
    assert_eq!(
        short,
        Err(TakeError::Validity {
            bits: 3,
            indices: 2
        })
    );
    let text = panics(|| _ = Validity::new(Some(Bits::default()), 9));
    assert_eq!(text.as_deref(), Some("a mask of 0 bits for 9"));
    let text = panics(|| drop(all.and(Validity::new(None, 8))));
    assert_eq!(text.as_deref(), Some("a mask of 8 bits for 9"));
    assert_eq!(
        (all.get(8), all.get(9), all.slice(2..).len()),
        (Some(true), None, 7)
    );
}

#[test]
fn equal_windows_look_and_hash_alike() {
    let left = Bits::new(&[0b0001_0110], 1, 4);
    let right = Bits::new(&[0b1011_0000, 0b1111_1110], 4, 4);
    assert_eq!(left, right);
    assert_eq!(
        format!("{left:?} {:?}", BitsMut::new(&mut [2], 0, 3)),
        "Bits(1101) BitsMut(010)"
    );
    assert_eq!(HashSet::from([left, right]).len(), 1);
    let maps = [left, right].map(Bitmap::from);
    assert_eq!(HashSet::from(maps).len(), 1);
    assert_eq!(Vec::from(Bitmap::from(left)), [true, true, false, true]);
}

#[test]
fn errors_print_once() {
    let errors: [&dyn Error; 3] = [
        &Bits::try_new(&[0], 1, 8).unwrap_err(),
        &no_place(7, 9, 8),
        &Ranks::try_with_table(Bits::new(&[0], 0, 1), &[]).unwrap_err(),
    ];
    let texts = [
        "the 8 bits from bit 1 on are not among 8 bits",
        "index 9 at position 7 names none of 8 bits",
        "a table of 0 entries for 1 blocks",
    ];
    for (error, text) in errors.into_iter().zip(texts) {
        assert_eq!(error.to_string(), text);
        assert!(error.source().is_none());
    }
}

#[test]
fn windows_and_bitmaps_may_cross_threads() {
    fn crosses<T: Send + Sync>() {}
    crosses::<(Bits<'_>, BitsMut<'_>, iter::ChunksMut<'_>)>();
    crosses::<(iter::SetIndices<'_>, iter::UnsetIndices<'_>)>();
    crosses::<(Ranks<'_>, Validity<'_>)>();
    crosses::<(Bitmap, BitmapMut, Ranked<Vec<u8>>)>();
}

#[test]
fn the_level_is_one_that_is_available() {
    assert!(Level::Portable.is_available());
    assert!(Level::current().is_available());
}

#[cfg(feature = "levels")]
#[test]
fn levels_can_be_named() {
    for level in Level::available() {
        assert!(level.make_current());
        assert_eq!(Level::current(), level);
        assert_eq!(Bits::new(&[0xF0; 100], 3, 790).count_ones(), 396);
    }
}
