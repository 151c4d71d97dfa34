//! Offsets of texts and lists between the selected rows: no error depends on them, and a take of
//! few rows of a slice doesn't read them.
#[cfg(not(miri))]
use std::time::{Duration, Instant};

use vortex_bits::Bits;
use vortex_bits::arrow::{Array, ArrowError, Export};

use crate::raw::{self, Buffer, Count, Schema, import};
use crate::unseen::{indices, ints, rows};

/// Rows of texts or of binary values of a format, all valid, between these offsets.
fn texts_of(format: &str, ends: &[i32]) -> raw::Array {
    let wide: Vec<u8> = ends
        .iter()
        .flat_map(|it| i64::from(*it).to_ne_bytes())
        .collect();
    let offsets = match format {
        "U" | "Z" => Buffer::new(&wide, 0),
        _ => ints(ends),
    };
    let len = i64::try_from(ends.len()).unwrap() - 1;
    let bytes = Some(Buffer::new(b"abcdefgh", 0));
    raw::Array::new(len, vec![None, Some(offsets), bytes], &Count::default())
}

/// A row of one item, a null row of two items, and a row of one item.
fn lists_of(items: raw::Array) -> raw::Array {
    let buffers = vec![Some(Buffer::new(&[0b101], 0)), Some(ints(&[0, 1, 3, 4]))];
    raw::Array::of(3, buffers, vec![items], None, &Count::default())
}

/// The bytes of the texts of a row, at any level of lists; None for null rows.
fn in_row(rows: &Array, row: usize) -> Option<Vec<u8>> {
    if rows.validity().unwrap().get(row) != Some(true) {
        return None;
    }
    let Ok(items) = rows.items() else {
        return rows.texts().unwrap().get(row).map(<[u8]>::to_vec);
    };
    let range = rows.ranges().unwrap().get(row).unwrap();
    let items = items.slice(range);
    Some(
        (0..items.len())
            .filter_map(|row| in_row(&items, row))
            .flatten()
            .collect(),
    )
}

#[test]
fn offsets_between_the_rows_of_lists_do_not_count() {
    let none = Count::default();
    // The offsets of the null row's items decrease: bytes 1 to 6, and 6 to 2.
    let texts = |format| texts_of(format, &[0, 1, 6, 2, 3]);
    let of_texts = |format| {
        let schema = Schema::of("", "+l", vec![Schema::new("", format, &none)], None, &none);
        import(lists_of(texts(format)), schema).unwrap()
    };
    // The same offsets are those of lists here, whose items are texts of one byte.
    let lists = || {
        let items = texts_of("u", &[0, 1, 2, 3, 4, 5, 6]);
        let buffers = vec![None, Some(ints(&[0, 1, 6, 2, 3]))];
        raw::Array::of(4, buffers, vec![items], None, &none)
    };
    let of_lists = || {
        let items = Schema::of("", "+l", vec![Schema::new("", "u", &none)], None, &none);
        import(
            lists_of(lists()),
            Schema::of("", "+l", vec![items], None, &none),
        )
        .unwrap()
    };
    let mut all = ["u", "U", "z", "Z"].map(of_texts).to_vec();
    all.push(of_lists());
    let wanted = [Some(b"a".to_vec()), None, Some(b"c".to_vec())];
    let read = |rows: Export| {
        let rows = rows.into_array();
        (0..rows.len())
            .map(|row| in_row(&rows, row))
            .collect::<Vec<_>>()
    };
    for rows in all {
        for mask in 0..8u8 {
            let mask = Bits::new(std::slice::from_ref(&mask), 0, 3);
            let places: Vec<usize> = mask.set_indices().collect();
            let wanted: Vec<_> = places.iter().map(|row| wanted[*row].clone()).collect();
            assert_eq!(read(rows.filter(mask).unwrap()), wanted);
            assert_eq!(read(rows.take(&places).unwrap()), wanted);
            let parts: Vec<_> = places.iter().map(|row| rows.slice(*row..=*row)).collect();
            assert_eq!(read(Export::concat(rows.field(), &parts).unwrap()), wanted);
        }
        let both = Export::concat(rows.field(), &[rows.clone(), rows.slice(1..)]).unwrap();
        assert_eq!(read(both), [&wanted[..], &wanted[1..]].concat());
    }
}

#[test]
fn only_offsets_of_selected_rows_cause_errors() {
    let none = Count::default();
    let text = |ends: &[i32]| import(texts_of("u", ends), Schema::new("", "u", &none)).unwrap();
    let list = |ends: &[i32]| {
        let items = raw::Array::values(2, None, &[7; 8], &none);
        let array = raw::Array::of(3, vec![None, Some(ints(ends))], vec![items], None, &none);
        let items = vec![Schema::new("item", "C", &none)];
        import(array, Schema::of("", "+l", items, None, &none)).unwrap()
    };
    let offsets = [0, 2, 3, -1];
    for ends in 0..256 {
        let ends = [0, 2, 4, 6].map(|digit| offsets[(ends >> digit) % 4]);
        for rows in [text(&ends), list(&ends)] {
            let is_right = |row| rows.take(&[row]).is_ok();
            let right = [0, 1, 2].map(is_right);
            let most = if rows.items().is_ok() { 2 } else { ends[3] };
            for row in 0..3 {
                let [start, end] = [ends[row], ends[row + 1]];
                assert_eq!(
                    right[row],
                    0 <= start && start <= end && end <= most.min(ends[3])
                );
            }
            for mask in 0..8u8 {
                let mask = Bits::new(std::slice::from_ref(&mask), 0, 3);
                let is_ok = mask.set_indices().all(|row| right[row]);
                assert_eq!(rows.filter(mask).is_ok(), is_ok, "{ends:?}, {mask:?}");
            }
        }
    }
}

#[test]
fn errors_name_the_selected_row() {
    let none = Count::default();
    let ends = [0, 1, 6, 2, 5, 4];
    let rows = import(texts_of("u", &ends), Schema::new("", "u", &none)).unwrap();
    let said = |made: Result<Export, ArrowError>| made.map(|it| it.len()).unwrap_err().to_string();
    // The offsets of rows 2 and 4 decrease. Row 1 ends after the last row.
    assert_eq!(rows.filter(Bits::new(&[0b00001], 0, 5)).unwrap().len(), 1);
    assert_eq!(
        said(rows.filter(Bits::new(&[0b10001], 0, 5))),
        "row 4 lies from 5 to 4"
    );
    assert_eq!(
        said(rows.filter(Bits::new(&[0b10101], 0, 5))),
        "row 2 lies from 6 to 2"
    );
    assert_eq!(said(rows.take(&[0, 4, 2])), "row 4 lies from 5 to 4");
    let back = "rows end at 6, and the last offset is 4";
    assert_eq!(said(rows.filter(Bits::new(&[0b00010], 0, 5))), back);
    assert_eq!(said(rows.slice(1..).take(&[3])), "row 3 lies from 5 to 4");
}

#[test]
fn texts_kept_have_no_bytes_of_null_rows() {
    let none = Count::default();
    // The offsets of row 2, which isn't selected, decrease.
    let buffers = vec![
        Some(Buffer::new(&[0b1101], 0)),
        Some(ints(&[0, 1, 4, 2, 5])),
        Some(Buffer::new(b"abcdefgh", 0)),
    ];
    let rows = raw::Array::new(4, buffers, &none);
    let rows = import(rows, Schema::new("", "u", &none)).unwrap();
    let kept = Export::texts_kept(&rows, Bits::new(&[0b1011], 0, 4)).unwrap();
    let kept = kept.into_array();
    assert_eq!(kept.bytes(), Ok(&b"acde"[..]));
    let wanted = [Some(&b"a"[..]), None, Some(b"cde")];
    assert!(kept.texts().unwrap().iter().eq(wanted));
}

#[test]
fn the_dictionary_stays_if_no_row_is_selected() {
    // The lists end after their items.
    let buffers = vec![None, Some(ints(&[0, 1, 9]))];
    let lists = rows("+l", 2, buffers, vec![], indices(&[0, 0], 5));
    for mask in [0b00, 0b01] {
        let kept = lists.filter(Bits::new(&[mask], 0, 2)).unwrap().into_array();
        let items = kept.items().unwrap();
        assert_eq!(items.len(), kept.len());
        assert_eq!(items.dictionary().unwrap().len(), 5);
    }
    let error = lists
        .filter(Bits::new(&[0b10], 0, 2))
        .map(drop)
        .unwrap_err();
    assert_eq!(
        error.to_string(),
        "it has 2 items, of which its parent wants 9"
    );
}

/// The least time of some calls.
#[cfg(not(miri))]
fn least<T>(call: impl Fn() -> T) -> Duration {
    let time = |_| {
        let start = Instant::now();
        call();
        start.elapsed()
    };
    (0..8).map(time).min().unwrap()
}

#[cfg(not(miri))]
#[test]
fn a_take_of_few_rows_of_a_slice_reads_few_offsets() {
    let none = Count::default();
    let ends: Vec<i32> = (0..1 << 18)
        .map(|row| i32::from(row == (1 << 18) - 1))
        .collect();
    let texts = import(texts_of("u", &ends), Schema::new("", "u", &none)).unwrap();
    let items = raw::Array::values(1, None, &[7], &none);
    let buffers = vec![None, Some(ints(&ends))];
    let len = i64::try_from(ends.len()).unwrap() - 1;
    let lists = raw::Array::of(len, buffers, vec![items], None, &none);
    let items = vec![Schema::new("item", "C", &none)];
    let lists = import(lists, Schema::of("", "+l", items, None, &none)).unwrap();
    for rows in [texts, lists] {
        // No call tests the offsets of the whole array.
        let rows = rows.slice(1..);
        let few = [5, rows.len() - 1];
        assert_eq!(rows.take(&few).unwrap().len(), 2);
        let [some, all] = [least(|| rows.take(&few)), least(|| rows.ranges().map(drop))];
        assert!(10 * some < all, "{some:?} for two rows, {all:?} for all");
    }
}
