//! Predicates over texts, compared with plain calls for each row. The lengths of texts and the
//! numbers of rows cover each case of the code.
use vortex_bits::arrow::{Array, Texts};
use vortex_bits::{Bitmap, BitsMut};

use crate::made::{Maker, rounds};
use crate::raw::{self, Buffer, Count, import_as};

/// The bytes of each row, those of null rows too.
struct Rows {
    rows: Vec<Vec<u8>>,
    valid: Vec<bool>,
}

impl Rows {
    /// Random pieces of a text. Most begin where it begins, and some have one byte changed. Of many
    /// rows each block has its own share of nulls, and of rows of one length.
    fn random(maker: &mut Maker, text: &[u8]) -> Rows {
        let few = [0, 1, 7, 17, 63, 64, 65, 66, 127, 130, 200];
        let many = [513, 960, 1023, 1024, 1025, 1089, 2049];
        let number = if maker.below(6) > 0 {
            maker.one_of(&few)
        } else {
            maker.one_of(&many)
        };
        let (mut nulls, mut one) = (maker.one_of(&[2, 10, 1000]), maker.below(3) == 0);
        let len = some_len(maker);
        let mut rows = Rows {
            rows: Vec::new(),
            valid: Vec::new(),
        };
        for row in 0..number {
            if row % 64 == 0 && number > 200 {
                (nulls, one) = (maker.one_of(&[1, 2, 10, 1000]), maker.below(2) == 0);
            }
            let len = if one { len } else { some_len(maker) };
            let from = maker.one_of(&[0, 0, 0, 1, 5]);
            let mut row = text[from..from + len].to_vec();
            if let Some(byte) = row.get_mut(maker.below(2 * len)) {
                *byte ^= maker.one_of(&[0, 1]);
            }
            rows.rows.push(row);
            rows.valid.push(maker.below(nulls) > 0);
        }
        rows
    }

    /// The bitmap of rows that are valid and pass a test.
    fn that(&self, test: impl Fn(&[u8]) -> bool) -> Bitmap {
        let rows = self.rows.iter().zip(&self.valid);
        rows.map(|(row, valid)| *valid && test(row)).collect()
    }

    /// The rows as an array of one of three layouts. Its bytes begin with some that no row has.
    fn array(&self, maker: &mut Maker) -> Array {
        let validity: Bitmap = self.valid.iter().copied().collect();
        let before = maker.one_of(&[0, 3, 70]);
        let bytes = [vec![b'a'; before], self.rows.concat()].concat();
        let mut ends = vec![i64::try_from(before).unwrap()];
        for row in &self.rows {
            ends.push(ends[ends.len() - 1] + i64::try_from(row.len()).unwrap());
        }
        let narrow = |number: &i64| i32::try_from(*number).unwrap().to_ne_bytes();
        let (format, numbers) = match maker.below(3) {
            0 => ("z", ends.iter().flat_map(narrow).collect()),
            1 => ("Z", ends.iter().flat_map(|it| it.to_ne_bytes()).collect()),
            _ => ("vz", self.views(&ends)),
        };
        let numbers = Buffer::new(&numbers, maker.below(4));
        let mut buffers = vec![Buffer::exact(validity.bits().bytes()), numbers];
        buffers.push(Buffer::exact(&bytes));
        if format == "vz" {
            let size = i64::try_from(bytes.len()).unwrap();
            buffers.push(Buffer::exact(&size.to_ne_bytes()));
        }
        let buffers = buffers.into_iter().map(Some).collect();
        let len = i64::try_from(self.rows.len()).unwrap();
        import_as(raw::Array::new(len, buffers, &Count::default()), format).unwrap()
    }

    fn views(&self, starts: &[i64]) -> Vec<u8> {
        let mut views = Vec::new();
        for (row, start) in self.rows.iter().zip(starts) {
            let mut view = [0; 16];
            view[..4].copy_from_slice(&i32::try_from(row.len()).unwrap().to_ne_bytes());
            if row.len() <= 12 {
                view[4..4 + row.len()].copy_from_slice(row);
            } else {
                view[4..8].copy_from_slice(&row[..4]);
                view[12..].copy_from_slice(&i32::try_from(*start).unwrap().to_ne_bytes());
            }
            views.extend_from_slice(&view);
        }
        views
    }

    /// The rows from some index on.
    fn after(self, from: usize) -> Rows {
        let (rows, valid) = (self.rows[from..].to_vec(), self.valid[from..].to_vec());
        Rows { rows, valid }
    }
}

fn some_len(maker: &mut Maker) -> usize {
    match maker.below(8) {
        0 => 60 + maker.below(11),
        1 => 300,
        _ => maker.below(21),
    }
}

/// Compares a predicate, and its in-place form on a random mask at a random offset, with the rows
/// that pass. Returns their number.
#[track_caller]
fn compare(
    maker: &mut Maker,
    wanted: &Bitmap,
    plain: &Bitmap,
    in_place: impl Fn(BitsMut<'_>),
) -> usize {
    assert_eq!(plain, wanted);
    let (mut few, offset, len) = (maker.one_of(&[1, 2, 4, 30]), maker.below(10), wanted.len());
    let is_selected = |row: usize| {
        if row % 64 == 0 && len > 200 {
            few = maker.one_of(&[1, 2, 4, 30, 1000]);
        }
        maker.below(few) == 0
    };
    let mask: Bitmap = (0..len).map(is_selected).collect();
    let mut got = vec![0xA5; (offset + len).div_ceil(8) + 1];
    let mut both = got.clone();
    BitsMut::new(&mut got, offset, len).copy_from(mask.bits());
    in_place(BitsMut::new(&mut got, offset, len));
    BitsMut::new(&mut both, offset, len).copy_from((&mask & wanted).bits());
    assert_eq!(got, both, "{len} rows from bit {offset}");
    wanted.count_ones()
}

/// Compares each predicate, and returns how many rows passed each.
fn compare_all(maker: &mut Maker, rows: &Rows, texts: &Texts<'_>, text: &[u8]) -> [usize; 6] {
    let from = maker.one_of(&[0, 0, 1, 5]);
    let part = &text[from..from + maker.below(21)];
    let equal = match maker.below(2) {
        0 => rows.rows.get(maker.below(5)).map_or(part, |row| row),
        _ => part,
    };
    let starts = (0..maker.one_of(&[0, 1, 5, 20])).map(|_| maker.below(6));
    let set: Vec<&[u8]> = starts.map(|from| &text[from..from * 4]).collect();
    let set = [
        &set[..],
        &rows.rows.first().map_or(vec![], |row| vec![&row[..]]),
    ]
    .concat();
    let has = |row: &[u8]| part.is_empty() || row.windows(part.len()).any(|it| it == part);
    [
        compare(
            maker,
            &rows.that(|row| row == equal),
            &texts.equals(equal),
            |it| {
                texts.and_equals(equal, it);
            },
        ),
        compare(
            maker,
            &rows.that(|row| row < part),
            &texts.less_than(part),
            |it| {
                texts.and_less_than(part, it);
            },
        ),
        compare(
            maker,
            &rows.that(|row| row.starts_with(part)),
            &texts.starts_with(part),
            |it| {
                texts.and_starts_with(part, it);
            },
        ),
        compare(
            maker,
            &rows.that(|row| row.ends_with(part)),
            &texts.ends_with(part),
            |it| {
                texts.and_ends_with(part, it);
            },
        ),
        compare(maker, &rows.that(has), &texts.contains(part), |it| {
            texts.and_contains(part, it);
        }),
        compare(
            maker,
            &rows.that(|row| set.contains(&row)),
            &texts.is_in(&set),
            |it| {
                texts.and_is_in(&set, it);
            },
        ),
    ]
}

#[test]
fn rows_of_blocks_are_those_of_plain_calls() {
    let mut maker = Maker::new(25, false);
    let (mut passed, mut all) = ([0; 6], 0);
    for round in 0..rounds(1500) {
        let kinds = [&b"ab"[..], b"a\0", b"abcdefghij\xFF"][round % 3];
        let text: Vec<u8> = (0..310).map(|_| maker.one_of(kinds)).collect();
        let rows = Rows::random(&mut maker, &text);
        let (array, from) = (rows.array(&mut maker), maker.below(10).min(rows.rows.len()));
        let (array, rows) = (array.slice(from..), rows.after(from));
        let found = compare_all(&mut maker, &rows, &array.texts().unwrap(), &text);
        passed = [0, 1, 2, 3, 4, 5].map(|it| passed[it] + found[it]);
        all += rows.rows.len();
    }
    let is_some = |passed: &usize| *passed > all / 50 && *passed < all;
    assert!(passed.iter().all(is_some), "{passed:?} of {all}");
}

/// Returns distinct texts. Most begin with the same eight bytes; in a large set some have a key
/// whose high part no other key has. Some end with zeros.
fn different(number: usize) -> Vec<Vec<u8>> {
    let text = |it: usize| match it % 16 {
        0 => format!("{it} is another"),
        1 => format!("{}\0\0", it + 1),
        2 => it.to_string(),
        _ => format!("the same {it}"),
    };
    (0..number).map(|it| text(it).into_bytes()).collect()
}

/// No text, one text or several texts of a set have the high end of a row's key. Some sets have
/// more texts than a byte can index.
#[test]
fn rows_in_sets_of_any_size_are_those_of_a_loop() {
    let (mut maker, mut passed) = (Maker::new(26, false), 0);
    for number in [0, 1, 2, 6, 16, 17, 64, 255, 256, 257, 400, 1000] {
        let set = different(number);
        for len in [1, 15, 63, 64, 65, 200] {
            let all = different(number + maker.one_of(&[1, 40]) + number / 2);
            let row = |maker: &mut Maker| all[maker.below(all.len())].clone();
            let rows = Rows {
                rows: (0..len).map(|_| row(&mut maker)).collect(),
                valid: (0..len).map(|_| maker.below(10) > 0).collect(),
            };
            let wanted = rows.that(|row| set.iter().any(|it| it == row));
            let array = rows.array(&mut maker);
            let texts = array.texts().unwrap();
            passed += compare(&mut maker, &wanted, &texts.is_in(&set), |mask| {
                texts.and_is_in(&set, mask);
            });
        }
    }
    assert!(passed > 1000, "{passed}");
}
