//! Random exports by every safe call: each call returns an error or an export that is valid by the
//! interface.
use vortex_bits::arrow::{Array, Export, ExportStream, Field, Primitive};
use vortex_bits::{Bitmap, Bits};

use crate::export::raw_of;
use crate::made::{Maker, rounds, structs};
use crate::raw::{Count, import};
use crate::strict;

const FORMATS: [&str; 48] = [
    "n",
    "b",
    "c",
    "C",
    "s",
    "S",
    "i",
    "I",
    "l",
    "L",
    "e",
    "f",
    "g",
    "z",
    "Z",
    "u",
    "U",
    "vz",
    "vu",
    "d:9,2",
    "d:9,2,32",
    "d:18,2,64",
    "d:76,0,256",
    "w:0",
    "w:1",
    "w:2",
    "w:3",
    "w:4",
    "w:8",
    "w:16",
    "tdD",
    "tdm",
    "tts",
    "ttu",
    "tsn:UTC",
    "tDs",
    "tiM",
    "tiD",
    "tin",
    "+l",
    "+L",
    "+vl",
    "+vL",
    "+w:1000",
    "+w:1",
    "+m",
    "+us:0,5,126",
    "+ud:127,5,0",
];

/// Groups of formats with the same layout, whose bytes a consumer reads in different ways.
const ALIKE: [&[&str]; 10] = [
    &["c", "C", "w:1"],
    &["s", "S", "e", "w:2"],
    &["i", "I", "f", "tdD", "w:4"],
    &["l", "L", "g", "tDn", "tiD", "w:8"],
    &["u", "z"],
    &["U", "Z"],
    &["vu", "vz"],
    &["+l", "+m"],
    &["+w:0", "+w:1", "+w:2", "+w:5", "+w:1000"],
    &["+us:0,5,127", "+us:0,5,126", "+ud:0,5,127"],
];

/// Makes random exports, and counts the calls and their errors.
struct Asker {
    maker: Maker,
    calls: usize,
    refused: usize,
}

impl Asker {
    fn len(&mut self) -> usize {
        self.maker.one_of(&[0, 1, 2, 7, 8, 9, 20, 65])
    }

    /// A random format: in half of the calls from the group of `format`, if it is in one.
    fn format(&mut self, format: &str) -> &'static str {
        let alike = ALIKE.iter().find(|group| group.contains(&format));
        match alike {
            Some(group) if self.maker.below(2) == 0 => self.maker.one_of(group),
            _ => self.maker.one_of(&FORMATS),
        }
    }

    /// Indices with a dictionary. Most of them name one of its items.
    fn coded(&mut self) -> Export {
        let items = self.maker.one_of(&[1, 9, 128, 129, 200]);
        let len = self.len();
        let index = |byte: u8| u8::try_from(usize::from(byte) % (items + 1)).unwrap();
        let indices: Vec<u8> = self.maker.bytes(len).into_iter().map(index).collect();
        let of = || Export::values(vec![7i64; items], None);
        self.calls += 1;
        let coded = Export::values(indices, self.valid(len)).with_dictionary(of());
        self.refused += usize::from(coded.is_err());
        coded.unwrap_or_else(|_| of())
    }

    fn valid(&mut self, len: usize) -> Option<Bitmap> {
        match self.maker.below(3) {
            0 => None,
            1 => Some(Bitmap::new_set(len)),
            _ => Some((0..len).map(|_| self.maker.below(3) > 0).collect()),
        }
    }

    fn values<T: Primitive>(&mut self, of: fn(u8) -> T) -> Export {
        let len = self.len();
        let values: Vec<T> = self.maker.bytes(len).into_iter().map(of).collect();
        let valid = self.valid(len);
        Export::values(values, valid)
    }

    /// An export of Rust values, or of an imported array.
    fn first(&mut self) -> Export {
        let len = self.len();
        match self.maker.below(14) {
            0 => self.values(|it| it % 10),
            1 => self.values(|it| i8::from_ne_bytes([it])),
            2 => self.values(u16::from),
            3 => self.values(|it| i32::from(it) - 3),
            4 => self.values(|it| u64::from(it) << 56),
            5 => self.values(i128::from),
            6 => self.values(|it| [it, it]),
            7 => {
                let valid = self.valid(len);
                let bits = self.maker.bytes(len.div_ceil(8));
                Export::bits(Bitmap::from(Bits::new(&bits, 0, len)), valid)
            }
            8 | 9 => self.coded(),
            10 => Export::texts_or_nulls((0..len).map(|row| (row % 3 > 0).then_some("a\u{e9}"))),
            _ => {
                let tree = self.maker.tree(len, 2);
                // SAFETY: it is as the interface asks for.
                let looked = unsafe { strict::looked_at(&tree.0, &tree.1, strict::Look::Items) };
                assert_eq!(looked, Ok(structs(&tree) / 2));
                Export::from(import(tree.0, tree.1).unwrap())
            }
        }
    }

    /// Makes one more random call on an export; None if it fails.
    fn next(&mut self, export: Export) -> Option<Export> {
        self.calls += 1;
        let made = match self.maker.below(13) {
            0 => Ok(export.named(self.maker.one_of(&["", "a", "x\0y"]))),
            1 | 2 => {
                let format = self.format(export.field().format());
                export.with_format(format)
            }
            3 => {
                let items = self.first();
                export.with_dictionary(items)
            }
            4 => export.narrow(),
            5 => export
                .try_into_array()
                .map(|it| Export::from(self.part(&it))),
            6 => Ok(Export::batch([export])),
            7 => export
                .try_into_array()
                .and_then(|it| self.column(&it))
                .map(Export::from),
            8 => export.try_into_array().and_then(|it| self.texts(&it)),
            9 => export.try_into_array().and_then(|it| self.rows(&it)),
            10 | 11 => {
                let field = self.field(export.field());
                export.with_field(&field)
            }
            _ => export.try_into_array().and_then(|it| it.dictionary_texts()),
        };
        self.refused += usize::from(made.is_err());
        made.ok()
    }

    fn part(&mut self, array: &Array) -> Array {
        let [one, other] = [0; 2].map(|_| self.maker.below(array.len() + 1));
        array.slice(one.min(other)..one.max(other))
    }

    fn column(&mut self, array: &Array) -> Result<Array, vortex_bits::arrow::ArrowError> {
        let mut columns: Vec<_> = array.columns()?.chain(array.items().ok()).collect();
        let place = self.maker.below(columns.len());
        Ok(if columns.is_empty() {
            array.clone()
        } else {
            columns.swap_remove(place)
        })
    }

    fn rows(&mut self, array: &Array) -> Result<Export, vortex_bits::arrow::ArrowError> {
        let len = array.len();
        let mask: Bitmap = (0..len).map(|_| self.maker.below(2) == 0).collect();
        let indices: Vec<usize> = (0..9).map(|_| self.maker.below(len + 1)).collect();
        let part = array.slice(len / 2..);
        match self.maker.below(4) {
            0 => array.filter(&mask),
            1 => array.take_valid(&indices, self.valid(9)),
            2 => Export::concat(array.field(), &[part, array.clone()]),
            _ => {
                let again = Export::from(array.clone()).try_into_array()?;
                Export::concat(array.field(), &[part, again])
            }
        }
    }

    fn texts(&mut self, array: &Array) -> Result<Export, vortex_bits::arrow::ArrowError> {
        let len = array.len();
        let mask: Bitmap = (0..len).map(|_| self.maker.below(2) == 0).collect();
        let indices: Vec<i16> = (0..9)
            .map(|_| i16::try_from(self.maker.below(len + 1)).unwrap() - 1)
            .collect();
        match self.maker.below(3) {
            0 => Export::texts_kept(array, &mask),
            1 => Export::texts_taken_valid(array, &indices, self.valid(9)),
            _ => Export::texts_taken(array, &indices),
        }
    }

    /// A field like this one, or another.
    fn field(&mut self, field: &Field) -> Field {
        let of = match self.maker.below(3) {
            0 => Field::new("other", self.maker.one_of(&FORMATS)).unwrap_or(field.clone()),
            1 => Field::batch([field.clone()]),
            _ => field.clone(),
        };
        let pairs = self.maker.below(3);
        let pairs = (0..pairs).map(|it| ("key", "v".repeat(it)));
        of.nullable(self.maker.below(2) == 0).with_metadata(pairs)
    }

    /// An export by some random calls, all of which succeeded.
    fn export(&mut self) -> Export {
        loop {
            let first = self.first();
            let calls = self.maker.below(6);
            let made = (0..calls).try_fold(first, |export, _| self.next(export));
            if let Some(made) = made {
                return made;
            }
        }
    }
}

#[test]
fn what_safe_calls_hand_on_is_as_the_interface_wants_it() {
    let mut asker = Asker {
        maker: Maker::new(3, false),
        calls: 0,
        refused: 0,
    };
    let number = rounds(6000);
    for _ in 0..number {
        asker.maker.count = Count::default();
        let (mut array, mut schema) = raw_of(asker.export());
        // SAFETY: they aren't released.
        unsafe {
            array.release.unwrap()(&raw mut array);
            schema.release.unwrap()(&raw mut schema);
        }
        assert!(array.release.is_none() && schema.release.is_none());
    }
    let (calls, refused) = (asker.calls, asker.refused);
    println!("{number} exports by {calls} calls, of which {refused} were refused");
    assert!(refused > number / 10 && calls > number);
}

#[test]
fn what_streams_hand_on_is_as_the_interface_wants_it() {
    let mut asker = Asker {
        maker: Maker::new(4, false),
        calls: 0,
        refused: 0,
    };
    let [mut batches, mut ended] = [0; 2];
    let number = rounds(1500);
    for _ in 0..number {
        let all: Vec<Array> = (0..3).map(|_| asker.export().into_array()).collect();
        // Batches of one type, and one that may be of another.
        let mut batches_of = vec![all[0].clone(), asker.part(&all[0]), all[0].slice(..0)];
        batches_of.push(asker.maker.one_of(&[&all[0], &all[1]]).clone());
        let field = asker.field(all[0].field());
        let exports = batches_of.into_iter().map(|it| Ok(Export::from(it)));
        let (lens, errno) = strict::batches(ExportStream::new(field, exports)).unwrap();
        batches += lens.len();
        ended += usize::from(errno == 0);
        assert!(errno == 0 || errno == 22);
    }
    println!("{batches} batches of {number} streams, of which {ended} ended well");
    assert!(batches > number / 2 && ended > number / 20);
}
