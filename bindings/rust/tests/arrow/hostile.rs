//! Calls each reader of the crate for random trees with wrong contents. A tool such as
//! `AddressSanitizer` shows that no access is outside of a buffer. The numbers of exported structs
//! are valid, and each struct is released once.
use std::hint::black_box;

use vortex_bits::arrow::{Array, ArrowError, Export, Fault, Primitive};
use vortex_bits::{Bitmap, Bits, Validity};

use crate::export::as_it_came;
use crate::made::{Maker, rounds, spoil, structs};
use crate::raw::{Count, import};

/// Calls of readers.
struct Reader {
    maker: Maker,
    calls: u64,
    refused: u64,
}

/// The bytes of values.
fn read_values<T: Primitive>(array: &Array) -> bool {
    let values = array.values::<T>();
    let each = array.unaligned::<T>();
    if let Ok(values) = &values {
        let size = size_of_val(*values);
        // SAFETY: values are bytes.
        black_box(sum(unsafe {
            std::slice::from_raw_parts(values.as_ptr().cast(), size)
        }));
    }
    if let Ok(each) = &each {
        each.iter().for_each(|it| _ = black_box(it));
    }
    values.is_ok() || each.is_ok()
}

fn sum(bytes: &[u8]) -> u64 {
    bytes.iter().map(|it| u64::from(*it)).sum()
}

impl Reader {
    fn asked(&mut self, calls: u64, is_read: bool) {
        self.calls += calls;
        self.refused += if is_read { 0 } else { calls };
    }

    /// Reads all of an array, and of its children down to `levels` levels.
    fn read(&mut self, array: &Array, levels: usize) {
        self.bits(array);
        self.values(array);
        self.texts(array);
        self.lists(array, levels);
        self.hand_on(array);
        if levels == 0 {
            return;
        }
        for column in array.columns().into_iter().flatten() {
            self.read(&column, levels - 1);
        }
        if let Some(items) = array.dictionary() {
            self.items_of(array);
            self.read(&items, levels - 1);
        }
        let (from, to) = (
            self.maker.below(array.len() + 1),
            self.maker.below(array.len() + 1),
        );
        self.read(&array.slice(from.min(to)..from.max(to)), levels - 1);
    }

    fn bits(&mut self, array: &Array) {
        let answers = [
            array.validity().ok().map(Validity::bits),
            array.bits().ok().map(Some),
        ];
        for answer in answers {
            self.asked(1, answer.is_some());
            black_box(
                answer
                    .flatten()
                    .map(|bits| bits.iter().filter(|it| *it).count()),
            );
        }
        let nulls = array.null_count();
        self.asked(1, nulls.is_ok());
        assert!(nulls.unwrap_or(0) <= array.len() || array.field().format() == "n");
    }

    fn values(&mut self, array: &Array) {
        let answers = [
            read_values::<i8>(array),
            read_values::<u8>(array),
            read_values::<i16>(array),
            read_values::<u16>(array),
            read_values::<i32>(array),
            read_values::<u32>(array),
            read_values::<i64>(array),
            read_values::<u64>(array),
            read_values::<f32>(array),
            read_values::<f64>(array),
            read_values::<i128>(array),
            read_values::<[u64; 2]>(array),
            read_values::<[u8; 0]>(array),
            read_values::<[u8; 3]>(array),
            read_values::<[u8; 32]>(array),
        ];
        for answer in answers {
            self.asked(2, answer);
        }
    }

    fn texts(&mut self, array: &Array) {
        let texts = array.texts();
        self.asked(1, texts.is_ok());
        if let Ok(texts) = &texts {
            black_box(texts.iter().flatten().map(sum).sum::<u64>());
        }
        let (ranges, bytes) = (array.ranges(), array.bytes());
        self.asked(2, bytes.is_ok());
        if let (Ok(ranges), Ok(bytes)) = (ranges, bytes) {
            black_box(sum(bytes));
            ranges
                .iter()
                .for_each(|range| _ = black_box(sum(&bytes[range])));
        }
    }

    fn lists(&mut self, array: &Array, levels: usize) {
        let (ranges, items) = (array.ranges(), array.items());
        self.asked(2, items.is_ok());
        let Ok(items) = items else {
            return;
        };
        for range in ranges.into_iter().flat_map(|it| it.iter().take(3)) {
            self.values(&items.slice(range));
        }
        if levels > 0 {
            self.read(&items, levels - 1);
        }
    }

    fn items_of(&mut self, array: &Array) {
        let answers = [
            array.dictionary_values::<u8>().is_ok(),
            array.dictionary_values::<i64>().is_ok(),
            array.dictionary_values::<[u64; 2]>().is_ok(),
            array.dictionary_texts().is_ok(),
        ];
        for answer in answers {
            self.asked(1, answer);
        }
    }

    /// Exports an array in each way, and reads the results.
    fn hand_on(&mut self, array: &Array) {
        let number = array.len();
        let mask: Bitmap = (0..number).map(|_| self.maker.below(2) == 0).collect();
        let indices: Vec<usize> = (0..9).map(|_| self.maker.below(number + 1)).collect();
        let made = [
            Export::texts_kept(array, &mask),
            Export::texts_kept(array, None::<Bits>),
            Export::texts_taken(array, &indices),
            array.filter(&mask),
            array.take(&indices),
            array.take_valid(&indices, Bits::new(&[0b0101_1010, 1], 0, 9)),
        ];
        for export in made.into_iter().chain(joined(array)) {
            self.asked_for(export);
        }
        let own = array.clone().try_into_export();
        self.asked(1, own.is_ok());
        // The export fails if rows end after the last offset, and so does each reader.
        let is_back = |fault: &Fault| matches!(fault, Fault::Back { .. });
        match array.ranges() {
            Ok(_) => assert!(own.is_ok()),
            Err(ArrowError::Malformed { fault, .. }) if is_back(&fault) => assert!(own.is_err()),
            Err(_) => {}
        }
        let Ok(own) = own else {
            return;
        };
        self.take_over(own);
        for format in ["u", "z", "U", "vu", "vz", "+l", "+w:3", "i", "tdD", "w:16"] {
            self.asked_for(Export::from(array.clone()).with_format(format));
        }
        self.asked_for(Export::from(array.clone()).narrow());
        let items = Export::texts(["a"; 9], None);
        self.asked_for(Export::from(array.clone()).with_dictionary(items));
    }

    fn asked_for(&mut self, export: Result<Export, ArrowError>) {
        self.asked(1, export.is_ok());
        if let Ok(export) = export {
            self.take_over(export);
        }
    }

    /// Imports an export again, and reads its texts.
    fn take_over(&mut self, export: Export) {
        let (len, (array, schema)) = (export.len(), as_it_came(export));
        let again = import(array, schema).unwrap();
        self.calls += 1;
        assert_eq!(again.len(), len);
        if let Ok(texts) = again.texts() {
            black_box(texts.iter().flatten().map(sum).sum::<u64>());
        }
    }
}

/// Joins a part of the rows to the rows, and to the rows imported again, which the crate takes for
/// those of another array.
fn joined(array: &Array) -> [Result<Export, ArrowError>; 2] {
    let part = array.slice(array.len() / 2..);
    let again = array.clone().try_into_export();
    let again = again.and_then(Export::try_into_array);
    let again = again.unwrap_or(array.clone());
    [array.clone(), again].map(|it| Export::concat(array.field(), &[it, part.clone()]))
}

/// Reads `number` trees with wrong items. If `is_spoiled`, a number of each tree is wrong too.
fn read_all(seed: u64, number: usize, is_spoiled: bool) {
    let mut reader = Reader {
        maker: Maker::new(seed, true),
        calls: 0,
        refused: 0,
    };
    let mut imported = 0;
    for _ in 0..number {
        reader.maker.count = Count::default();
        let len = reader.maker.one_of(&[0, 1, 2, 7, 8, 9, 20, 65]);
        let mut tree = reader.maker.tree(len, 2);
        let structs = structs(&tree);
        if is_spoiled {
            spoil(&mut reader.maker, &mut tree);
        }
        let answer = import(tree.0, tree.1);
        if let Ok(array) = &answer {
            imported += 1;
            reader.read(array, 2);
        }
        drop(answer);
        assert_eq!(reader.maker.count.get(), structs);
    }
    let (calls, refused) = (reader.calls, reader.refused);
    println!("{calls} calls of {imported} arrays of {number}, of which {refused} are refused");
    assert!(imported > number / 20 && refused > calls / 20);
}

#[test]
fn arrays_whose_items_lie_are_read_within_their_buffers() {
    read_all(1, rounds(1500), false);
}

#[test]
fn arrays_whose_numbers_lie_are_read_within_their_buffers() {
    read_all(2, rounds(1500), true);
}
