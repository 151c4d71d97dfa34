//! Exported arrays, as a consumer in C reads them.
use std::fmt::{Debug, Write};
use std::mem::transmute;
use std::panic;
use std::ptr;
use std::slice;
use std::sync::Arc;
use std::thread;

use vortex_bits::arrow::{Array, ArrowArray, ArrowError, ArrowSchema, Export, Primitive};
use vortex_bits::{AlignedBytes, Bitmap, Bits, SharedVec};

use crate::plain::{Random, bit};
use crate::raw::{self, Count};
use crate::strict::{self, Look};

/// The two structs, as C sees them. Tests that also the items are valid for the type.
#[track_caller]
pub fn raw_of(export: Export) -> (raw::Array, raw::Schema) {
    looked_at(export, Look::Items)
}

/// The same without a test of the items, for arrays that were imported with wrong ones.
#[track_caller]
pub fn as_it_came(export: Export) -> (raw::Array, raw::Schema) {
    looked_at(export, Look::Numbers)
}

/// Imports an export again, after a test of its structs.
pub trait ReadBack {
    fn read_back(self) -> Array;
}

impl ReadBack for Export {
    #[track_caller]
    fn read_back(self) -> Array {
        let (array, schema) = raw_of(self);
        raw::import(array, schema).unwrap()
    }
}

#[track_caller]
fn looked_at(export: Export, look: Look) -> (raw::Array, raw::Schema) {
    let (array, schema) = export.into_raw();
    // SAFETY: the types are laid out alike.
    let both = unsafe {
        (
            transmute::<ArrowArray, raw::Array>(array),
            transmute::<ArrowSchema, raw::Schema>(schema),
        )
    };
    // SAFETY: they are as the interface asks for.
    let looked = unsafe { strict::looked_at(&both.0, &both.1, look) };
    if let Err(wrong) = looked {
        panic!("{wrong}");
    }
    both
}

fn release((mut array, mut schema): (raw::Array, raw::Schema)) {
    // SAFETY: they aren't released.
    unsafe {
        array.release.unwrap()(&raw mut array);
        schema.release.unwrap()(&raw mut schema);
    }
    assert!(array.release.is_none() && schema.release.is_none());
}

/// The array's rows and nulls, as its struct says.
#[track_caller]
pub fn counts_of(export: Export) -> (i64, i64) {
    let both = raw_of(export);
    let counts = (both.0.length, both.0.null_count);
    release(both);
    counts
}

/// The bits of a buffer from an array's offset on; None where it is null.
fn bits_of(array: &raw::Array, buffer: usize) -> Option<Vec<bool>> {
    let [offset, len] = [array.offset, array.length].map(|it| usize::try_from(it).unwrap());
    // SAFETY: there are two buffers, and this is one of bits.
    let bytes = unsafe { *array.buffers.add(buffer) }.cast::<u8>();
    if bytes.is_null() {
        return None;
    }
    // SAFETY: there is a bit for each item.
    let bytes = unsafe { slice::from_raw_parts(bytes, (offset + len).div_ceil(8)) };
    Some(
        (offset..offset + len)
            .map(|place| bit(bytes, place))
            .collect(),
    )
}

fn number(usize: usize) -> i64 {
    i64::try_from(usize).unwrap()
}

fn text<'a>(pointer: *const std::ffi::c_char) -> &'a str {
    // SAFETY: it is one of an export, which isn't released before the test is done with it.
    unsafe { std::ffi::CStr::from_ptr(pointer) }
        .to_str()
        .unwrap()
}

fn validity(random: &mut Random, offset: usize, len: usize) -> Bitmap {
    let bytes = random.bytes((offset + len).div_ceil(8));
    Bitmap::from(Bits::from_bytes(&bytes)).slice(offset..offset + len)
}

#[test]
fn bits_and_their_validity_meet_at_one_offset() {
    let mut random = Random(3);
    for own in [0, 1, 7, 8, 9, 63, 64, 127] {
        for other in [0, 1, 8, 9, 15, 71] {
            for len in [0, 1, 8, 64, 100] {
                let bits = validity(&mut random, own, len);
                let valid = validity(&mut random, other, len);
                let (want, nulls) = (Vec::from(bits.clone()), valid.count_zeros());
                let both = raw_of(Export::bits(bits, Some(valid.clone())));
                assert_eq!(
                    (both.0.length, both.0.null_count),
                    (number(len), number(nulls))
                );
                assert_eq!((both.0.n_buffers, both.0.n_children), (2, 0));
                assert_eq!(bits_of(&both.0, 1), Some(want));
                let got = bits_of(&both.0, 0);
                assert_eq!(got, (nulls > 0).then(|| Vec::from(valid)));
                assert_eq!((text(both.1.format), both.1.flags), ("b", 2));
                release(both);
            }
        }
    }
}

fn goes_out_and_in<T: Primitive + PartialEq + Debug>(values: Vec<T>, format: &str) {
    let place = values.as_ptr();
    let valid = Bitmap::from([true, true, true, false, true]).slice(1..4);
    for valid in [None, Some(valid)] {
        let out = raw_of(Export::values(values.clone(), valid.clone()).named("v"));
        assert_eq!((text(out.1.format), text(out.1.name)), (format, "v"));
        assert_eq!((out.0.length, out.0.offset), (3, 0));
        assert_eq!(bits_of(&out.0, 0), valid.clone().map(Vec::from));
        let array = raw::import(out.0, out.1).unwrap();
        assert_eq!(
            array.unaligned::<T>().unwrap().iter().collect::<Vec<_>>(),
            values
        );
        assert_eq!(array.null_count(), Ok(usize::from(valid.is_some())));
    }
    // No value is copied.
    let array = Export::values(values, None).into_array();
    assert_eq!(array.values::<T>().unwrap().as_ptr(), place);
    let other = if format == "l" { "g" } else { "l" };
    assert_eq!(
        Export::values(vec![0i32], None)
            .with_format(other)
            .unwrap_err()
            .to_string(),
        format!("values of format \"i\" aren't those of {other:?}")
    );
}

#[test]
fn values_of_each_type_go_out_as_they_lie() {
    goes_out_and_in(vec![1u8, 2, 3], "C");
    goes_out_and_in(vec![-1i8, 2, 3], "c");
    goes_out_and_in(vec![1u16, 2, 3], "S");
    goes_out_and_in(vec![-1i16, 2, 3], "s");
    goes_out_and_in(vec![1u32, 2, 3], "I");
    goes_out_and_in(vec![-1i32, 2, 3], "i");
    goes_out_and_in(vec![1u64, 2, 3], "L");
    goes_out_and_in(vec![-1i64, 2, 3], "l");
    goes_out_and_in(vec![0.5f32, 2.0, 3.0], "f");
    goes_out_and_in(vec![0.5f64, 2.0, 3.0], "g");
    goes_out_and_in(vec![-1i128, 2, 3], "d:38,0");
    goes_out_and_in(vec![[1u64, 2], [3, 4], [5, 6]], "w:16");
    goes_out_and_in(vec![[1i64, 2], [3, 4], [5, 6]], "w:16");
    goes_out_and_in(vec![[1u8, 2, 3, 4, 5], [0; 5], [9; 5]], "w:5");
    let none = raw_of(Export::values(Vec::<i32>::new(), None));
    assert_eq!((none.0.length, none.0.null_count), (0, 0));
    release(none);
}

#[test]
fn formats_are_those_of_values_that_lie_alike() {
    let price = Export::values(vec![5i128], None)
        .with_format("d:19,2")
        .unwrap();
    let price = price.read_back();
    assert_eq!((price.field().format(), price.len()), ("d:19,2", 1));
    let month = Export::values(vec![[0u8; 16]], None)
        .with_format("tin")
        .unwrap();
    assert_eq!(month.field().format(), "tin");
    for format in ["nonsense", "b", "+s", "d:19,2"] {
        let refused = Export::values(vec![5i32], None).with_format(format);
        assert!(refused.is_err(), "{format}");
    }
    assert!(
        Export::bits(Bitmap::new_set(3), None)
            .with_format("C")
            .is_err()
    );
    assert!(Export::batch([]).with_format("+l").is_err());
}

#[test]
fn other_owners_keep_their_values() {
    let shared: Arc<[i64]> = Arc::from([1, 2, 3]);
    let array = Export::values(Arc::clone(&shared), None).read_back();
    assert_eq!(array.values::<i64>().unwrap().as_ptr(), shared.as_ptr());
    assert_eq!(Arc::strong_count(&shared), 2);
    drop(array);
    assert_eq!(Arc::strong_count(&shared), 1);
    let shared = SharedVec::from(vec![1i64, 2, 3]);
    let array = Export::values(shared.clone(), None).read_back();
    assert_eq!(array.values::<i64>().unwrap().as_ptr(), shared.as_ptr());
    drop(array);
    assert_eq!(Arc::strong_count(&SharedVec::from(shared.0).0), 1);
    // Values within the owner itself.
    let array = Export::values([7u16, 8], None).read_back();
    assert_eq!(array.values::<u16>(), Ok(&[7, 8][..]));
    let own = Bitmap::new(AlignedBytes::zeroed(4), 9, 20);
    let array = Export::bits(own, None).read_back();
    assert!(!array.bits().unwrap().any() && array.len() == 20);
}

/// An owner that counts how often it is dropped.
struct Owner(Vec<i32>, Count);

impl AsRef<[i32]> for Owner {
    fn as_ref(&self) -> &[i32] {
        &self.0
    }
}

impl Drop for Owner {
    fn drop(&mut self) {
        self.1.add();
    }
}

#[test]
fn what_is_kept_is_dropped_once() {
    let count = Count::default();
    let column = |name| Export::values(Owner(vec![1, 2, 3], count.clone()), None).named(name);
    let rows = || Export::batch(["a", "b"].map(column));
    drop(rows());
    assert_eq!(count.get(), 2);
    release(raw_of(rows()));
    assert_eq!(count.get(), 4);
    let a = rows().read_back().column("a").unwrap();
    assert_eq!(count.get(), 4);
    thread::spawn(move || drop(a)).join().unwrap();
    assert_eq!(count.get(), 6);
    let items = |name| Export::values(Owner(vec![0; 4], count.clone()), None).named(name);
    let refused = column("a")
        .with_dictionary(items("b"))
        .unwrap()
        .with_dictionary(items("c"));
    assert!(refused.is_err());
    assert_eq!(count.get(), 9);
    drop(column("a").with_format("g"));
    assert_eq!(count.get(), 10);
    let lengths =
        panic::catch_unwind(|| Export::batch([column("a"), Export::values(vec![1u8], None)]));
    assert!(lengths.is_err());
    assert_eq!(count.get(), 11);
    let valid = panic::catch_unwind(|| Export::values(vec![1u8], Some(Bitmap::new_set(2))));
    let text = valid.unwrap_err().downcast_ref::<String>().cloned();
    assert_eq!(text.as_deref(), Some("2 bits of validity for 1 values"));
}

/// A consumer may move children out of a struct that it releases at once.
#[test]
fn children_that_were_moved_stay() {
    let count = Count::default();
    let column = |name| Export::values(Owner(vec![1, 2, 3], count.clone()), None).named(name);
    let (mut array, mut schema) = raw_of(Export::batch(["a", "b"].map(column)));
    assert_eq!(
        (array.n_children, schema.n_children, schema.flags),
        (2, 2, 0)
    );
    // SAFETY: there are two children, of which the second one is moved.
    let b = unsafe {
        let (b, of) = (*array.children.add(1), *schema.children.add(1));
        let moved = Array::from_raw(b.cast(), of.cast()).unwrap();
        assert!((*b).release.is_none() && (*of).release.is_none());
        array.release.unwrap()(&raw mut array);
        schema.release.unwrap()(&raw mut schema);
        moved
    };
    assert_eq!(count.get(), 1);
    assert_eq!(
        (b.field().name(), b.values::<i32>()),
        ("b", Ok(&[1, 2, 3][..]))
    );
    drop(b);
    assert_eq!(count.get(), 2);
}

#[test]
fn dictionaries_go_out_with_their_indices() {
    let count = Count::default();
    let items = Export::values(Owner(vec![10, 20], count.clone()), None);
    let rows = Export::values(vec![1u16, 1, 0], None)
        .with_dictionary(items)
        .unwrap();
    assert!(rows.field().dictionary().is_some());
    let indices = Export::values([0u32], None).with_dictionary(Export::values([1u8], None));
    assert!(indices.unwrap().with_format("f").is_err());
    let out = raw_of(rows.with_format("s").unwrap());
    assert!(!out.0.dictionary.is_null() && !out.1.dictionary.is_null());
    let rows = raw::import(out.0, out.1).unwrap();
    assert_eq!(rows.values::<i16>(), Ok(&[1, 1, 0][..]));
    assert_eq!(
        rows.dictionary().unwrap().values::<i32>(),
        Ok(&[10, 20][..])
    );
    drop(rows);
    assert_eq!(count.get(), 1);
    let refused = Export::values(vec![0.5], None).with_dictionary(Export::values([1], None));
    assert!(matches!(refused.unwrap_err(), ArrowError::Malformed { .. }));
}

#[test]
fn texts_go_out_one_behind_the_other() {
    let valid = Bitmap::from([false, true, true]).slice(..);
    let names = Export::texts(["a", "", "b\u{e9}"], Some(valid)).named("n");
    let out = raw_of(names.with_format("Z").unwrap());
    assert_eq!((out.0.length, out.0.null_count, out.0.n_buffers), (3, 1, 3));
    assert_eq!(text(out.1.format), "Z");
    let names = raw::import(out.0, out.1).unwrap();
    let (ranges, bytes) = (names.ranges().unwrap(), names.bytes().unwrap());
    let rows: Vec<_> = ranges.iter().map(|row| &bytes[row]).collect();
    assert_eq!(rows, [b"a", &b""[..], "b\u{e9}".as_bytes()]);
    assert_eq!(names.validity().unwrap().get(0), Some(false));
    let none = Export::texts([""; 0], None).read_back();
    assert!(none.is_empty() && none.ranges().unwrap().is_empty());
}

#[test]
fn names_end_at_their_first_zero() {
    let out = raw_of(Export::values([1u8], None).named("a\0b"));
    assert_eq!(text(out.1.name), "a");
    release(out);
}

/// The numbers of a tree, and where its buffers are.
fn tree(array: &raw::Array) -> String {
    let mut text = format!("{} {} {} [", array.length, array.null_count, array.offset);
    // SAFETY: the array is as the interface asks for.
    unsafe {
        for place in 0..usize::try_from(array.n_buffers).unwrap() {
            write!(text, "{:?} ", *array.buffers.add(place)).unwrap();
        }
        for place in 0..usize::try_from(array.n_children).unwrap() {
            text += &tree(&**array.children.add(place));
        }
        if !array.dictionary.is_null() {
            text += &tree(&*array.dictionary);
        }
    }
    text + "]"
}

/// The texts of a tree.
fn types(schema: &raw::Schema) -> String {
    let name = if schema.name.is_null() {
        ""
    } else {
        text(schema.name)
    };
    let mut types = format!("{name}:{} {} [", text(schema.format), schema.flags);
    // SAFETY: the schema is as the interface asks for.
    unsafe {
        for place in 0..usize::try_from(schema.n_children).unwrap() {
            types += &self::types(&**schema.children.add(place));
        }
        if !schema.dictionary.is_null() {
            types += &self::types(&*schema.dictionary);
        }
    }
    types + "]"
}

#[test]
fn what_came_in_goes_out_as_it_is() {
    let count = Count::default();
    let (array, schema) = raw::rows(&count);
    let (wanted, wanted_types) = (tree(&array), types(&schema));
    let array = raw::import(array, schema).unwrap();
    let out = as_it_came(Export::from(array.clone()));
    assert_eq!((tree(&out.0), types(&out.1)), (wanted, wanted_types));
    release(out);
    // Rows of a slice, of which the nulls aren't counted, and a column of it.
    let part = Export::from(array.slice(2..5)).into_array();
    let list = as_it_came(Export::from(part.column("list").unwrap()));
    assert_eq!(
        (list.0.length, list.0.offset, list.0.null_count),
        (3, 9, -1)
    );
    let number = part.column("number").unwrap();
    assert_eq!(number.values::<u32>(), Ok(&[0x0909_0909; 3][..]));
    let slice = as_it_came(Export::from(array.column("number").unwrap().slice(1..)));
    assert_eq!((slice.0.length, slice.0.null_count), (5, 0));
    release(slice);
    drop((array, part, number));
    assert_eq!(count.get(), 6);
    release(list);
    assert_eq!(count.get(), 12);
}

#[test]
fn nulls_of_a_slice_are_said_where_they_are_known() {
    let nulls = |null_count, len| {
        let array = raw::Array::values(8, Some(&[0x0F]), &[7; 8], &Count::default());
        let array = raw::import_as(array.nulls(null_count), "C").unwrap();
        let out = as_it_came(Export::from(array.slice(..len)));
        let said = out.0.null_count;
        release(out);
        said
    };
    assert_eq!(
        [nulls(4, 8), nulls(4, 7), nulls(0, 7), nulls(-1, 8)],
        [4, -1, 0, -1]
    );
}

#[test]
fn metadata_and_flags_are_kept() {
    let mut blob = 2i32.to_ne_bytes().to_vec();
    let texts = ["ARROW:extension:name", "geo", "", "x"];
    for text in texts {
        blob.extend(i32::try_from(text.len()).unwrap().to_ne_bytes());
        blob.extend(text.as_bytes());
    }
    let with = |metadata: *const u8| {
        let mut schema = raw::Schema::new("", "C", &Count::default());
        (schema.metadata, schema.flags) = (metadata.cast(), 4);
        raw::import(raw::Array::values(1, None, &[1], &Count::default()), schema)
    };
    let import = |blob: &[u8]| with(blob.as_ptr());
    let array = import(&blob).unwrap();
    let pairs = [texts[..2].to_vec(), texts[2..].to_vec()];
    let got = |array: &Array| {
        let pairs = array.field().metadata();
        let text = |it: &[u8]| String::from_utf8(it.to_vec()).unwrap();
        pairs
            .map(|(key, value)| vec![text(key), text(value)])
            .collect::<Vec<_>>()
    };
    assert_eq!(got(&array), pairs);
    assert!(!array.field().is_nullable());
    let out = as_it_came(Export::from(array));
    assert_eq!(out.1.flags, 4);
    let again = raw::import(out.0, out.1).unwrap();
    assert_eq!(got(&again), pairs);
    let no_pairs = import(&[0; 4]).unwrap();
    assert_eq!(no_pairs.field().metadata().count(), 0);
    assert_eq!(no_pairs.field(), with(ptr::null()).unwrap().field());
    let none = Export::values([1u8], None).read_back();
    assert_eq!(none.field().metadata().count(), 0);
    for at in [0, 4, 28] {
        let mut blob = blob.clone();
        blob[at..at + 4].copy_from_slice(&(-1i32).to_ne_bytes());
        let refused = import(&blob).unwrap_err().to_string();
        assert_eq!(refused, "a length in metadata is -1");
    }
}
