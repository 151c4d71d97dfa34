//! A call that writes a window stores only to the window's bytes, and never rewrites a byte around
//! them: the pages around the window's page can't be written.
#![cfg(all(target_os = "linux", target_pointer_width = "64", not(miri)))]

use std::ffi::{c_int, c_void};
#[cfg(feature = "levels")]
use std::sync::Mutex;
use std::{ptr, slice};

#[cfg(feature = "levels")]
use vortex_bits::Level;
use vortex_bits::{Bitmap, Bits, BitsMut, Comparison, Ranks, Value, blocks, values};

unsafe extern "C" {
    fn mmap(
        at: *mut c_void,
        size: usize,
        kind: c_int,
        flags: c_int,
        file: c_int,
        from: i64,
    ) -> *mut c_void;
    fn mprotect(at: *mut c_void, size: usize, kind: c_int) -> c_int;
    fn munmap(at: *mut c_void, size: usize) -> c_int;
}

/// A multiple of the page size of any machine.
const PAGE: usize = 1 << 16;
const READ: c_int = 1;
const WRITE: c_int = 2;
const PRIVATE_ANONYMOUS: c_int = 0x22;

/// Three pages of memory, of which the middle one alone can be written.
struct Pages(*mut u8);

impl Pages {
    fn new() -> Pages {
        // SAFETY: the memory is new.
        let at = unsafe {
            mmap(
                ptr::null_mut(),
                3 * PAGE,
                READ | WRITE,
                PRIVATE_ANONYMOUS,
                -1,
                0,
            )
        };
        assert_ne!(at.addr(), usize::MAX, "mmap");
        let pages = Pages(at.cast());
        pages.all::<u8>().fill(0xA5);
        for page in [0, 2] {
            // SAFETY: it is a page of that memory.
            let refused = unsafe { mprotect(pages.0.add(page * PAGE).cast(), PAGE, READ) };
            assert_eq!(refused, 0, "mprotect");
        }
        pages
    }

    /// The three pages. A store to the outer ones ends the test.
    #[allow(clippy::mut_from_ref, reason = "one is used at a time")]
    fn all<T>(&self) -> &mut [T] {
        // SAFETY: the memory is there as long as `self`, and any bytes are a value of the types
        // here.
        unsafe { slice::from_raw_parts_mut(self.0.cast(), 3 * PAGE / size_of::<T>()) }
    }
}

impl Drop for Pages {
    fn drop(&mut self) {
        // SAFETY: no one uses it any more.
        unsafe { munmap(self.0.cast(), 3 * PAGE) };
    }
}

/// How many bits the longest window has.
const MOST: usize = 2000;

/// What calls read.
struct Read {
    left: Vec<u8>,
    right: Vec<u8>,
    floats: Vec<f32>,
    numbers: Vec<u64>,
    bools: Vec<bool>,
    indices: Vec<u16>,
}

impl Read {
    fn new() -> Read {
        let bytes = |by: usize| (0..MOST + 9).map(move |i| ((i * by) >> 3).to_le_bytes()[0]);
        Read {
            left: bytes(1357).collect(),
            right: bytes(7531).collect(),
            floats: bytes(57).map(f32::from).collect(),
            numbers: bytes(31).map(u64::from).collect(),
            bools: bytes(91).map(|byte| byte % 3 == 0).collect(),
            indices: bytes(17).map(|byte| 7 * u16::from(byte)).collect(),
        }
    }

    fn left(&self, len: usize) -> Bits<'_> {
        Bits::new(&self.left, 3, len)
    }

    fn right(&self, len: usize) -> Bits<'_> {
        Bits::new(&self.right, 6, len)
    }

    /// A mask that has so many true bits.
    fn mask(&self, ones: usize) -> Bits<'_> {
        let all = self.right(8 * MOST);
        all.slice(..all.select(ones).unwrap())
    }
}

type Call = fn(&mut BitsMut<'_>, &Read);

/// Each call that writes a window.
const CALLS: [(&str, Call); 33] = [
    ("fill", |out, _| out.fill(true)),
    ("unfill", |out, _| out.fill(false)),
    ("negate", |out, _| out.negate()),
    ("fill_with", |out, _| out.fill_with(|place| place % 5 < 2)),
    ("copy_from_bools", |out, it| {
        out.copy_from_bools(&it.bools[..out.len()]);
    }),
    ("copy_from_truthy", |out, it| {
        out.copy_from_truthy(&it.left[..out.len()]);
    }),
    ("copy_from", |out, it| out.copy_from(it.left(out.len()))),
    ("and", |out, it| out.and(it.left(out.len()))),
    ("or", |out, it| out.or(it.left(out.len()))),
    ("xor", |out, it| out.xor(it.left(out.len()))),
    ("and_not", |out, it| out.and_not(it.left(out.len()))),
    ("and_of", |out, it| {
        out.and_of(it.left(out.len()), it.right(out.len()));
    }),
    ("or_of", |out, it| {
        out.or_of(it.left(out.len()), it.right(out.len()));
    }),
    ("xor_of", |out, it| {
        out.xor_of(it.left(out.len()), it.right(out.len()));
    }),
    ("and_not_of", |out, it| {
        out.and_not_of(it.left(out.len()), it.right(out.len()));
    }),
    ("&=", |out, it| *out &= it.left(out.len())),
    ("set", |out, _| {
        (0..out.len())
            .step_by(3)
            .for_each(|place| out.set(place, true));
    }),
    ("copy_within", |out, _| {
        let (len, third) = (out.len(), out.len() / 3);
        out.copy_within(third.., 0);
        out.copy_within(..len - third, third);
    }),
    ("is_in_into", |out, it| {
        let (values, mask) = (&it.indices[..out.len()], it.left(out.len()));
        values::is_in_into(values, it.right(900), mask, whole(out));
    }),
    ("and_compare", |out, it| {
        let values = &it.floats[..out.len()];
        values::and_compare(values, Comparison::Less, 90.0, whole(out));
    }),
    ("and_compare_with", |out, it| {
        let values = &it.floats[..out.len()];
        values::and_compare_with(values, Comparison::NotEqual, values, whole(out));
    }),
    ("and_is_in", |out, it| {
        values::and_is_in(&it.indices[..out.len()], it.right(900), whole(out));
    }),
    ("filter_into", |out, it| {
        let mask = it.mask(out.len());
        it.left(mask.len()).filter_into(mask, whole(out));
    }),
    ("deposit_into", |out, it| {
        let mask = it.right(out.len());
        it.left(mask.count_ones()).deposit_into(mask, whole(out));
    }),
    ("take_into", |out, it| {
        it.left(2100)
            .take_into(&it.indices[..out.len()], whole(out));
    }),
    ("take_valid_into", |out, it| {
        let valid = it.right(out.len());
        it.left(2100)
            .take_valid_into(&it.indices[..out.len()], valid, whole(out));
    }),
    ("compare_into", |out, it| {
        values::compare_into(&it.numbers[..out.len()], Comparison::Less, 30, whole(out));
    }),
    ("compare_into of floats", |out, it| {
        values::compare_into(&it.floats[..out.len()], Comparison::Less, 99.0, whole(out));
    }),
    ("compare_with_into", |out, it| {
        let (values, others) = (&it.numbers[..out.len()], &it.numbers[9..9 + out.len()]);
        values::compare_with_into(values, Comparison::Greater, others, whole(out));
    }),
    ("and_kleene_into, which are true", |out, it| {
        let (a, b, mut valid) = (it.left(out.len()), it.right(out.len()), beside(out));
        values::and_kleene_into(a, b, b, a, whole(out), valid.bits_mut());
    }),
    ("and_kleene_into, which are valid", |out, it| {
        let (a, b, mut trues) = (it.left(out.len()), it.right(out.len()), beside(out));
        values::and_kleene_into(a, b, b, None::<Bits>, trues.bits_mut(), whole(out));
    }),
    ("or_kleene_into, which are true", |out, it| {
        let (a, b, mut valid) = (it.left(out.len()), it.right(out.len()), beside(out));
        values::or_kleene_into(a, b, b, a, whole(out), valid.bits_mut());
    }),
    ("or_kleene_into, which are valid", |out, it| {
        let (a, b, mut trues) = (it.left(out.len()), it.right(out.len()), beside(out));
        values::or_kleene_into(a, None::<Bits>, b, a, trues.bits_mut(), whole(out));
    }),
];

fn whole<'a>(out: &'a mut BitsMut<'_>) -> BitsMut<'a> {
    out.slice(..)
}

/// A bitmap of the window's length.
fn beside(out: &BitsMut<'_>) -> Bitmap {
    Bitmap::new_unset(out.len())
}

/// Runs the test at each level that there is.
fn at_each_level(test: impl Fn()) {
    #[cfg(feature = "levels")]
    {
        static CURRENT: Mutex<()> = Mutex::new(());
        let _one = CURRENT.lock();
        for level in Level::available() {
            assert!(level.make_current());
            test();
        }
    }
    #[cfg(not(feature = "levels"))]
    test();
}

fn lengths() -> impl Iterator<Item = usize> {
    (0..=130).chain([191, 192, 193, 255, 500, 511, 512, 513, 1000, MOST])
}

/// Where two windows begin in the three pages: one that ends with the last byte of the middle page,
/// and one that begins with its first byte.
fn starts(shift: usize, len: usize) -> [usize; 2] {
    let last = 8 * (2 * PAGE - (shift + len).div_ceil(8));
    [last + shift, 8 * PAGE + shift]
}

#[test]
fn calls_that_write_bits_store_only_bytes_of_their_window() {
    let (pages, read) = (Pages::new(), Read::new());
    at_each_level(|| {
        for (name, call) in CALLS {
            for len in lengths() {
                for start in (0..8).flat_map(|shift| starts(shift, len)) {
                    one(&pages, start, len, |out| call(out, &read), name);
                }
            }
        }
    });
}

/// Makes the call on a window of the pages, and on a copy of it, with the bytes beside it.
#[track_caller]
fn one(pages: &Pages, start: usize, len: usize, call: impl Fn(&mut BitsMut<'_>), name: &str) {
    let first = start / 8 - 16;
    let around = first..(start + len).div_ceil(8) + 16;
    let mut copy = pages.all()[around.clone()].to_vec();
    call(&mut BitsMut::new(&mut copy, start - 8 * first, len));
    call(&mut BitsMut::new(pages.all(), start, len));
    assert!(
        pages.all::<u8>()[around] == copy[..],
        "{name} of {len} bits from bit {start} on"
    );
}

/// The calls on values of a type whose size divides a page.
fn value_calls<T: Value + PartialEq>(pages: &Pages, read: &Read, make: fn(u8) -> T) {
    let column: Vec<T> = read.left.iter().copied().map(make).collect();
    let border = 2 * PAGE / size_of::<T>();
    for len in lengths() {
        let values = &column[..len];
        let all = Bits::new(&[0xFF; 1 + MOST / 8], 5, len);
        let few = Bits::new(&[0b0100_0000; 1 + MOST / 8], 5, len);
        for mask in [
            all,
            few,
            read.left(len),
            read.right(len),
            Bits::new(&[0; MOST], 7, len),
        ] {
            let kept = values::filter(values, mask);
            let place = border - kept.len();
            // `out` extends into the page after, which can't be written.
            let out = &mut pages.all()[place..];
            assert_eq!(mask.keep_into(values, out), kept.len());
            assert!(pages.all::<T>()[place..border] == kept[..]);
            let out = &mut pages.all::<T>()[border - len..border];
            out.copy_from_slice(values);
            assert_eq!(values::retain(out, mask), kept.len());
            assert!(out[..kept.len()] == kept && out[kept.len()..] == values[kept.len()..]);
            assert_eq!(mask.scatter_into(&kept, out), kept.len());
            assert!(values::filter(out, mask) == kept);
        }
        let (indices, valid) = (&read.indices[..len], read.right(len));
        for place in [border - len, border / 2] {
            let taken = values::take_valid(&column, indices, valid);
            let out = &mut pages.all()[place..place + len];
            values::take_valid_into(&column, indices, valid, out);
            assert!(*out == taken[..]);
            values::take_into(&column, indices, out);
            assert!(*out == values::take(&column, indices)[..]);
        }
    }
}

#[test]
fn calls_that_write_values_store_only_those_that_they_answer() {
    let (pages, read) = (Pages::new(), Read::new());
    at_each_level(|| {
        value_calls(&pages, &read, |byte| byte);
        value_calls(&pages, &read, |byte| [byte, 1]);
        value_calls(&pages, &read, u16::from);
        value_calls(&pages, &read, i32::from);
        value_calls(&pages, &read, f32::from);
        value_calls(&pages, &read, u64::from);
        value_calls(&pages, &read, u128::from);
        value_calls(&pages, &read, |byte| [u64::from(byte); 2]);
        value_calls(&pages, &read, |byte| [u64::from(byte); 4]);
    });
}

#[test]
fn places_and_counts_are_stored_only_where_they_are_answered() {
    let (pages, read) = (Pages::new(), Read::new());
    let border = 2 * PAGE / size_of::<usize>();
    at_each_level(|| {
        for bits in lengths().flat_map(|len| [read.left(len), read.right(len)]) {
            let places: Vec<usize> = bits.set_indices().collect();
            let out = &mut pages.all::<usize>()[border - places.len()..];
            assert_eq!(bits.write_set_indices(out), places.len());
            assert!(out[..places.len()] == places);
            let out = &mut pages.all::<usize>()[border - places.len() / 2..border];
            assert_eq!(bits.write_set_indices(out), places.len() / 2);
            let out = &mut pages.all::<u32>()[2 * border - places.len()..];
            assert_eq!(bits.write_set_indices_u32(out), places.len());
            assert!(
                out.iter()
                    .zip(&places)
                    .all(|(&narrow, &place)| narrow as usize == place)
            );

            let end = 2 * PAGE;
            bits.copy_to_bytes(&mut pages.all::<u8>()[end - bits.len()..end]);
            let digits = &pages.all::<u8>()[end - bits.len()..end];
            assert!(bits.iter().eq(digits.iter().map(|&digit| digit == 1)));

            let table = &mut pages.all::<usize>()[border - blocks(bits.len())..];
            assert_eq!(Ranks::new(bits, table).count(), places.len());
        }
    });
}
