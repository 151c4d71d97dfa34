//! Tests that each call of `vortex_bits` runs proved code from the length that README names. It is
//! linked with archives whose functions end the program, so it makes each call in its own process.
//!
//!     reached
//!
//! It names each call that runs proved code where it shouldn't, or runs none where it should.

use std::env;
use std::os::unix::process::ExitStatusExt;
use std::process::{Command, ExitCode, Stdio};

use vortex_bits::{Bitmap, Bits, BitsMut, Comparison, Ranks, values};

const NEVER: usize = usize::MAX;
/// The greatest number of bits, values or indices of a call.
const MOST: usize = 600;
static BYTES: [u8; 100] = [0xA7; 100];

/// A call's name, the least number of bits, values or indices for which it runs proved code, and a
/// function that makes the call with a given number of them.
type Row = (&'static str, usize, fn(usize));

const ROWS: &[Row] = &[
    ("count_ones", 65, |n| _ = left(n).count_ones()),
    ("select", 65, |n| _ = left(n).select(0)),
    ("select_unset", 65, |n| _ = left(n).select_unset(0)),
    ("next_set", 65, |n| _ = left(n).next_set(0)),
    ("last_set", 65, |n| _ = left(n).last_set()),
    ("any", 65, |n| _ = left(n).any()),
    ("all", 65, |n| _ = left(n).all()),
    ("==", 65, |n| _ = left(n) == right(n)),
    ("and_count", 65, |n| _ = left(n).and_count(right(n))),
    // Written by tools/write-lists from tools/families/questions.txt.
    ("is_disjoint", 65, |n| _ = left(n).is_disjoint(right(n))),
    ("is_subset", 65, |n| _ = left(n).is_subset(right(n))),
    // To here.
    ("[]", NEVER, |n| _ = left(n)[n - 1]),
    ("fill", 65, |n| write(n, |mut out| out.fill(true))),
    ("negate", 65, |n| write(n, |mut out| out.negate())),
    ("copy_from", 65, |n| {
        write(n, |mut out| out.copy_from(left(n)))
    }),
    ("copy_within", 66, |n| {
        write(n, |mut out| out.copy_within(1.., 0))
    }),
    ("and", 65, |n| write(n, |mut out| out.and(left(n)))),
    ("and_of", 65, |n| {
        write(n, |mut out| out.and_of(left(n), right(n)))
    }),
    ("&", 65, |n| _ = left(n) & right(n)),
    ("!", 65, |n| _ = !left(n)),
    ("set", NEVER, |n| write(n, |mut out| out.set(n - 1, true))),
    ("append_n", 65, |n| Bitmap::default().append_n(n, true)),
    ("append_bits", 65, |n| {
        Bitmap::default().append_bits(left(n))
    }),
    ("append", NEVER, |n| {
        let mut rows = Bitmap::default();
        (0..n).for_each(|row| rows.append(row % 2 == 0));
    }),
    ("from_indices", NEVER, |n| {
        _ = Bitmap::from_indices(n, &indices(n))
    }),
    ("and_kleene", 65, |n| {
        _ = values::and_kleene(left(n), right(n), right(n), right(n))
    }),
    ("filter of bits", 65, |n| _ = left(n).filter(right(n))),
    ("deposit", 65, |n| {
        let ones = (0..n).filter(|place| right(n)[*place]).count();
        _ = left(ones).deposit(right(n));
    }),
    ("set_indices", 65, |n| _ = left(n).set_indices().next()),
    ("write_set_indices_u32", 65, |n| {
        _ = left(n).write_set_indices_u32(&mut [7; MOST])
    }),
    ("set_slices", 65, |n| _ = left(n).set_slices().next()),
    ("words", 65, |n| _ = left(n).words().next()),
    ("iter", 65, |n| _ = left(n).iter().next()),
    ("unset_indices", NEVER, |n| {
        _ = left(n).unset_indices().next()
    }),
    ("unset_slices", NEVER, |n| _ = left(n).unset_slices().next()),
    ("copy_from_bools", 1, |n| {
        write(n, |mut out| out.copy_from_bools(&[true; MOST][..n]))
    }),
    ("copy_to_bools", 1, |n| {
        left(n).copy_to_bools(&mut [true; MOST][..n])
    }),
    ("copy_to_bytes", 1, |n| {
        left(n).copy_to_bytes(&mut [7; MOST][..n])
    }),
    ("fill_with", 1, |n| {
        write(n, |mut out| out.fill_with(|place| place > 1))
    }),
    ("extend", 1, |n| {
        Bitmap::default().extend((0..n).map(|row| row > 1))
    }),
    ("take of bits", 1, |n| _ = left(n).take(&indices(n))),
    ("take of bits at wide indices", NEVER, |n| {
        _ = left(n).take(&vec![0u128; n])
    }),
    ("compare", 1, |n| {
        _ = values::compare(&vec![1; n], Comparison::Less, 2)
    }),
    ("compare of wide numbers", NEVER, |n| {
        _ = values::compare(&vec![1u128; n], Comparison::Less, 2);
    }),
    ("compare_with", 1, |n| {
        _ = values::compare_with(&vec![1.0; n], Comparison::Less, &vec![2.0; n]);
    }),
    ("masked_sum", 65, |n| {
        _ = values::masked_sum(&vec![1i8; n], left(n))
    }),
    ("masked_checked_sum", 65, |n| {
        _ = values::masked_checked_sum(&vec![1u16; n], left(n))
    }),
    ("masked_wrapping_sum", 65, |n| {
        _ = values::masked_wrapping_sum(&vec![1; n], left(n))
    }),
    ("masked_min", 65, |n| {
        _ = values::masked_min(&vec![1usize; n], left(n))
    }),
    ("masked_max", 65, |n| {
        _ = values::masked_max(&vec![1isize; n], left(n))
    }),
    ("masked_max without a mask", NEVER, |n| {
        _ = values::masked_max(&vec![1; n], None::<Bits>)
    }),
    ("masked_min of wide numbers", NEVER, |n| {
        _ = values::masked_min(&vec![1u128; n], left(n))
    }),
    ("masked_float_sum", 65, |n| {
        _ = values::masked_float_sum(&vec![1.0; n], left(n))
    }),
    ("masked_float_min", NEVER, |n| {
        _ = values::masked_float_min(&vec![1.0; n], left(n))
    }),
    ("masked_float_max", NEVER, |n| {
        _ = values::masked_float_max(&vec![1.0; n], left(n))
    }),
    ("group_counts", 17, |n| {
        values::group_counts(&mut [0], &indices(n), left(n))
    }),
    ("group_sums", 17, |n| {
        values::group_sums(&mut [0], &indices(n), &vec![1i8; n], left(n))
    }),
    ("group_counts of wide codes", NEVER, |n| {
        values::group_counts(&mut [0], &vec![0u64; n], left(n));
    }),
    ("Ranked", 1, |n| {
        _ = Bitmap::new(BYTES.to_vec(), 3, n).ranked()
    }),
    ("Ranks::new", 1, |n| _ = Ranks::new(left(n), &mut [0; 9])),
    ("rank", 1, |n| {
        _ = Ranks::with_table(left(n), &[0; 9]).rank(1)
    }),
    ("Ranks::select", 1, |n| {
        _ = Ranks::with_table(left(n), &[0; 9]).select(0)
    }),
    ("filter of values", 65, |n| {
        _ = values::filter(&vec![1u8; n], left(n))
    }),
    ("take of values at odd addresses", NEVER, |n| {
        // An allocation of bytes begins at an even address.
        let bytes = vec![1u8; 2 * n + 1];
        _ = values::take(bytes[1..].as_chunks::<2>().0, &indices(n));
    }),
    ("retain of values", 65, |n| {
        _ = values::retain(&mut [1u8; MOST][..n], left(n))
    }),
    ("scatter of values", 65, |n| {
        _ = left(n).scatter_into(&[1u8; MOST], &mut [2; MOST][..n])
    }),
    ("take of values", 17, |n| {
        _ = values::take(&vec![1i64; n], &indices(n))
    }),
    ("take of wide values", NEVER, |n| {
        _ = values::take(&vec![[1u64; 3]; n], &indices(n))
    }),
    ("take of values at wide indices", NEVER, |n| {
        _ = values::take(&[1u8], &vec![0i128; n])
    }),
];

fn left(len: usize) -> Bits<'static> {
    Bits::new(&BYTES, 3, len)
}

fn right(len: usize) -> Bits<'static> {
    Bits::new(&BYTES, 6, len)
}

fn indices(len: usize) -> Vec<u16> {
    vec![0; len]
}

fn write(len: usize, call: impl FnOnce(BitsMut<'_>)) {
    call(BitsMut::new(&mut [0; MOST], 1, len));
}

/// Whether the call ends the process that makes it.
fn runs_proved_code(name: &str, len: usize) -> bool {
    let mut command = Command::new(env::current_exe().expect("the program has a path"));
    let ended = command
        .args([name, &len.to_string()])
        .stderr(Stdio::null())
        .status();
    let ended = ended.expect("the program can be run");
    assert!(
        ended.success() || ended.signal().is_some(),
        "{name} of {len}: {ended}"
    );
    !ended.success()
}

fn main() -> ExitCode {
    let words: Vec<String> = env::args().skip(1).collect();
    if let [name, len] = &words[..] {
        let row = ROWS
            .iter()
            .find(|row| row.0 == name)
            .expect("a row has the name");
        row.2(len.parse().expect("a length is a number"));
        return ExitCode::SUCCESS;
    }
    let mut wrong = 0;
    for &(name, least, _) in ROWS {
        for len in [1, 16, 17, 64, 65, MOST] {
            let proved = runs_proved_code(name, len);
            if proved != (len >= least) {
                println!("{name} of {len} runs proved code: {proved}");
                wrong += 1;
            }
        }
    }
    println!("{} calls, {wrong} other than README says", ROWS.len());
    ExitCode::from(u8::from(wrong > 0))
}
