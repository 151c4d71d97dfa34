//! Bits taken by indices.

use super::{MILLION, upstream};
use crate::bench::Bench;
use crate::calls::{self, Take};
use crate::input::{Input, Random};
use crate::loops;
use crate::measure::Contender;
use crate::row::{Row, UPSTREAM};

const BY_U64: &str = "by `u64`";

/// Which positions are valid.
#[derive(Clone, Copy, PartialEq)]
enum Validity {
    None,
    All,
    Half,
}

const VALIDITIES: [(Validity, &str); 3] = [
    (Validity::None, "no validity"),
    (Validity::All, "all valid"),
    (Validity::Half, "half valid"),
];

pub fn measure(bench: &mut Bench) {
    bench.begin("Taking");
    let bits = &Input::random(MILLION / 8);
    let mut random = Random(8);
    let anywhere = random.list(MILLION, MILLION);
    let mut ascending = anywhere.clone();
    ascending.sort_unstable();
    for (order, list) in [("random", &anywhere), ("ascending", &ascending)] {
        let narrow: Vec<u32> = list.iter().map(|&index| index as u32).collect();
        let wide: Vec<u64> = list.iter().map(|&index| index as u64).collect();
        let signed: Vec<i64> = list.iter().map(|&index| index as i64).collect();
        for (validity, how) in VALIDITIES {
            let how = format!("{order}, {how}");
            let mask = &mask(validity);
            let most = if validity == Validity::None { 1.2 } else { 2.0 };
            let row = take("u32", calls::bench_take_u32, bits, &narrow, mask, |i| {
                i as usize
            });
            #[cfg(feature = "upstream")]
            let row = row.upstream(of_upstream(crate::upstream::take_u32, bits, &narrow, mask));
            bench.row(row.how(&*how).at_most(most, UPSTREAM));
            let row = take("u64", calls::bench_take_u64, bits, &wide, mask, |i| {
                i as usize
            });
            #[cfg(feature = "upstream")]
            let row = row.upstream(of_upstream(crate::upstream::take_u64, bits, &wide, mask));
            bench.row(row.how(&*how));
            let row = take("i64", calls::bench_take_i64, bits, &signed, mask, |i| {
                i as usize
            });
            #[cfg(feature = "upstream")]
            let row = row.upstream(of_upstream(crate::upstream::take_i64, bits, &signed, mask));
            let by_u64 = of_ours(calls::bench_take_u64, bits, &wide, mask);
            bench.row(row.how(&*how).beside(BY_U64, by_u64).at_most(2.0, BY_U64));
        }
        by_u128(bench, bits, order, &wide);
    }
}

/// The bytes of a validity; `None` if there is no validity.
fn mask(validity: Validity) -> Option<Vec<u8>> {
    match validity {
        Validity::None => None,
        Validity::All => Some(vec![0xFF; MILLION / 8]),
        Validity::Half => Some(
            Input::with_set(0.5, MILLION / 8)
                .bytes(MILLION / 8)
                .to_vec(),
        ),
    }
}

fn of_ours<'a, I: Copy>(
    call: Take<I>,
    bits: &'a Input,
    indices: &'a [I],
    mask: &'a Option<Vec<u8>>,
) -> Contender<'a> {
    let bytes = bits.bytes(MILLION / 8);
    let unmasked = bits.bytes(indices.len().div_ceil(8));
    Contender::of(move || unsafe {
        let (list, many) = (indices.as_ptr(), indices.len());
        let valid = mask.as_deref().unwrap_or(unmasked);
        let (v, v_size) = (valid.as_ptr(), valid.len());
        call(
            bytes.as_ptr(),
            bytes.len(),
            MILLION,
            list,
            many,
            v,
            v_size,
            mask.is_some(),
        )
    })
}

#[cfg(feature = "upstream")]
fn of_upstream<'a, I>(
    take: impl Fn(&[u8], usize, &[I], Option<&[u8]>) -> usize + 'a,
    bits: &'a Input,
    indices: &'a [I],
    mask: &'a Option<Vec<u8>>,
) -> Option<Contender<'a>> {
    let bytes = bits.bytes(MILLION / 8);
    Some(Contender::of(move || {
        take(bytes, MILLION, indices, mask.as_deref())
    }))
}

fn take<'a, I: Copy>(
    index: &str,
    call: Take<I>,
    bits: &'a Input,
    indices: &'a [I],
    mask: &'a Option<Vec<u8>>,
    place: impl Fn(I) -> usize + Copy + 'a,
) -> Row<'a> {
    let bytes = bits.bytes(MILLION / 8);
    let plain = move || match mask {
        None => loops::take(bytes, indices, place),
        Some(valid) => loops::take_valid(bytes, indices, valid, place),
    };
    Row::new(
        format!("`take_bits` by `{index}`"),
        of_ours(call, bits, indices, mask),
    )
    .items(indices.len())
    .plain(Contender::of(plain))
}

/// Indices of 128 bits don't cross to C, so the library builds them from narrower ones.
fn by_u128(bench: &mut Bench, bits: &Input, order: &str, indices: &[u64]) {
    let bytes = bits.bytes(MILLION / 8);
    let ours = move |rounds| unsafe {
        let (list, many) = (indices.as_ptr(), indices.len());
        calls::bench_take_u128(bytes.as_ptr(), bytes.len(), MILLION, list, many, rounds)
    };
    let none = None;
    let row = Row::new("`take_bits` by `u128`", Contender::in_rounds(ours))
        .items(indices.len())
        .how(format!("{order}, no validity"))
        .upstream(upstream!({
            let wide: Vec<u128> = indices.iter().map(|&index| index as u128).collect();
            Contender::of(move || crate::upstream::take_u128(bytes, MILLION, &wide, None))
        }))
        .beside(BY_U64, of_ours(calls::bench_take_u64, bits, indices, &none));
    bench.row(row.at_most(2.0, BY_U64));
}
