//! The nearest true bits at or after an index and before one, and whether any or all bits are true.

use super::{MILLION, upstream};
use crate::bench::Bench;
use crate::calls::{self, Place, Whether};
use crate::input::{Input, Random, Window};
use crate::loops;
use crate::measure::Contender;
use crate::row::{LOOP, Row};

/// The sizes in bytes of what is searched.
const SIZES: [usize; 2] = [64, MILLION / 8];

/// The share of set bits in an input with few of them.
const FEW: f64 = 1.0 / 4096.0;

/// The number of indices before which a bit is searched.
const PLACES: usize = 4096;

pub fn measure(bench: &mut Bench) {
    bench.begin("Nearest bits");
    let (half, few) = (Input::random(MILLION / 8), Input::sparsest(MILLION / 8));
    bench.row(each_next(&few));
    bench.row(each_previous(&few));
    for offset in [0, 3] {
        for size in SIZES {
            far(bench, size, offset);
        }
        near(bench, &half, offset, 0.5);
        near(bench, &few, offset, FEW);
    }
}

fn each_next(few: &Input) -> Row<'_> {
    let w = few.bits(3, MILLION);
    let ours = move || {
        let (bytes, size) = (w.bytes.as_ptr(), w.bytes.len());
        let next = |from| unsafe { calls::vb_next_set(bytes, size, w.offset, w.len, from) };
        sum_of_each(0, next, |place| place + 1)
    };
    each("`next_set`, of each true bit", ours, few, w)
}

fn each_previous(few: &Input) -> Row<'_> {
    let w = few.bits(3, MILLION);
    let ours = move || sum_of_each(w.len, |before| previous_set(w, before), |place| place);
    each("`previous_set`, of each true bit", ours, few, w)
}

/// Finds each of a few true bits, one after the other.
fn each<'a>(call: &str, ours: impl Fn() -> usize + 'a, few: &'a Input, w: Window<'a>) -> Row<'a> {
    let plain = move || loops::set_indices(few, w.offset, w.len);
    Row::new(call, Contender::of(ours))
        .bits(w.len)
        .offsets(&[w.offset])
        .set(FEW)
        .plain(Contender::of(plain))
        .at_most(1.0, LOOP)
}

/// The sum of the indices that are found one after the other.
fn sum_of_each(
    start: usize,
    find: impl Fn(usize) -> Place,
    goes_on: impl Fn(usize) -> usize,
) -> usize {
    let (mut sum, mut at) = (0, start);
    loop {
        let place = find(at).index();
        if place == usize::MAX {
            return sum;
        }
        sum += place;
        at = goes_on(place);
    }
}

fn previous_set(w: Window, before: usize) -> Place {
    unsafe { calls::vb_previous_set(w.bytes.as_ptr(), w.bytes.len(), w.offset, w.len, before) }
}

/// Searches that find no bit, or one at the far end.
fn far(bench: &mut Bench, size: usize, offset: usize) {
    // Within a cache line the cost of the call itself matters too.
    let most = if size == 64 { 1.5 } else { 1.0 };
    let len = Input::random(size).window(size, offset).len;
    let (none, last) = (alone(size, offset, len), alone(size, offset, len - 1));
    for (input, hows) in [
        (&none, ["none true", "all true"]),
        (&last, ["the last one true", "the last one false"]),
    ] {
        let opposite = opposite(input, size);
        let windows = [input, &opposite].map(|it| it.window(size, offset));
        let [any, all] = whether(windows);
        bench.row(any.how(hows[0]).at_most(most, LOOP));
        bench.row(all.how(hows[1]).at_most(most, LOOP));
    }
    let first = alone(size, offset, 0);
    for (input, how) in [(&none, "none true"), (&first, "the first one true")] {
        let row = before(input.window(size, offset), vec![len]);
        bench.row(row.how(how).at_most(most, LOOP));
    }
}

/// Bits that are found sooner, the more of them there are.
fn near(bench: &mut Bench, input: &Input, offset: usize, share: f64) {
    let opposite = opposite(input, MILLION / 8);
    let windows = [input, &opposite].map(|it| it.window(MILLION / 8, offset));
    let [any, all] = whether(windows);
    bench.row(any.set(share));
    bench.row(all.set(1.0 - share));
    let places = Random(12).list(PLACES, windows[0].len);
    let row = before(windows[0], places);
    bench.row(row.how("random places").set(share));
}

/// Whether any bit of one window is true, and whether all bits of another are true.
fn whether<'a>([any, all]: [Window<'a>; 2]) -> [Row<'a>; 2] {
    let row = |call, ours: Whether, plain: fn(Window) -> bool, w: Window<'a>| {
        let (bytes, size) = (w.bytes.as_ptr(), w.bytes.len());
        let ours = move || unsafe { ours(bytes, size, w.offset, w.len) as usize };
        Row::new(call, Contender::of(ours))
            .bits(w.len)
            .offsets(&[w.offset])
            .plain(Contender::of(move || plain(w) as usize))
    };
    [
        row("`any_set`", calls::vb_any_set, loops::any_set, any),
        row("`all_set`", calls::vb_all_set, loops::all_set, all),
    ]
}

/// The sum of the indices of the last true bits before given indices.
fn before(w: Window<'_>, places: Vec<usize>) -> Row<'_> {
    let others = upstream!({
        let (places, set) = (places.clone(), crate::upstream::set(w));
        Contender::of_each(places.len(), move || {
            sum(&places, |place| crate::upstream::previous_set(&set, place))
        })
    });
    let many = places.len();
    let plain = places.clone();
    let ours = move || sum(&places, |place| previous_set(w, place).index());
    let plain = move || sum(&plain, |place| loops::previous_set(w, place));
    Row::new("`previous_set`", Contender::of_each(many, ours))
        .bits(w.len)
        .offsets(&[w.offset])
        .upstream(others)
        .plain(Contender::of_each(many, plain))
}

fn sum(places: &[usize], find: impl Fn(usize) -> usize) -> usize {
    places
        .iter()
        .fold(0, |sum, &place| sum.wrapping_add(find(place)))
}

/// Bits that are false in a window, except the one at index `place`, and true outside of it.
fn alone(size: usize, offset: usize, place: usize) -> Input {
    let len = Input::random(size).window(size, offset).len;
    let inside = offset..offset + len;
    let bit = |at: usize| u8::from(!inside.contains(&at) || at == offset + place);
    let byte = |at: usize| (0..8).fold(0, |byte, k| byte | bit(8 * at + k) << k);
    Input::copied(&(0..size).map(byte).collect::<Vec<u8>>())
}

/// The input with each bit negated.
fn opposite(input: &Input, size: usize) -> Input {
    let bytes = input.bytes(size).iter();
    Input::copied(&bytes.map(|byte| !byte).collect::<Vec<u8>>())
}
