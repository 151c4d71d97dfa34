//! Calls that write a window. Each is compared in every bit of the bytes.

use vortex_bits::{Bits, BitsMut};

use crate::ask::same;
use crate::case::{Case, bit, put};
use crate::plain;

/// A call that writes a window by another one.
type Write = fn(&mut BitsMut<'_>, Bits<'_>);
/// A call that writes a window by two others.
type Combine = fn(&mut BitsMut<'_>, Bits<'_>, Bits<'_>);
/// What a call makes of two bits.
type Of = fn(bool, bool) -> bool;

const BY_ANOTHER: [(&str, Write, Of); 5] = [
    ("copy_from", |it, b| it.copy_from(b), |_, b| b),
    ("and", |it, b| it.and(b), |a, b| a & b),
    ("or", |it, b| it.or(b), |a, b| a | b),
    ("xor", |it, b| it.xor(b), |a, b| a ^ b),
    ("and_not", |it, b| it.and_not(b), |a, b| a & !b),
];

const BY_TWO: [(&str, Combine, Of); 4] = [
    ("and_of", |it, a, b| it.and_of(a, b), |a, b| a & b),
    ("or_of", |it, a, b| it.or_of(a, b), |a, b| a | b),
    ("xor_of", |it, a, b| it.xor_of(a, b), |a, b| a ^ b),
    ("and_not_of", |it, a, b| it.and_not_of(a, b), |a, b| a & !b),
];

/// These bytes, with each bit of the window as `wanted` says for its index.
fn written(bytes: &[u8], offset: usize, len: usize, wanted: impl Fn(usize) -> bool) -> Vec<u8> {
    let mut bytes = bytes.to_vec();
    for i in 0..len {
        put(&mut bytes, offset + i, wanted(i));
    }
    bytes
}

/// The bytes of the left side after `write` wrote to its window.
fn after(case: &Case, write: impl FnOnce(&mut BitsMut<'_>)) -> Vec<u8> {
    let mut bytes = case.left.clone();
    write(&mut BitsMut::new(&mut bytes, case.l, case.len));
    bytes
}

pub fn compare(case: &Case) -> Result<u64, String> {
    let Case {
        left,
        l,
        right,
        r,
        len,
        n,
        value,
    } = case;
    let (l, r, len, n, value) = (*l, *r, *len, *n, *value);
    let (a, b) = (|i| bit(left, l + i), |i| bit(right, r + i));
    let bools = plain::bits(case.right());
    let truthy: Vec<u8> = bools
        .iter()
        .map(|&it| u8::from(it) * (n as u8 | 1))
        .collect();
    let copied = written(left, l, len, b);
    let filled = after(case, |out| out.fill(value));
    let negated = after(case, |it| it.negate());
    let packed = after(case, |out| out.copy_from_bools(&bools));
    let truths = after(case, |out| out.copy_from_truthy(&truthy));
    let asked = after(case, |out| out.fill_with(|place| bools[place]));
    let (mut flags, mut digits) = (vec![value; len], vec![n as u8; len]);
    case.right().copy_to_bools(&mut flags);
    case.right().copy_to_bytes(&mut digits);
    let unpacked: Vec<u8> = bools.iter().map(|&it| it.into()).collect();
    let mut calls = same("fill", filled, written(left, l, len, |_| value))?
        + same("negate", negated, written(left, l, len, |i| !a(i)))?
        + same("copy_from_bools", &packed, &copied)?
        + same("copy_from_truthy", &truths, &copied)?
        + same("fill_with", &asked, &copied)?
        + same("copy_to_bools", &flags, &bools)?
        + same("copy_to_bytes", &digits, &unpacked)?;
    if n < len {
        let set = after(case, |out| out.set(n, value));
        let slice = after(case, |out| out.slice(n..).fill(value));
        calls += same("set", set, written(left, l + n, 1, |_| value))?
            + same("slice", slice, written(left, l + n, len - n, |_| value))?;
    }
    let (from, to) = (n.min(len), r % (len + 1));
    let many = len - from.max(to);
    let moved = after(case, |out| out.copy_within(from..from + many, to));
    calls += same(
        "copy_within",
        moved,
        written(left, l + to, many, |i| a(from + i)),
    )?;
    for (name, write, of) in BY_ANOTHER {
        let bytes = after(case, |out| write(out, case.right()));
        calls += same(name, bytes, written(left, l, len, |i| of(a(i), b(i))))?;
    }
    for (name, combine, of) in BY_TWO {
        let mut bytes = left.clone();
        bytes.reverse();
        let wanted = written(&bytes, l, len, |i| of(a(i), b(i)));
        let mut out = BitsMut::new(&mut bytes, l, len);
        combine(&mut out, case.left(), case.right());
        calls += same(name, bytes, wanted)?;
    }
    Ok(calls)
}
