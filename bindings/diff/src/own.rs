//! Bitmaps that own their bytes, counts of two windows, walks over false bits, validity that may be
//! missing, and three-valued logic.

use vortex_bits::{Bitmap, Bits, BitsMut, Validity, values};

use crate::ask::same;
use crate::case::{Case, put};
use crate::plain;
use crate::random::Random;

/// What an operator makes of two lists.
fn by(left: &[bool], right: &[bool], of: impl Fn(bool, bool) -> bool) -> Vec<bool> {
    left.iter()
        .zip(right)
        .map(|(&left, &right)| of(left, right))
        .collect()
}

fn ones(list: &[bool]) -> usize {
    list.iter().filter(|&&bit| bit).count()
}

fn list(bitmap: &Bitmap) -> Vec<bool> {
    plain::bits(bitmap.bits())
}

/// Lists that should be the same.
fn lists(name: &str, got: impl AsRef<[bool]>, wanted: impl AsRef<[bool]>) -> Result<u64, String> {
    same(name, got.as_ref(), wanted.as_ref())
}

/// The counts of two windows, and the operators that give new bits and that write.
fn operators(case: &Case, left: &[bool], right: &[bool]) -> Result<u64, String> {
    let (l, r) = (case.left(), case.right());
    let (and, or) = (by(left, right, |a, b| a & b), by(left, right, |a, b| a | b));
    let (xor, not) = (
        by(left, right, |a, b| a ^ b),
        by(left, right, |a, b| a & !b),
    );
    let mut map = Bitmap::from(l).slice(..);
    let kept = map.clone();
    map &= r;
    let anded = list(&map);
    map |= Some(&kept);
    map ^= None::<Bits>;
    Ok(same("and_count", l.and_count(r), ones(&and))?
        + same("or_count", l.or_count(r), ones(&or))?
        + same("xor_count", l.xor_count(r), ones(&xor))?
        + same("and_not_count", l.and_not_count(r), ones(&not))?
        + same("is_subset of more", l.is_subset(&(l | r)), true)?
        + lists("&", list(&(&kept & r)), &and)?
        + lists("|", list(&(l | Bitmap::from(r))), &or)?
        + lists("^", list(&(kept.clone() ^ &r)), &xor)?
        + lists("and_not", list(&l.and_not(r)), &not)?
        + lists("&=", &anded, &and)?
        + lists("|= and ^=", list(&map), by(left, left, |a, _| !a))?
        + lists("what shared the bytes", list(&kept), left)?)
}

// Written by tools/write-lists from tools/families/questions.txt.
/// Questions about two windows, and about a window and itself.
fn questions(case: &Case, left: &[bool], right: &[bool]) -> Result<u64, String> {
    let mut calls = 0;
    let first = |list: Vec<bool>, from: usize| (from..list.len()).find(|&i| list[i]);
    let l = case.left();
    for (r, right) in [(case.right(), right), (l, left)] {
        let wanted = first(by(left, right, |a, b| a & b), 0);
        calls += same("is_disjoint", l.is_disjoint(r), wanted.is_none())?;
        let wanted = first(by(left, right, |a, b| a & !b), 0);
        calls += same("is_subset", l.is_subset(r), wanted.is_none())?;
    }
    Ok(calls)
}
// To here.

/// Walks over false bits: `n` single steps, and then the rest in one call.
fn unset(bits: Bits<'_>, n: usize, left: &[bool]) -> Result<u64, String> {
    let negated: Vec<bool> = left.iter().map(|bit| !bit).collect();
    let falses = plain::places(left, false);
    let mut places = bits.unset_indices();
    let mut stepped: Vec<usize> = places.by_ref().take(n).collect();
    let rest = places.len();
    places.for_each(|place| stepped.push(place));
    Ok(same("unset_indices", &stepped, &falses)?
        + same("unset_indices, left", rest, falses.len().saturating_sub(n))?
        + same(
            "unset_slices",
            bits.unset_slices().collect::<Vec<_>>(),
            plain::runs(&negated),
        )?
        + same("first_unset", bits.first_unset(), falses.first().copied())?
        + same("last_unset", bits.last_unset(), falses.last().copied())?
        + same(
            "first_set",
            bits.first_set(),
            left.iter().position(|&bit| bit),
        )?)
}

/// Compares bitmaps that grow: one in its own bytes, and one in bytes that other bitmaps share.
fn grows(case: &Case, random: &mut Random, left: &[bool], right: &[bool]) -> Result<u64, String> {
    let start = random.below(left.len() + 1);
    let mut shared = Bitmap::new(case.left.as_slice(), case.l, case.len);
    let whole = Bitmap::from(shared.bits());
    let mut part = whole.slice(start..);
    let mut owned = part.clone().into_owned();
    let mut wanted = left[start..].to_vec();
    shared = shared.slice(..case.len);
    let mut calls = 0;
    for _ in 0..random.below(6) {
        match random.below(5) {
            0 => {
                let bit = random.below(2) == 0;
                part.append(bit);
                owned.append(bit);
                wanted.push(bit);
            }
            1 => {
                let (n, bit) = (random.below(100), random.below(2) == 0);
                part.append_n(n, bit);
                owned.append_n(n, bit);
                wanted.resize(wanted.len() + n, bit);
            }
            2 => {
                part.append_bits(case.right());
                owned.extend([case.right()]);
                wanted.extend(right);
            }
            3 => {
                let len = random.below(wanted.len() + 1);
                part.truncate(len);
                owned.truncate(len);
                wanted.truncate(len);
            }
            _ => {
                part.extend(right.iter().copied());
                owned.append_bools(right);
                wanted.extend(right);
            }
        }
        calls += lists("a bitmap that grows", list(&part), &wanted)?
            + lists("one of its own", plain::bits(owned.bits()), &wanted)?;
    }
    let joined: Bitmap = [shared.bits(), case.right()].into_iter().collect();
    Ok(calls
        + lists("what shared its bytes", list(&whole), left)?
        + lists("joined", list(&joined), [left, right].concat())?
        + lists("share", list(&owned.share()), &wanted)?)
}

/// Returns the bits of a validity that a call returned; `len` true bits if it is missing.
fn filled(made: Option<Bitmap>, len: usize) -> Vec<bool> {
    made.map_or(vec![true; len], |made| list(&made))
}

/// Compares the calls on two validities. Each may be missing.
fn validity(
    case: &Case,
    random: &mut Random,
    left: &[bool],
    right: &[bool],
) -> Result<u64, String> {
    let len = case.len;
    let [a, b] = [case.left(), case.right()].map(|bits| (random.below(2) == 0).then_some(bits));
    let [x, y] = [(a, left), (b, right)].map(|(bits, list)| match bits {
        Some(_) => list.to_vec(),
        None => vec![true; len],
    });
    let (one, other) = (Validity::new(a, len), Validity::new(b, len));
    let count = if len == 0 { 0 } else { random.below(len + 1) };
    let indices: Vec<u32> = (0..count).map(|_| random.below(len) as u32).collect();
    let taken: Vec<bool> = indices.iter().map(|&row| x[row as usize]).collect();
    let both: Vec<bool> = by(&taken, &right[..count], |a, b| a & b);
    let of_indices = Validity::from(case.right().slice(..count));
    let kept: Vec<bool> = plain::places(right, true)
        .into_iter()
        .map(|row| x[row])
        .collect();
    let mut set = vec![false; len];
    for &row in &indices {
        set[row as usize] = true;
    }
    Ok(lists(
        "validity and",
        filled(one.and(other), len),
        by(&x, &y, |a, b| a & b),
    )? + lists(
        "validity or",
        filled(one.or(other), len),
        by(&x, &y, |a, b| a | b),
    )? + lists(
        "validity filter",
        filled(one.filter(case.right()), kept.len()),
        kept,
    )? + lists("validity take", filled(one.take(&indices), count), taken)?
        + lists(
            "validity take_valid",
            filled(one.take_valid(&indices, of_indices), count),
            both,
        )?
        + same("validity count", one.count_ones(), ones(&x))?
        + same(
            "& a missing mask",
            list(&(case.left() & b)),
            by(left, &y, |a, b| a & b),
        )?
        + lists(
            "from_indices",
            list(&Bitmap::from_indices(len, &indices)),
            set,
        )?)
}

/// Three-valued `and` and `or` of the windows. The right window is the validity of the left one,
/// and the negated left window that of the right one. Each validity may be missing.
fn kleene(case: &Case, random: &mut Random, left: &[bool], right: &[bool]) -> Result<u64, String> {
    let (len, negated) = (case.len, !case.left());
    let (a, b) = (case.left(), case.right());
    let a_valid = (random.below(2) == 0).then_some(b);
    let b_valid = (random.below(2) == 0).then_some(&negated);
    let truth = |row: usize| {
        let (a, b) = (left[row], right[row]);
        let a_known = a_valid.is_none() || b;
        let b_known = b_valid.is_none() || !a;
        (a_known.then_some(a), b_known.then_some(b))
    };
    let wanted = |decides: bool| -> [Vec<bool>; 2] {
        let rows = (0..len).map(truth).map(|it| match it {
            (Some(a), Some(b)) if a == b => Some(a),
            (Some(_), Some(_)) => Some(decides),
            (one, other) => one.or(other).filter(|&it| it == decides),
        });
        let (trues, valid) = rows.map(|it| (it == Some(true), it.is_some())).unzip();
        [trues, valid]
    };
    let mut calls = 0;
    for (name, (trues, valid), [wanted, known]) in [
        (
            "and_kleene",
            values::and_kleene(a, a_valid, b, b_valid),
            wanted(false),
        ),
        (
            "or_kleene",
            values::or_kleene(a, a_valid, b, b_valid),
            wanted(true),
        ),
    ] {
        calls += lists(name, list(&trues), wanted)?
            + same(name, valid.is_some(), known.contains(&false))?
            + lists(name, filled(valid, len), known)?;
    }
    let (offsets, size) = ([case.r, case.l], (case.l.max(case.r) + len).div_ceil(8) + 2);
    for decides in [false, true] {
        let beside: Vec<u8> = case.right.iter().copied().cycle().take(size).collect();
        let (mut made, mut rows) = ([beside.clone(), beside.clone()], [beside.clone(), beside]);
        for ((bytes, at), row) in rows.iter_mut().zip(offsets).zip(wanted(decides)) {
            (0..len).for_each(|i| put(bytes, at + i, row[i]));
        }
        let [trues, valid] = &mut made;
        let trues = BitsMut::new(trues, offsets[0], len);
        let valid = BitsMut::new(valid, offsets[1], len);
        if decides {
            values::or_kleene_into(a, a_valid, b, b_valid, trues, valid);
        } else {
            values::and_kleene_into(a, a_valid, b, b_valid, trues, valid);
        }
        calls += same("and_kleene_into, or_kleene_into", made, rows)?;
    }
    Ok(calls)
}

pub fn compare(case: &Case, random: &mut Random) -> Result<u64, String> {
    let [left, right] = [case.left(), case.right()].map(plain::bits);
    Ok(operators(case, &left, &right)?
        + questions(case, &left, &right)?
        + unset(case.left(), case.n, &left)?
        + grows(case, random, &left, &right)?
        + validity(case, random, &left, &right)?
        + kleene(case, random, &left, &right)?)
}
