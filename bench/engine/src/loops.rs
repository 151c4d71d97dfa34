//! The queries by plain loops over rows.

use std::ops::{AddAssign, Range};

use vortex_bits::arrow::Primitive;

use crate::engine::{Aggregates, Groups};
use crate::table::{CITIES, HALF, Numbers, Packed, Rows};

fn and(a: Option<bool>, b: Option<bool>) -> Option<bool> {
    match (a, b) {
        (Some(false), _) | (_, Some(false)) => Some(false),
        (Some(true), Some(true)) => Some(true),
        _ => None,
    }
}

fn or(a: Option<bool>, b: Option<bool>) -> Option<bool> {
    not(and(not(a), not(b)))
}

fn not(a: Option<bool>) -> Option<bool> {
    a.map(|it| !it)
}

/// `(price > limit or number < -900) and not (flag and name like 'b%')`
/// `and not (city = 'city17' and number < 0)`
pub fn is_kept(rows: &Rows, row: usize, limit: f64) -> bool {
    let number = rows.number.get(row);
    let price = rows.price.get(row).map(|it| it > limit);
    let name = rows.name(row).map(|it| it.starts_with(b"b"));
    let city = rows.city.get(row).map(|it| it == 17);
    let first = or(price, number.map(|it| it < -900));
    let first = and(first, not(and(Some(rows.flag.get(row)), name)));
    and(first, not(and(city, number.map(|it| it < 0)))) == Some(true)
}

pub fn select(parts: &[Rows], limit: f64) -> Vec<Rows> {
    let select = |part: &Rows| {
        let mut kept = Rows::default();
        for row in 0..part.id.len() {
            if is_kept(part, row, limit) {
                kept.push_row(part, row);
            }
        }
        kept
    };
    parts.iter().map(select).collect()
}

pub fn named(parts: &[Rows], test: impl Fn(&[u8]) -> bool) -> Vec<i64> {
    let mut found = Vec::new();
    for part in parts {
        for row in 0..part.id.len() {
            if part.name(row).is_some_and(&test) {
                found.push(part.id[row]);
            }
        }
    }
    found
}

pub fn page(parts: &[Rows], at: &Range<usize>) -> Rows {
    let (mut seen, mut kept) = (0, Rows::default());
    for part in parts {
        for row in 0..part.id.len() {
            if is_kept(part, row, HALF) {
                if at.contains(&seen) {
                    kept.push_row(part, row);
                }
                seen += 1;
                if seen == at.end {
                    return kept;
                }
            }
        }
    }
    kept
}

pub fn top(parts: &[Rows], most: usize) -> Vec<(f64, usize)> {
    let (mut best, mut first): (Vec<(f64, usize)>, _) = (Vec::new(), 0);
    for part in parts {
        for row in 0..part.id.len() {
            let least = best.get(most - 1).map_or(f64::NEG_INFINITY, |it| it.0);
            if let Some(price) = part.price.get(row).filter(|it| *it > least) {
                let at = best.partition_point(|it| it.0 >= price);
                best.insert(at, (price, first + row));
                best.truncate(most);
            }
        }
        first += part.id.len();
    }
    best
}

fn city(rows: &Rows, row: usize) -> Option<usize> {
    rows.city.get(row).and_then(|it| usize::try_from(it).ok())
}

pub fn group(parts: &[Rows]) -> Groups {
    let (mut counts, mut numbers) = (vec![0; CITIES], vec![0; CITIES]);
    let mut prices = vec![0.0; CITIES];
    for part in parts {
        for row in 0..part.id.len() {
            if let Some(city) = city(part, row).filter(|_| is_kept(part, row, HALF)) {
                counts[city] += 1;
                numbers[city] += part.number.get(row).unwrap_or_default();
                prices[city] += part.price.get(row).unwrap_or_default();
            }
        }
    }
    (counts, numbers, prices)
}

pub fn semi_join(parts: &[Rows], set: &Packed) -> Vec<i64> {
    let mut found = Vec::new();
    for part in parts {
        for row in 0..part.id.len() {
            let number = part.number.get(row).and_then(|it| usize::try_from(it).ok());
            if number.is_some_and(|it| it < set.len && set.get(it)) {
                found.push(part.id[row]);
            }
        }
    }
    found
}

/// Words of bits of all rows: those of each city, and those with the flag.
pub struct Index {
    pub cities: Vec<Vec<u64>>,
    pub flag: Vec<u64>,
}

impl Index {
    pub fn new(parts: &[Rows]) -> Index {
        let rows: usize = parts.iter().map(|it| it.id.len()).sum();
        let words = rows.div_ceil(64);
        let (mut cities, mut flag) = (vec![vec![0; words]; CITIES], vec![0; words]);
        let mut place = 0;
        for part in parts {
            for row in 0..part.id.len() {
                let (word, bit) = (place / 64, 1 << (place % 64));
                if let Some(city) = city(part, row) {
                    cities[city][word] |= bit;
                }
                if part.flag.get(row) {
                    flag[word] |= bit;
                }
                place += 1;
            }
        }
        Index { cities, flag }
    }

    pub fn one_of(&self, cities: [usize; 3]) -> Vec<u64> {
        let [a, b, c] = cities.map(|city| &self.cities[city]);
        let word = |(place, flag): (usize, &u64)| (a[place] | b[place] | c[place]) & flag;
        self.flag.iter().enumerate().map(word).collect()
    }

    pub fn counts(&self, city: usize) -> [usize; 2] {
        let [mut with, mut without] = [0; 2];
        for (rows, flag) in self.cities[city].iter().zip(&self.flag) {
            with += (rows & flag).count_ones() as usize;
            without += (rows & !flag).count_ones() as usize;
        }
        [with, without]
    }
}

pub fn aggregates<S: AddAssign + Default + From<T>, T: Primitive + PartialOrd>(
    parts: &[Rows],
    kept: &[Packed],
    column: fn(&Rows) -> &Numbers<T>,
) -> Aggregates<S, T> {
    let of = |(part, kept): (&Rows, &Packed)| {
        let (mut sum, mut least, mut greatest) = (S::default(), None, None);
        let column = column(part);
        for row in 0..part.id.len() {
            if let Some(it) = column.get(row).filter(|_| kept.get(row)) {
                sum += S::from(it);
                least = least.filter(|least| *least <= it).or(Some(it));
                greatest = greatest.filter(|most| *most >= it).or(Some(it));
            }
        }
        (sum, least, greatest)
    };
    parts.iter().zip(kept).map(of).collect()
}
