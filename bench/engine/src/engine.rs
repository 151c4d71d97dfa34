//! The queries by the calls of the crate, without a loop over rows.

use std::ops::Range;

use vortex_bits::arrow::{Array, ArrowError, Export, Primitive, Texts};
use vortex_bits::{Bitmap, BitmapsByCode, Compare, Comparison, TopK, values};

use crate::table::{CITIES, HALF};

pub type Result<T = ()> = std::result::Result<T, ArrowError>;

/// Returns the rows whose value isn't null and satisfies the comparison with `number`.
fn are<T: Primitive + Compare>(column: &Array, op: Comparison, number: T) -> Result<Bitmap> {
    let mut rows = values::compare(column.values()?, op, number);
    rows &= column.validity()?;
    Ok(rows)
}

/// Unsets the rows whose text isn't null and isn't one of those that `test` finds. The texts may be
/// those of a dictionary.
fn and_are_or_null(rows: &mut Bitmap, column: &Array, test: impl Fn(&Texts) -> Bitmap) -> Result {
    let items = column.dictionary();
    let texts = items.as_ref().unwrap_or(column).texts()?;
    let mut others = !test(&texts) & texts.validity();
    if items.is_some() {
        let mut named = &*rows & column.validity()?;
        values::and_is_in(column.values::<i32>()?, &others, named.bits_mut());
        others = named;
    }
    rows.bits_mut().and_not(others.bits());
    Ok(())
}

/// Returns the rows that `loops::is_kept` selects. `a and not (b and c)` selects the rows of `a`,
/// except those in which `b` and `c` are each true or null. So masks of true rows are enough, and
/// the texts of 64 rows are skipped if none of these rows is left.
pub fn kept(batch: &Array, limit: f64) -> Result<Bitmap> {
    let number = batch.column("number")?;
    let mut kept = are(&batch.column("price")?, Comparison::Greater, limit)?;
    kept |= are(&number, Comparison::Less, -900i64)?;

    let (name, flag) = (batch.column("name")?, batch.column("flag")?);
    let names = name.texts()?;
    let mut like = &kept & flag.bits()?;
    let unknown = like.and_not(names.validity());
    names.and_starts_with("b", like.bits_mut());
    like |= unknown;
    kept.bits_mut().and_not(like.bits());

    let mut found = kept.and_not(are(&number, Comparison::GreaterOrEqual, 0i64)?);
    let city = batch.column("city")?;
    and_are_or_null(&mut found, &city, |cities| cities.equals("city17"))?;
    kept.bits_mut().and_not(found.bits());
    Ok(kept)
}

/// Returns the selected rows of each batch.
pub fn select(batches: &[Array], limit: f64) -> Result<Vec<Export>> {
    batches
        .iter()
        .map(|it| it.filter(kept(it, limit)?))
        .collect()
}

/// Returns the identifiers of the rows whose names `test` finds.
pub fn named(batches: &[Array], test: impl Fn(&Texts) -> Bitmap) -> Result<Vec<i64>> {
    let mut found = Vec::new();
    for batch in batches {
        let (id, name) = (batch.column("id")?, batch.column("name")?);
        values::filter_onto(id.values()?, test(&name.texts()?), &mut found);
    }
    Ok(found)
}

/// Returns slices of `rows` rows, so that a query can stop within a batch.
fn slices(batches: &[Array], rows: usize) -> impl Iterator<Item = Array> {
    batches.iter().flat_map(move |batch| {
        let starts = (0..batch.len()).step_by(rows);
        starts.map(move |from| batch.slice(from..batch.len().min(from + rows)))
    })
}

/// Returns the rows at these positions among those that [`HALF`] selects.
pub fn page(batches: &[Array], at: &Range<usize>) -> Result<Export> {
    let (mut seen, mut parts) = (0, Vec::new());
    for slice in slices(batches, 4096) {
        let kept = kept(&slice, HALF)?;
        let end = seen + kept.count_ones();
        let (from, to) = (at.start.max(seen), at.end.min(end));
        if from < to {
            let ends = [from, to - 1].map(|n| kept.select(n - seen).unwrap_or_default());
            let rows = ends[0]..ends[1] + 1;
            let part = slice.slice(rows.clone()).filter(kept.slice(rows))?;
            parts.push(part.into_array());
        }
        if end >= at.end {
            break;
        }
        seen = end;
    }
    Export::concat(batches[0].field(), &parts)
}

/// Returns the greatest prices with their rows, in descending order; of equal ones the first rows.
pub fn top(batches: &[Array], most: usize) -> Result<Vec<(f64, usize)>> {
    let mut best = TopK::greatest(most);
    for batch in batches {
        let price = batch.column("price")?;
        best.append(price.values()?, price.validity()?);
    }
    Ok(best.into_rows())
}

/// The number of rows of each city, and their sums of numbers and of prices.
pub type Groups = (Vec<u64>, Vec<i64>, Vec<f64>);

/// Returns the groups of the rows that [`HALF`] selects and that have a city.
pub fn group(batches: &[Array]) -> Result<Groups> {
    let (mut counts, mut numbers) = (vec![0; CITIES], vec![0; CITIES]);
    let mut prices = vec![0.0; CITIES];
    for batch in batches {
        let (city, number) = (batch.column("city")?, batch.column("number")?);
        let (price, codes) = (batch.column("price")?, city.values::<i32>()?);
        let kept = kept(batch, HALF)? & city.dictionary_validity()?;
        values::group_counts(&mut counts, codes, &kept);
        let of = &kept & number.validity()?;
        values::group_sums(&mut numbers, codes, number.values::<i64>()?, of);
        let of = &kept & price.validity()?;
        values::group_sums(&mut prices, codes, price.values::<f64>()?, of);
    }
    Ok((counts, numbers, prices))
}

/// Returns the identifiers of the rows whose number is in a set of numbers from 0 on.
pub fn semi_join(batches: &[Array], set: &Bitmap) -> Result<Vec<i64>> {
    let mut found = Vec::new();
    for batch in batches {
        let (id, number) = (batch.column("id")?, batch.column("number")?);
        let rows = values::is_in(number.values::<i64>()?, set, number.validity()?);
        values::filter_onto(id.values()?, rows, &mut found);
    }
    Ok(found)
}

/// Bits of all rows: those of each city, and those with the flag.
pub struct Index {
    pub cities: Vec<Bitmap>,
    pub flag: Bitmap,
}

impl Index {
    pub fn new(batches: &[Array]) -> Result<Index> {
        let rows = batches.iter().map(Array::len).sum();
        let mut cities = BitmapsByCode::with_capacity(CITIES, rows);
        let mut flag = Bitmap::growing(rows);
        for batch in batches {
            let city = batch.column("city")?;
            cities.append(city.values::<i32>()?, city.validity()?);
            flag.append_bits(batch.column("flag")?.bits()?);
        }
        Ok(Index {
            cities: cities.into_bitmaps(),
            flag: flag.share(),
        })
    }

    /// Returns the rows of three cities with the flag.
    pub fn one_of(&self, [a, b, c]: [usize; 3]) -> Bitmap {
        let mut rows = &self.cities[a] | &self.cities[b];
        rows |= &self.cities[c];
        rows &= &self.flag;
        rows
    }

    /// Returns the number of rows of a city with the flag, and without it.
    pub fn counts(&self, city: usize) -> [usize; 2] {
        self.cities[city].split_count(&self.flag).into()
    }
}

/// The sum, the least value and the greatest one of each batch.
pub type Aggregates<S, T> = Vec<(S, Option<T>, Option<T>)>;

/// Returns the aggregates of rows of a column. `of` returns those of a batch.
pub fn aggregates<S, T: Primitive>(
    batches: &[Array],
    rows: &[Bitmap],
    name: &str,
    of: impl Fn(&[T], &Bitmap) -> (S, Option<T>, Option<T>),
) -> Result<Aggregates<S, T>> {
    let of = |(batch, rows): (&Array, &Bitmap)| {
        let column = batch.column(name)?;
        Ok(of(column.values()?, &(rows & column.validity()?)))
    };
    batches.iter().zip(rows).map(of).collect()
}
