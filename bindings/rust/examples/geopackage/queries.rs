//! The queries, by the calls of the crate. Each has its SQL, which `SQLite` runs over the same
//! file: a `GeoPackage` is one of its databases.

use std::collections::BTreeMap;

use vortex_bits::arrow::{Array, ArrowError, Export, ExportStream, Stream, StreamError};
use vortex_bits::{Bitmap, Comparison, values};

/// The rows of an answer, in batches.
pub type Rows = Result<Vec<Array>, ArrowError>;

/// A query over the parcels, which may look at all the trucks too.
pub struct Query {
    pub sql: &'static str,
    pub run: fn(Stream, &Array) -> Rows,
}

pub const QUERIES: [Query; 7] = [
    Query {
        sql: "select * from parcels where not (days <= 3 or weight < 2.5 or express = 1)",
        run: |parcels, _| filtered(parcels, neither_near_nor_light),
    },
    Query {
        sql: "select * from parcels where city in ('Graz', 'Linz') \
              and instr(note, 'ring') > 0 and day >= '2024-03-01'",
        run: |parcels, _| filtered(parcels, noted),
    },
    Query {
        sql: "select * from parcels where truck in \
              (select truck from trucks where city = 'Linz')",
        run: of_trucks_in_linz,
    },
    Query {
        sql: "select p.fid, parcel, driver \
              from parcels p left join trucks using (truck) order by p.fid",
        run: with_drivers,
    },
    Query {
        sql: "select city, count(*), count(cents), sum(cents), min(weight), max(weight) \
              from parcels group by city order by city",
        run: |parcels, _| by_city(parcels),
    },
    Query {
        sql: "select * from parcels where weight is not null order by weight desc, fid limit 10",
        run: |parcels, _| heaviest(parcels, 10),
    },
    Query {
        sql: "select * from parcels where express = 1 order by fid limit 20 offset 50",
        run: |parcels, _| page(parcels, 50, 20),
    },
];

/// `select * where`: the stream filters a batch when its consumer requests it.
fn filtered(
    parcels: Stream,
    rows: impl Fn(&Array) -> Result<Bitmap, ArrowError> + Send + 'static,
) -> Rows {
    let field = parcels.field().clone();
    let kept = parcels.map(move |batch| {
        let batch = batch?;
        Ok::<_, StreamError>(batch.filter(rows(&batch)?)?)
    });
    ExportStream::new(field, kept).into_stream()?.collect()
}

/// Below a `not`, a null has to stay null, by three-valued logic.
fn neither_near_nor_light(batch: &Array) -> Result<Bitmap, ArrowError> {
    let [days, weight, express] = ["days", "weight", "express"].map(|name| batch.column(name));
    let (days, weight, express) = (days?, weight?, express?);
    let near = values::compare(days.values::<i32>()?, Comparison::LessOrEqual, 3);
    let light = values::compare(weight.values::<f64>()?, Comparison::Less, 2.5);
    let quick = values::compare(express.values::<i32>()?, Comparison::Equal, 1);
    let (either, valid) = values::or_kleene(&near, days.validity()?, &light, weight.validity()?);
    let (any, valid) = values::or_kleene(&either, valid, &quick, express.validity()?);
    Ok(!any & valid)
}

/// Days are counted from 1970 on: that one is the first of March 2024.
const MARCH: i32 = 19_783;

/// Without a `not` a null only has to fail its test. Predicates over texts are false for nulls.
fn noted(batch: &Array) -> Result<Bitmap, ArrowError> {
    let [city, note, day] = ["city", "note", "day"].map(|name| batch.column(name));
    let (city, note, day) = (city?, note?, day?);
    let since = values::compare(day.values::<i32>()?, Comparison::GreaterOrEqual, MARCH);
    let rings = note.texts()?.contains("ring");
    Ok(city.texts()?.is_in(["Graz", "Linz"]) & rings & since & day.validity()?)
}

/// The rows of a batch whose truck exists: it isn't null, and its number is in range.
fn known(batch: &Array, trucks: usize) -> Result<Bitmap, ArrowError> {
    let truck = batch.column("truck")?;
    let numbers = truck.values::<i64>()?;
    let end = i64::try_from(trucks).unwrap_or(i64::MAX);
    let is_known = values::compare(numbers, Comparison::GreaterOrEqual, 0)
        & values::compare(numbers, Comparison::Less, end);
    Ok(is_known & truck.validity()?)
}

/// A semi-join: each row takes the bit of its truck, which is set if the truck is in Linz.
fn of_trucks_in_linz(parcels: Stream, trucks: &Array) -> Rows {
    let chosen = trucks.column("city")?.texts()?.equals("Linz");
    filtered(parcels, move |batch| {
        let truck = batch.column("truck")?;
        let known = known(batch, chosen.len())?;
        Ok(chosen.take_valid(truck.values::<i64>()?, known))
    })
}

/// An outer join: rows whose truck isn't known get a null.
fn with_drivers(parcels: Stream, trucks: &Array) -> Rows {
    let drivers = trucks.column("driver")?;
    let joined = |batch: Result<Array, ArrowError>| {
        let batch = batch?;
        let truck = batch.column("truck")?;
        let known = known(&batch, trucks.len())?;
        let drivers = drivers.take_valid(truck.values::<i64>()?, known)?;
        let [fid, parcel] = ["fid", "parcel"].map(|name| batch.column(name));
        Export::batch([fid?.into(), parcel?.into(), drivers]).try_into_array()
    };
    parcels.map(joined).collect()
}

/// The counts, the sum and the extremes of the parcels of a city.
#[derive(Default)]
struct Group {
    rows: i64,
    priced: i64,
    cents: i64,
    least: Option<f64>,
    most: Option<f64>,
}

impl Group {
    fn add(&mut self, batch: &Array, rows: &Bitmap) -> Result<(), ArrowError> {
        let (cents, weight) = (batch.column("cents")?, batch.column("weight")?);
        let priced = values::filter(cents.values::<i64>()?, rows & cents.validity()?);
        let weighed = values::filter(weight.values::<f64>()?, rows & weight.validity()?);
        self.rows += count(rows.count_ones());
        self.priced += count(priced.len());
        self.cents += priced.iter().sum::<i64>();
        self.least = self
            .least
            .into_iter()
            .chain(weighed.iter().copied())
            .reduce(f64::min);
        self.most = self.most.into_iter().chain(weighed).reduce(f64::max);
        Ok(())
    }
}

/// Adds the rows of a batch to their groups, city by city, until no row is left.
fn by_city(parcels: Stream) -> Rows {
    let mut groups = BTreeMap::<Option<String>, Group>::new();
    for batch in parcels {
        let batch = batch?;
        let city = batch.column("city")?;
        let (cities, mut left) = (city.texts()?, Bitmap::new_set(batch.len()));
        while let Some(row) = left.first_set() {
            let name = cities.get(row);
            let rows = name.map_or_else(|| !cities.validity(), |name| cities.equals(name));
            let name = name.map(|name| String::from_utf8_lossy(name).into_owned());
            groups.entry(name).or_default().add(&batch, &rows)?;
            left = left.and_not(&rows);
        }
    }
    shown(&groups)
}

/// A row for each city, as SQL shows them.
fn shown(groups: &BTreeMap<Option<String>, Group>) -> Rows {
    let column = |of: fn(&Group) -> i64| groups.values().map(of).collect::<Vec<_>>();
    let (least, least_valid) = or_zero(groups.values().map(|group| group.least));
    let (most, most_valid) = or_zero(groups.values().map(|group| group.most));
    let is_priced = groups.values().map(|group| group.priced > 0).collect();
    let groups = Export::batch([
        Export::texts_or_nulls(groups.keys().map(Option::as_ref)),
        Export::values(column(|group| group.rows), None),
        Export::values(column(|group| group.priced), None),
        Export::values(column(|group| group.cents), Some(is_priced)),
        Export::values(least, Some(least_valid)),
        Export::values(most, Some(most_valid)),
    ]);
    Ok(vec![groups.try_into_array()?])
}

fn or_zero(values: impl Iterator<Item = Option<f64>> + Clone) -> (Vec<f64>, Bitmap) {
    let valid = values.clone().map(|value| value.is_some()).collect();
    (values.map(Option::unwrap_or_default).collect(), valid)
}

/// Keeps the first rows of the order so far. From each batch it adds only the rows that are heavier
/// than the last of these.
fn heaviest(parcels: Stream, most: usize) -> Rows {
    let field = parcels.field().clone();
    let mut top = Export::concat(&field, &[])?.try_into_array()?;
    for batch in parcels {
        let batch = batch?;
        let weight = batch.column("weight")?;
        let valid = weight.validity()?;
        let heavier = match last(&top, most)? {
            Some(last) => values::compare(weight.values()?, Comparison::Greater, last) & valid,
            None => Bitmap::new_set(batch.len()) & valid,
        };
        let heavier = batch.filter(heavier)?.try_into_array()?;
        let both = Export::concat(&field, &[top, heavier])?.try_into_array()?;
        top = both.take(&by_weight(&both, most)?)?.try_into_array()?;
    }
    Ok(vec![top])
}

/// The weight of the last of `most` rows; None if there are fewer.
fn last(top: &Array, most: usize) -> Result<Option<f64>, ArrowError> {
    let weight = top.column("weight")?;
    let weight = weight.values()?;
    Ok(weight.get(most - 1).copied())
}

/// The first rows by weight; those of the same weight stay in their order.
fn by_weight(rows: &Array, most: usize) -> Result<Vec<usize>, ArrowError> {
    let weight = rows.column("weight")?;
    let weight = weight.values::<f64>()?;
    let mut order: Vec<usize> = (0..rows.len()).collect();
    order.sort_by(|&one, &other| weight[other].total_cmp(&weight[one]));
    order.truncate(most);
    Ok(order)
}

/// Skips rows by their number alone: no batch in front of the page is copied.
fn page(parcels: Stream, mut offset: usize, mut limit: usize) -> Rows {
    let mut page = Vec::new();
    for batch in parcels {
        let batch = batch?;
        let express = batch.column("express")?;
        let rows = values::compare(express.values::<i32>()?, Comparison::Equal, 1);
        let rows = rows & express.validity()?;
        if let Some(first) = rows.select(offset) {
            let end = rows.select(offset + limit).unwrap_or(rows.len());
            let kept = batch.slice(first..end).filter(rows.slice(first..end))?;
            limit -= kept.len();
            page.push(kept.try_into_array()?);
        }
        if limit == 0 {
            break;
        }
        offset = offset.saturating_sub(rows.count_ones());
    }
    Ok(page)
}

fn count(rows: usize) -> i64 {
    i64::try_from(rows).unwrap_or(i64::MAX)
}
