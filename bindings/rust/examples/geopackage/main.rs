//! SQL's queries over a file that GDAL opens, by the crate's calls: filters with three-valued
//! logic, a semi-join, an outer join, groups, the first rows of an order and a page.
//!
//!     cargo run --release --features arrow --example geopackage -- FILE [ROWS]
//!
//! FILE is a `GeoPackage` that `bindings/gdal/make_parcels.py` writes. GDAL gives its two tables by
//! the Arrow C stream interface, in batches of at most ROWS rows, else 65,536. Each query is
//! printed with its rows; `bindings/gdal/compare` compares them with those of `SQLite`. Without
//! FILE, or where GDAL isn't installed, it says so and ends.

mod gdal;
mod queries;
mod show;

use std::env;
use std::error::Error;
use std::path::Path;

use gdal::{File, Gdal};
use queries::QUERIES;
use vortex_bits::arrow::{Array, ArrowError, Export, Stream};

/// All rows of a table in one array. Truck n has to be its row n, from 0 on.
fn all(trucks: Stream) -> Result<Array, Box<dyn Error>> {
    let field = trucks.field().clone();
    let batches = trucks.collect::<Result<Vec<_>, ArrowError>>()?;
    let trucks = Export::concat(&field, &batches)?.try_into_array()?;
    let numbers = trucks.column("truck")?;
    if !numbers
        .values::<i64>()?
        .iter()
        .copied()
        .eq(0..trucks.len().try_into()?)
    {
        return Err("the trucks aren't in the order of their numbers".into());
    }
    Ok(trucks)
}

fn ask(file: &File<'_>, rows: usize) -> Result<(), Box<dyn Error>> {
    let most = format!("MAX_FEATURES_IN_BATCH={rows}");
    let options = [most.as_str(), "INCLUDE_FID=YES"];
    // SAFETY: `all` drops the stream, and keeps only its batches.
    let trucks = unsafe { file.read("trucks", &options, all)?? };
    for query in &QUERIES {
        println!("-- {};", query.sql);
        let run = |parcels| (query.run)(parcels, &trucks);
        // SAFETY: each query drops the stream, and keeps only batches.
        let answer = unsafe { file.read("parcels", &options, run)?? };
        show::print(&answer)?;
    }
    Ok(())
}

fn main() -> Result<(), Box<dyn Error>> {
    let words: Vec<String> = env::args().skip(1).collect();
    let Some(file) = words.first() else {
        println!("skipped: no file, such as bindings/gdal/make_parcels.py writes");
        return Ok(());
    };
    let rows = words.get(1).map_or(Ok(65_536), |word| word.parse())?;
    match Gdal::load() {
        Ok(gdal) => ask(&gdal.open(Path::new(file))?, rows),
        Err(missing) => {
            println!("skipped: no {missing}");
            Ok(())
        }
    }
}
