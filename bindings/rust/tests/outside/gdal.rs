//! The stream that GDAL makes of a file, by the C library that is found when the program runs.
use std::fs;
use std::path::Path;

use vortex_bits::arrow::{Field, Stream};

use crate::library::Gdal;
use crate::{Case, Missing};

/// Returns what `read` makes of the stream of a CSV file, with batches of at most `each` rows.
fn read<T>(gdal: &Gdal, file: &Path, each: usize, read: impl FnOnce(Stream) -> T) -> T {
    let most = format!("MAX_FEATURES_IN_BATCH={each}");
    let layer = file.file_stem().unwrap().to_str().unwrap();
    let file = gdal.open(file).unwrap();
    // SAFETY: both callers drop the stream in `read`.
    unsafe { file.read(layer, &["INCLUDE_FID=NO", &most], read).unwrap() }
}

fn names(stream: &Stream) -> Vec<(String, String)> {
    let fields = stream.field().fields();
    let text = |it: &Field| (it.name().to_string(), it.format().to_string());
    fields.map(text).collect()
}

/// Compares the answer over GDAL's batches with that over the crate's own, and the texts with those
/// of the file.
pub fn compare(case: &Case) -> Result<(), Missing> {
    let gdal = Gdal::load()?;
    let types = "Integer,Integer64,Real,Integer(Boolean)";
    fs::write(case.file.with_extension("csvt"), types).unwrap();
    let wanted = [("a", "i"), ("b", "l"), ("c", "g"), ("flag", "b")];
    let wanted = wanted.map(|(name, format)| (name.to_string(), format.to_string()));
    for each in [1_000, 65_536] {
        let answer = read(&gdal, &case.file, each, |stream| {
            assert_eq!(names(&stream), wanted);
            case.asked(stream)
        });
        assert_eq!(answer, case.answer(each));
    }
    texts(&gdal, case);
    Ok(())
}

fn texts(gdal: &Gdal, case: &Case) {
    let file = case.file.with_file_name("texts.csv");
    let rows: Vec<String> = (0..1_234).map(|row| "\u{e9}x".repeat(row % 9)).collect();
    let lines = rows
        .iter()
        .enumerate()
        .map(|(row, text)| format!("{row},\"{text}\"\n"));
    fs::write(&file, format!("row,text\n{}", lines.collect::<String>())).unwrap();
    fs::write(file.with_extension("csvt"), "Integer,String").unwrap();
    let read = read(gdal, &file, 100, |stream| {
        let batches = stream.map(|batch| {
            let texts = batch.unwrap().column("text").unwrap();
            let text = |row: Option<&[u8]>| String::from_utf8(row.unwrap().to_vec()).unwrap();
            let texts = texts.texts().unwrap();
            texts.iter().map(text).collect::<Vec<_>>()
        });
        batches.collect::<Vec<_>>()
    });
    assert!(read.len() > 1);
    assert_eq!(read.concat(), rows);
}
