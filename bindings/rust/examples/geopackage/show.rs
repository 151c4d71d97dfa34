//! Rows as `sqlite3 -quote` prints them, with three digits behind the point of a number.

use vortex_bits::arrow::{Array, ArrowError};

/// Prints the rows of batches, a line each.
///
/// # Errors
///
/// Returns an error if a column has a type that isn't shown.
pub fn print(batches: &[Array]) -> Result<(), ArrowError> {
    for batch in batches {
        let columns: Vec<Vec<String>> = batch
            .columns()?
            .map(|it| fields(&it))
            .collect::<Result<_, _>>()?;
        for row in 0..batch.len() {
            let fields: Vec<&str> = columns.iter().map(|column| column[row].as_str()).collect();
            println!("{}", fields.join(","));
        }
    }
    Ok(())
}

fn fields(column: &Array) -> Result<Vec<String>, ArrowError> {
    let shown: Vec<String> = match column.field().format() {
        "i" => column
            .values::<i32>()?
            .iter()
            .map(ToString::to_string)
            .collect(),
        "l" => column
            .values::<i64>()?
            .iter()
            .map(ToString::to_string)
            .collect(),
        "g" => column
            .values::<f64>()?
            .iter()
            .map(|value| format!("{value:.3}"))
            .collect(),
        "tdD" => column
            .values::<i32>()?
            .iter()
            .map(|day| date(*day))
            .collect(),
        "b" => column
            .bits()?
            .iter()
            .map(|bit| u8::from(bit).to_string())
            .collect(),
        _ => column
            .texts()?
            .iter()
            .map(|text| quoted(text.unwrap_or_default()))
            .collect(),
    };
    let valid = column.validity()?;
    let or_null = |(row, shown)| {
        if valid.get(row) == Some(true) {
            shown
        } else {
            "NULL".into()
        }
    };
    Ok(shown.into_iter().enumerate().map(or_null).collect())
}

fn quoted(text: &[u8]) -> String {
    format!("'{}'", String::from_utf8_lossy(text).replace('\'', "''"))
}

/// The date of a day since 1970, by Howard Hinnant's `civil_from_days`.
fn date(day: i32) -> String {
    let day = day + 719_468;
    let (era, day) = (day.div_euclid(146_097), day.rem_euclid(146_097));
    let year = (day - day / 1460 + day / 36_524 - day / 146_096) / 365;
    let day = day - (365 * year + year / 4 - year / 100);
    let month = (5 * day + 2) / 153;
    let day = day - (153 * month + 2) / 5 + 1;
    let month = if month < 10 { month + 3 } else { month - 9 };
    let year = year + era * 400 + i32::from(month <= 2);
    format!("'{year:04}-{month:02}-{day:02}'")
}
