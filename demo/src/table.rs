//! A CSV file as a table: the names of its columns, and its rows in batches.

use std::fs::{self, File};
use std::io::{self, BufReader};
use std::path::{Path, PathBuf};

use crate::csv::{CsvError, Dialect, Reader};
use crate::error::{Error, shown};
use crate::progress::Progress;
use crate::rows::Rows;

/// The greatest number of rows of a batch.
pub const BATCH: usize = 65_536;
/// A batch ends with the row that brings it to this number of bytes or fields.
const BATCH_BYTES: usize = 8 << 20;
const BATCH_FIELDS: usize = 1 << 20;
/// The number of bytes of the file that it reads at once.
const BUFFER: usize = 256 << 10;

/// The format of a file.
#[derive(Clone, Copy, Debug, PartialEq, Eq)]
pub struct Format {
    /// The bytes that separate and quote fields.
    pub dialect: Dialect,
    /// Whether the first row has the names of the columns.
    pub has_header: bool,
    /// Whether rows may lack fields at their end. These are null then.
    pub has_short_rows: bool,
}

/// Returns the format with commas, double quotes and a header line.
impl Default for Format {
    fn default() -> Format {
        Format {
            dialect: Dialect {
                delimiter: b',',
                quote: Some(b'"'),
            },
            has_header: true,
            has_short_rows: false,
        }
    }
}

/// A CSV file, with the names of its columns.
#[derive(Clone, Debug)]
pub struct Table {
    path: PathBuf,
    format: Format,
    names: Vec<String>,
    /// The fields of the first row.
    first: Vec<Vec<u8>>,
}

impl Table {
    /// Returns the table of a file. Its first row has the names of the columns. A column without a
    /// name is called c1, c2 and so on; if there is no header line, all are. If there is none and
    /// rows may be short, there is a column for each field of the longest row; this reads the whole
    /// file to find it.
    ///
    /// # Errors
    ///
    /// Returns an error if the file isn't a regular one, can't be read, is empty, or doesn't begin
    /// with a row of CSV.
    pub fn open(path: &Path, format: Format) -> Result<Table, Error> {
        let file = fs::metadata(path).map_err(|error| Error::file(path, error))?;
        if !file.is_file() {
            let wrong = "not a regular file; it is read twice, so save the data to a file first";
            return Err(Error::file(path, io::Error::other(wrong)));
        }
        let mut table = Table {
            path: path.to_path_buf(),
            format,
            names: Vec::new(),
            first: Vec::new(),
        };
        let mut first = Rows::new(0);
        let has_row = table.reader()?.read_row(&mut first);
        if !has_row.map_err(|error| table.error(error))? {
            let names = if format.has_header {
                " with the names of the columns"
            } else {
                ""
            };
            let wrong = format!("the file is empty; a row{names} is wanted");
            return Err(Error::data(path, 1, wrong));
        }
        table.first = first.all_fields().map(<[u8]>::to_vec).collect();
        let width = if format.has_header || !format.has_short_rows {
            table.first.len()
        } else {
            table.widest()?
        };
        table.names = names(&table.first, width, format.has_header);
        Ok(table)
    }

    /// Reads the file once. Returns the greatest number of fields of a row.
    fn widest(&self) -> Result<usize, Error> {
        let (mut reader, mut rows, mut widest) = (self.reader()?, Rows::new(0), 0);
        while reader
            .read_row(&mut rows)
            .map_err(|error| self.error(error))?
        {
            widest = widest.max(rows.fields());
            rows.clear();
        }
        Ok(widest)
    }

    /// Returns the file.
    #[must_use]
    pub fn path(&self) -> &Path {
        &self.path
    }

    /// Returns the format of the file.
    #[must_use]
    pub fn format(&self) -> Format {
        self.format
    }

    /// Returns the names of the columns.
    #[must_use]
    pub fn names(&self) -> &[String] {
        &self.names
    }

    /// Returns the fields of the header line unchanged; None if the file has none.
    #[must_use]
    pub fn header(&self) -> Option<&[Vec<u8>]> {
        self.format.has_header.then_some(&self.first)
    }

    /// Returns the index of a column, as [`find`] does.
    ///
    /// # Errors
    ///
    /// Returns a message if no column has the name, or several have it.
    pub fn find(&self, name: &str) -> Result<usize, String> {
        find(self.names.iter().map(String::as_str), name)
    }

    /// Returns the rows of the file in batches, in a new pass from its beginning.
    ///
    /// # Errors
    ///
    /// Returns an error if the file can't be read.
    pub fn batches(&self, doing: &'static str) -> Result<Batches<'_>, Error> {
        let mut reader = self.reader()?;
        if self.format.has_header {
            let header = reader.read_row(&mut Rows::new(0));
            header.map_err(|error| self.error(error))?;
        }
        let size = fs::metadata(&self.path).map_or(0, |file| file.len());
        Ok(Batches {
            table: self,
            reader,
            rows: Rows::new(self.names.len()),
            read: 0,
            progress: Progress::new(doing, size),
        })
    }

    fn reader(&self) -> Result<Reader<BufReader<File>>, Error> {
        let file = File::open(&self.path).map_err(|error| Error::file(&self.path, error))?;
        let input = BufReader::with_capacity(BUFFER, file);
        Reader::new(input, self.format.dialect).map_err(|error| self.error(error))
    }

    fn error(&self, error: CsvError) -> Error {
        match error {
            CsvError::Io(error) => Error::file(&self.path, error),
            CsvError::Malformed { line, field, what } => {
                let column = self.column_of(field);
                Error::data(&self.path, line, format!("{column}: {what}"))
            }
        }
    }

    /// Returns the name of a field's column for an error.
    #[must_use]
    pub fn column_of(&self, field: usize) -> String {
        match self.names.get(field) {
            Some(name) => format!("column \"{}\"", shown(name.as_bytes(), 40)),
            None => format!("column {}", field + 1),
        }
    }
}

/// The rows of a file in batches. One batch is in memory at a time.
pub struct Batches<'a> {
    table: &'a Table,
    reader: Reader<BufReader<File>>,
    rows: Rows,
    /// The number of rows before this batch and in it.
    read: u64,
    progress: Progress,
}

impl Batches<'_> {
    /// Returns the next batch; None at the end of the file. Skips lines that are empty or only
    /// `""`, except in a table of one column, where they are nulls.
    ///
    /// # Errors
    ///
    /// Returns an error if the file can't be read, isn't CSV, or a row has more fields than there
    /// are columns, or fewer unless rows may be short.
    pub fn next_batch(&mut self) -> Result<Option<&Rows>, Error> {
        self.rows.clear();
        while !self.is_full() && self.next_row()? {}
        self.read += self.rows.len() as u64;
        self.progress.report(self.read, self.reader.read());
        Ok((!self.rows.is_empty()).then_some(&self.rows))
    }

    fn is_full(&self) -> bool {
        let rows = &self.rows;
        rows.len() >= BATCH || rows.bytes() >= BATCH_BYTES || rows.fields() >= BATCH_FIELDS
    }

    fn next_row(&mut self) -> Result<bool, Error> {
        let (fields, bytes) = (self.rows.fields(), self.rows.bytes());
        let has_row = self.reader.read_row(&mut self.rows);
        let has_row = has_row.map_err(|error| self.table.error(error))?;
        let (wanted, given) = (self.table.names.len(), self.rows.fields() - fields);
        if !has_row || given == wanted {
            return Ok(has_row);
        }
        if given == 1 && self.rows.bytes() == bytes {
            self.rows.pop_blank();
        } else if given < wanted && self.table.format.has_short_rows {
            (given..wanted).for_each(|_| self.rows.end_field());
        } else {
            return Err(self.wrong_width(given));
        }
        Ok(true)
    }

    fn wrong_width(&self, given: usize) -> Error {
        let names = self.table.names.iter().map(String::as_str);
        let line = self.rows.line(self.rows.len() - 1);
        let (listed, wanted) = (listed(names), self.table.names.len());
        let fields = if given == 1 { "field" } else { "fields" };
        let are = if wanted == 1 { "is" } else { "are" };
        let mut wrong = format!("{given} {fields}; {wanted} {are} wanted: {listed}");
        if given < wanted {
            wrong.push_str("; --short-rows allows for missing ones");
        }
        Error::data(&self.table.path, line, wrong)
    }
}

/// Returns the names of `width` columns, from the fields of the first row.
fn names(first: &[Vec<u8>], width: usize, has_header: bool) -> Vec<String> {
    let name = |place: usize| match first.get(place) {
        Some(field) if has_header && !field.is_empty() => {
            String::from_utf8_lossy(field).into_owned()
        }
        _ => format!("c{}", place + 1),
    };
    (0..width).map(name).collect()
}

/// Returns the index of a name. It first compares names exactly. If none is equal, it ignores the
/// case of ASCII letters, as SQL does.
///
/// # Errors
///
/// Returns a message if no column has the name, or several have it. If none has it, the message
/// lists the columns.
pub fn find<'a>(names: impl Iterator<Item = &'a str> + Clone, name: &str) -> Result<usize, String> {
    let exact = places(names.clone(), |it| it == name);
    let found = if exact.is_empty() {
        places(names.clone(), |it| it.eq_ignore_ascii_case(name))
    } else {
        exact
    };
    let shown = shown(name.as_bytes(), 40);
    match found[..] {
        [place] => Ok(place),
        [] => Err(format!(
            "there is no column \"{shown}\"; the columns are {}",
            listed(names)
        )),
        [first, second, ..] => {
            let (count, first, second) = (found.len(), first + 1, second + 1);
            Err(format!(
                "{count} columns are called \"{shown}\", as column {first} and column {second}; \
                 rename them in the first line of the file, or read it as a row by --no-header, \
                 which calls them c{first} and c{second}"
            ))
        }
    }
}

fn places<'a>(names: impl Iterator<Item = &'a str>, is: impl Fn(&str) -> bool) -> Vec<usize> {
    names
        .enumerate()
        .filter(|(_, name)| is(name))
        .map(|(place, _)| place)
        .collect()
}

/// Returns names as a list in an error, at most the first 12.
fn listed<'a>(names: impl Iterator<Item = &'a str>) -> String {
    let mut list: Vec<String> = names.take(13).map(|it| shown(it.as_bytes(), 40)).collect();
    if list.len() > 12 {
        list[12] = "..".to_string();
    }
    list.join(", ")
}

#[cfg(test)]
mod tests {
    use super::*;

    /// Returns the number of rows, fields and bytes of each batch of a file.
    fn batches(name: &str, text: &str) -> Vec<(usize, usize, usize)> {
        let path = std::env::temp_dir().join(format!("demo_{name}_{}", std::process::id()));
        fs::write(&path, text).unwrap();
        let table = Table::open(&path, Format::default()).unwrap();
        let mut batches = table.batches("testing").unwrap();
        let mut sizes = Vec::new();
        while let Some(rows) = batches.next_batch().unwrap() {
            sizes.push((rows.len(), rows.fields(), rows.bytes()));
        }
        fs::remove_file(path).unwrap();
        sizes
    }

    #[test]
    fn batches_are_bounded() {
        let short = batches("short", &format!("a\n{}", "1\n".repeat(100_000)));
        assert_eq!(short, [(BATCH, BATCH, BATCH), (34_464, 34_464, 34_464)]);

        let row = "x".repeat(1 << 20) + "\n";
        let long = batches("long", &format!("a\n{}", row.repeat(10)));
        assert_eq!(long, [(8, 8, 8 << 20), (2, 2, 2 << 20)]);

        let row = ",".repeat(4095) + "\n";
        let wide = batches("wide", &row.repeat(301));
        assert_eq!(wide, [(256, 1 << 20, 0), (44, 44 << 12, 0)]);
    }
}
