//! A reader of comma-separated values, row by row (RFC 4180).

#[cfg(test)]
mod tests;

use std::fmt;
use std::io::{self, BufRead, Chain, Cursor, Read};

use crate::rows::Rows;

/// The greatest number of bytes of a row. A longer row is an error, so that memory stays bounded.
pub const LONGEST_ROW: usize = 16 << 20;
/// The greatest number of fields of a row.
pub const MOST_FIELDS: usize = 1 << 20;

pub(crate) const BYTE_ORDER_MARK: &[u8] = &[0xEF, 0xBB, 0xBF];
/// The first bytes of files in UTF-16.
pub(crate) const UTF_16: [&[u8]; 2] = [&[0xFE, 0xFF], &[0xFF, 0xFE]];

/// The bytes that separate and quote fields.
#[derive(Clone, Copy, Debug, PartialEq, Eq)]
pub struct Dialect {
    /// The byte between two fields.
    pub delimiter: u8,
    /// The byte around a quoted field; None if no field is quoted.
    pub quote: Option<u8>,
}

/// A failure to read a row.
#[derive(Debug)]
pub enum CsvError {
    /// The input can't be read.
    Io(io::Error),
    /// The input isn't CSV.
    Malformed {
        /// The line of the file, from 1 on.
        line: u64,
        /// The field of the row, from 0 on.
        field: usize,
        /// The fault there.
        what: Malformed,
    },
}

/// A text that isn't CSV.
#[derive(Clone, Copy, Debug, PartialEq, Eq)]
pub enum Malformed {
    /// The file ends inside a quoted field.
    Unclosed,
    /// A byte other than a delimiter or a line end follows a closing quote.
    AfterQuote(u8),
    /// A carriage return without a line feed is outside of quotes.
    CarriageReturn,
    /// A row is longer than [`LONGEST_ROW`], or has more than [`MOST_FIELDS`].
    TooLong,
    /// The file is encoded as UTF-16.
    Utf16,
}

impl fmt::Display for Malformed {
    fn fmt(&self, f: &mut fmt::Formatter<'_>) -> fmt::Result {
        match self {
            Malformed::Unclosed => write!(f, "the quote that begins this field is never closed"),
            Malformed::AfterQuote(byte) => write!(
                f,
                "\"{}\" follows the closing quote; a delimiter or the end of the line is wanted",
                byte.escape_ascii()
            ),
            Malformed::CarriageReturn => write!(
                f,
                "a carriage return without a line feed; lines end in LF or CRLF, and other \
                 carriage returns are quoted"
            ),
            Malformed::TooLong => write!(
                f,
                "the row has more than {} MiB or {MOST_FIELDS} fields; is a quote missing?",
                LONGEST_ROW >> 20
            ),
            Malformed::Utf16 => write!(f, "the file is UTF-16; UTF-8 is wanted"),
        }
    }
}

impl From<io::Error> for CsvError {
    fn from(error: io::Error) -> CsvError {
        CsvError::Io(error)
    }
}

/// What ends with a field: nothing else, or the row too.
#[derive(Clone, Copy, PartialEq, Eq)]
enum End {
    Field,
    Row,
}

/// A reader of the rows of an input.
pub struct Reader<R> {
    input: Chain<Cursor<Vec<u8>>, R>,
    dialect: Dialect,
    line: u64,
    read: u64,
}

impl<R: BufRead> Reader<R> {
    /// Returns a reader at the first row. Skips a byte-order mark before it.
    ///
    /// # Errors
    ///
    /// Returns an error if the input can't be read or begins as UTF-16.
    pub fn new(mut input: R, dialect: Dialect) -> Result<Reader<R>, CsvError> {
        let mut start = Vec::new();
        let length = BYTE_ORDER_MARK.len();
        input.by_ref().take(length as u64).read_to_end(&mut start)?;
        if UTF_16.iter().any(|mark| start.starts_with(mark)) {
            return Err(malformed(1, 0, Malformed::Utf16));
        }
        let marked = start == BYTE_ORDER_MARK;
        if marked {
            start.clear();
        }
        Ok(Reader {
            input: Cursor::new(start).chain(input),
            dialect,
            line: 1,
            read: if marked { length as u64 } else { 0 },
        })
    }

    /// Returns the number of bytes that it has read.
    pub fn read(&self) -> u64 {
        self.read
    }

    /// Appends the next row to `rows`. Returns whether there was one.
    ///
    /// # Errors
    ///
    /// Returns an error if the input can't be read or isn't CSV. Part of the row may have been
    /// appended.
    pub fn read_row(&mut self, rows: &mut Rows) -> Result<bool, CsvError> {
        if self.peek()?.is_none() {
            return Ok(false);
        }
        let (bytes, fields) = (rows.bytes(), rows.fields());
        rows.begin_row(self.line);
        loop {
            let field = rows.fields() - fields;
            let end = self.read_field(rows, field, bytes)?;
            rows.end_field();
            if end == End::Row {
                return Ok(true);
            }
            if field + 1 >= MOST_FIELDS {
                return Err(malformed(self.line, field + 1, Malformed::TooLong));
            }
        }
    }

    fn read_field(&mut self, rows: &mut Rows, field: usize, start: usize) -> Result<End, CsvError> {
        if self.dialect.quote.is_some() && self.peek()? == self.dialect.quote {
            self.read_quoted(rows, field, start)?;
            return match self.peek()? {
                Some(byte) if self.is_end(byte) => self.read_end(byte, field),
                Some(byte) => Err(malformed(self.line, field, Malformed::AfterQuote(byte))),
                None => Ok(End::Row),
            };
        }
        loop {
            let buffer = self.input.fill_buf()?;
            if buffer.is_empty() {
                return Ok(End::Row);
            }
            let delimiter = self.dialect.delimiter;
            let end = buffer.iter().position(|&byte| ends(byte, delimiter));
            let taken = end.unwrap_or(buffer.len());
            rows.push(&buffer[..taken]);
            let byte = end.map(|end| buffer[end]);
            self.consume(taken);
            check_length(rows, start, self.line, field)?;
            if let Some(byte) = byte {
                return self.read_end(byte, field);
            }
        }
    }

    /// Appends the content of a quoted field. Its opening quote is the next byte.
    fn read_quoted(&mut self, rows: &mut Rows, field: usize, start: usize) -> Result<(), CsvError> {
        let opened = self.line;
        loop {
            self.consume(1);
            let mut has_more = true;
            while has_more {
                has_more = self.read_to_quote(rows)?;
                check_length(rows, start, opened, field)?;
            }
            if self.peek()?.is_none() {
                return Err(malformed(opened, field, Malformed::Unclosed));
            }
            self.consume(1);
            if self.peek()? != self.dialect.quote {
                return Ok(());
            }
            rows.push(self.dialect.quote.as_slice());
        }
    }

    /// Appends the bytes before the next quote, as far as they are in the buffer. Returns whether
    /// there may be more.
    fn read_to_quote(&mut self, rows: &mut Rows) -> Result<bool, CsvError> {
        let buffer = self.input.fill_buf()?;
        let quote = buffer
            .iter()
            .position(|&byte| Some(byte) == self.dialect.quote);
        let content = &buffer[..quote.unwrap_or(buffer.len())];
        rows.push(content);
        let lines: u64 = content.iter().map(|&byte| u64::from(byte == b'\n')).sum();
        let taken = content.len();
        self.line += lines;
        self.consume(taken);
        Ok(quote.is_none() && taken > 0)
    }

    /// Reads the delimiter or the line end that begins with `byte`, the next byte.
    fn read_end(&mut self, byte: u8, field: usize) -> Result<End, CsvError> {
        self.consume(1);
        if byte == self.dialect.delimiter {
            return Ok(End::Field);
        }
        if byte == b'\r' {
            if self.peek()? != Some(b'\n') {
                return Err(malformed(self.line, field, Malformed::CarriageReturn));
            }
            self.consume(1);
        }
        self.line += 1;
        Ok(End::Row)
    }

    fn is_end(&self, byte: u8) -> bool {
        ends(byte, self.dialect.delimiter)
    }

    fn peek(&mut self) -> io::Result<Option<u8>> {
        Ok(self.input.fill_buf()?.first().copied())
    }

    fn consume(&mut self, bytes: usize) {
        self.input.consume(bytes);
        self.read += bytes as u64;
    }
}

/// Tests the length of the row that begins at byte `start` of `rows`. An error names the field.
fn check_length(rows: &Rows, start: usize, line: u64, field: usize) -> Result<(), CsvError> {
    if rows.bytes() - start > LONGEST_ROW {
        return Err(malformed(line, field, Malformed::TooLong));
    }
    Ok(())
}

fn ends(byte: u8, delimiter: u8) -> bool {
    byte == delimiter || byte == b'\n' || byte == b'\r'
}

fn malformed(line: u64, field: usize, what: Malformed) -> CsvError {
    CsvError::Malformed { line, field, what }
}
