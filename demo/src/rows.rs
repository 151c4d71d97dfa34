//! Rows of text fields, and their output as CSV.

use std::io::{self, Write};

use crate::csv::{BYTE_ORDER_MARK, Dialect, UTF_16};

/// Rows of a file, as the bytes of their fields one after the other.
#[derive(Debug)]
pub struct Rows {
    bytes: Vec<u8>,
    /// 0, and the end of each field in `bytes`.
    ends: Vec<usize>,
    /// The line of the file in which each row begins.
    lines: Vec<u64>,
    width: usize,
}

impl Rows {
    /// Returns an empty list of rows with `width` fields each.
    #[must_use]
    pub fn new(width: usize) -> Rows {
        Rows {
            bytes: Vec::new(),
            ends: vec![0],
            lines: Vec::new(),
            width,
        }
    }

    /// Removes all rows. Does not free memory.
    pub fn clear(&mut self) {
        self.bytes.clear();
        self.ends.truncate(1);
        self.lines.clear();
    }

    /// Returns the number of rows.
    #[must_use]
    pub fn len(&self) -> usize {
        self.lines.len()
    }

    /// Returns whether there are no rows.
    #[must_use]
    pub fn is_empty(&self) -> bool {
        self.lines.is_empty()
    }

    /// Returns the number of bytes of all fields.
    #[must_use]
    pub fn bytes(&self) -> usize {
        self.bytes.len()
    }

    /// Returns the number of fields of all rows.
    #[must_use]
    pub fn fields(&self) -> usize {
        self.ends.len() - 1
    }

    /// Returns the line of the file in which a row begins, from 1 on.
    #[must_use]
    pub fn line(&self, row: usize) -> u64 {
        self.lines[row]
    }

    /// Returns one field.
    #[inline]
    #[must_use]
    pub fn field(&self, row: usize, column: usize) -> &[u8] {
        self.nth_field(row * self.width + column)
    }

    /// Returns the fields of a column, one per row.
    pub fn column(&self, column: usize) -> impl Iterator<Item = &[u8]> {
        (0..self.len()).map(move |row| self.field(row, column))
    }

    /// Returns the fields of a row.
    pub fn row(&self, row: usize) -> impl Iterator<Item = &[u8]> {
        (0..self.width).map(move |column| self.field(row, column))
    }

    /// Returns all fields, one row after the other.
    pub fn all_fields(&self) -> impl Iterator<Item = &[u8]> {
        (0..self.fields()).map(|field| self.nth_field(field))
    }

    #[inline]
    fn nth_field(&self, field: usize) -> &[u8] {
        &self.bytes[self.ends[field]..self.ends[field + 1]]
    }

    pub(crate) fn begin_row(&mut self, line: u64) {
        self.lines.push(line);
    }

    #[inline]
    pub(crate) fn push(&mut self, bytes: &[u8]) {
        self.bytes.extend_from_slice(bytes);
    }

    #[inline]
    pub(crate) fn end_field(&mut self) {
        self.ends.push(self.bytes.len());
    }

    /// Removes the last row, which has one field without a byte.
    pub(crate) fn pop_blank(&mut self) {
        self.lines.pop();
        self.ends.pop();
    }
}

/// Writes a row of fields and a line feed. Quotes each field that needs it.
///
/// # Errors
///
/// Returns an error if `out` can't be written.
pub fn write_row<'a>(
    out: &mut impl Write,
    dialect: Dialect,
    fields: impl IntoIterator<Item = &'a [u8]>,
) -> io::Result<()> {
    for (place, field) in fields.into_iter().enumerate() {
        if place > 0 {
            out.write_all(&[dialect.delimiter])?;
        }
        write_field(out, dialect, field)?;
    }
    out.write_all(b"\n")
}

fn write_field(out: &mut impl Write, dialect: Dialect, field: &[u8]) -> io::Result<()> {
    let Some(quote) = dialect
        .quote
        .filter(|&quote| needs_quotes(field, dialect.delimiter, quote))
    else {
        return out.write_all(field);
    };
    out.write_all(&[quote])?;
    for (place, part) in field.split(|&byte| byte == quote).enumerate() {
        if place > 0 {
            out.write_all(&[quote, quote])?;
        }
        out.write_all(part)?;
    }
    out.write_all(&[quote])
}

/// Returns whether a field needs quotes to be read back unchanged. At the beginning of a file a
/// byte-order mark would be skipped, and one of UTF-16 would be an error.
fn needs_quotes(field: &[u8], delimiter: u8, quote: u8) -> bool {
    field.starts_with(BYTE_ORDER_MARK)
        || UTF_16.iter().any(|mark| field.starts_with(mark))
        || field
            .iter()
            .any(|byte| [delimiter, quote, b'\n', b'\r'].contains(byte))
}
