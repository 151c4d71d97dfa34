//! Errors of imports and exports.

use alloc::string::{String, ToString};
use core::error::Error;
use core::fmt;

use crate::{BadIndex, GroupError, OutOfBounds, TakeError, TakeValuesError};

/// The errno of an invalid argument.
pub(super) const EINVAL: i32 = 22;

/// The error of a stream's call: its errno and its text, which is empty if there is none. The
/// producer of an [`ExportStream`](super::ExportStream) returns it too.
#[derive(Clone, Debug, PartialEq, Eq)]
pub struct StreamError {
    /// A number of `errno.h`: 5 is EIO, 12 ENOMEM, 22 EINVAL. A producer's 0 reaches the consumer
    /// as 5.
    pub errno: i32,
    /// A message for people. A consumer gets the part before the first character 0.
    pub text: String,
}

impl fmt::Display for StreamError {
    fn fmt(&self, f: &mut fmt::Formatter<'_>) -> fmt::Result {
        write!(f, "errno {}", self.errno)?;
        if !self.text.is_empty() {
            write!(f, ": {}", self.text)?;
        }
        Ok(())
    }
}

impl Error for StreamError {}

/// The error of a producer that makes its batches from imported arrays. A stream's error stays as
/// it is; any other error becomes its text with errno 22, EINVAL. So an iterator that makes batches
/// for an [`ExportStream`](super::ExportStream) can use `?`.
///
/// ```
/// use vortex_bits::arrow::{ArrowError, StreamError};
///
/// let error = ArrowError::NoColumn { name: "a".into() };
/// assert_eq!(StreamError::from(error).to_string(), "errno 22: no column \"a\"");
/// ```
impl From<ArrowError> for StreamError {
    fn from(error: ArrowError) -> StreamError {
        match error {
            ArrowError::Stream { error, .. } => error,
            error => StreamError {
                errno: EINVAL,
                text: error.to_string(),
            },
        }
    }
}

macro_rules! refusals {
    ($($error:ty)*) => {$(
        /// Returns the error's text with errno 22, EINVAL.
        impl From<$error> for StreamError {
            fn from(error: $error) -> StreamError {
                StreamError {
                    errno: EINVAL,
                    text: error.to_string(),
                }
            }
        }
    )*};
}

refusals!(TakeValuesError TakeError GroupError OutOfBounds BadIndex);

/// Why an import, an export, or a call on an array failed.
#[derive(Clone, Debug, PartialEq, Eq)]
#[non_exhaustive]
pub enum ArrowError {
    /// A call of the stream returned an error.
    Stream {
        /// `get_schema` or `get_next`.
        call: &'static str,
        /// The stream's error.
        error: StreamError,
    },
    /// A struct isn't as the interface requires, or a format or a dictionary as the call requires.
    Malformed {
        /// The names of the columns from the outermost one on, with a point between two. A child
        /// without a name, or with one that can't be read, has its index instead, and the items of
        /// a dictionary are named `dictionary`. For the array itself it is empty if an import or a
        /// change of its type fails, otherwise its name, with which the names of its columns begin
        /// too.
        column: String,
        /// The fault of the struct.
        fault: Fault,
    },
    /// The array has another type than the call needs.
    Type {
        /// The name of the column.
        column: String,
        /// Its type.
        format: String,
        /// The type that the call needs.
        wanted: &'static str,
    },
    /// The call can't show that values of one format are values of another.
    Format {
        /// The name of the column.
        column: String,
        /// The format of the values.
        format: String,
        /// The requested format.
        wanted: String,
        /// The first row whose value isn't of that format, if the call read the values.
        row: Option<usize>,
    },
    /// The rows don't have the type of a field.
    Field {
        /// The name of the column.
        column: String,
        /// The first difference, with the child that has it.
        difference: String,
    },
    /// The buffer of the values isn't aligned for them: [`unaligned`](super::Array::unaligned)
    /// reads them.
    Unaligned {
        /// The name of the column.
        column: String,
        /// The alignment, in bytes.
        alignment: usize,
    },
    /// A struct has no column with this name.
    NoColumn {
        /// The name.
        name: String,
    },
    /// Rows, or the items of a dictionary, can't be taken at these indices.
    Take {
        /// The name of the column.
        column: String,
        /// The reason.
        error: TakeValuesError,
    },
    /// Bits, such as those of a validity, can't be taken at these indices.
    TakeBits(TakeError),
    /// An index is out of bounds for a bitmap that is built from indices.
    BadIndex(BadIndex),
    /// A window or a slice ends after the bits or rows, or starts after its end.
    OutOfBounds(OutOfBounds),
    /// Values, a mask or the codes of rows don't fit the groups.
    Group(GroupError),
    /// Memory runs out for the bytes of texts, for copied rows, or for the numbers that say which
    /// rows to copy.
    Memory {
        /// The name of the column.
        column: String,
        /// Their total size in bytes; `usize::MAX` if it is more, or if the number of rows or items
        /// isn't a `usize`.
        bytes: usize,
    },
    /// The mask has another number of bits than there are rows.
    Mask {
        /// The name of the column.
        column: String,
        /// The number of bits in the mask.
        bits: usize,
        /// The number of rows.
        rows: usize,
    },
    /// The numbers of the type can't represent this many.
    TooLong {
        /// The name of the column.
        column: String,
        /// The kind of things that they count: rows, rows of runs, bytes of texts, buffers of
        /// views, or items of lists, of a union or of a dictionary.
        what: &'static str,
        /// Their number. For offsets it counts up to the end of the first row that an offset can't
        /// represent, for dictionaries up to the first index.
        number: usize,
        /// The greatest number that the type can represent.
        most: i64,
    },
    /// The texts are longer together than their offsets of 32 bits can represent, 2^31 - 1 bytes.
    LongTexts {
        /// The name of the column.
        column: String,
        /// The bytes of the texts up to and including the first one that ends too far.
        bytes: usize,
    },
}

/// The fault of a struct of the interface.
#[derive(Clone, Debug, PartialEq, Eq)]
#[non_exhaustive]
pub enum Fault {
    /// The struct is released, or the pointer to it is null.
    Released(&'static str),
    /// This pointer is null.
    Null(&'static str),
    /// This number is negative, or greater than it can be.
    OutOfRange(&'static str, i64),
    /// The number of nulls is below -1 or above the length.
    NullCount {
        /// The number.
        null_count: i64,
        /// The length.
        length: i64,
    },
    /// The items up to the last one take more than `isize::MAX` bytes.
    TooLong {
        /// The offset.
        offset: i64,
        /// The length.
        length: i64,
    },
    /// The struct has another number of these than its type.
    Number {
        /// The kind of them: buffers or children.
        of: &'static str,
        /// The number that the type has.
        wanted: i64,
        /// The number that the struct has.
        got: i64,
    },
    /// A required buffer is null: the values, offsets, types, views or sizes of list views if there
    /// are items, the sizes of the buffers of views if there are such buffers, the validity if
    /// there are nulls, or the bytes of texts if the last row ends after byte 0.
    NoBuffer(&'static str),
    /// An offset of texts or lists is below the one before it, negative, or above `isize::MAX`; or
    /// a list view isn't in bounds of its items.
    Range {
        /// The row that ends at the offset. For an offset in front of the rows that are read, it is
        /// the first of these rows.
        row: usize,
        /// The offset at which it begins; 0 for an offset in front of the rows that are read.
        start: i64,
        /// The offset at which it ends.
        end: i64,
    },
    /// The rows of a slice of texts or lists end after the last row of the array. The offsets after
    /// the slice go back, and the bytes or items reach only up to the last one.
    Back {
        /// The end of the rows.
        end: i64,
        /// The last offset of the array.
        last: i64,
    },
    /// This valid row of texts isn't in any of the buffers.
    View(usize),
    /// The runs end before the rows do, or at a negative row.
    Runs {
        /// The end of the last run.
        end: i64,
        /// The number of rows, counted from offset 0.
        wanted: usize,
    },
    /// The ends of runs have this format, which isn't a signed integer of 16 to 64 bits.
    RunEnds(String),
    /// A row of a union has a type id that no child has.
    TypeId {
        /// The row.
        row: usize,
        /// Its type id.
        id: i8,
    },
    /// A row of a dense union has an offset that isn't an item of its child.
    Item {
        /// The row.
        row: usize,
        /// The offset in the child.
        offset: i32,
        /// The number of items that the child has.
        items: usize,
    },
    /// The child has too few items for its parent.
    Short {
        /// The number of items that the parent needs, counted from its offset 0.
        wanted: usize,
        /// The number of items that there are.
        got: usize,
    },
    /// The interface has no type with this format, or `Field::new` doesn't make fields of the type.
    Format(String),
    /// This text isn't UTF-8.
    Utf8(&'static str),
    /// Only one of the type and the array has a dictionary, the indices aren't integers, or the
    /// values have a dictionary already.
    Dictionary,
    /// It has this many levels of children and dictionaries, or more.
    Deep(usize),
}

impl fmt::Display for Fault {
    fn fmt(&self, f: &mut fmt::Formatter<'_>) -> fmt::Result {
        match self {
            Fault::Released(what) => write!(f, "{what} is released"),
            Fault::Null(what) => write!(f, "{what} is null"),
            Fault::OutOfRange(what, number) => write!(f, "{what} is {number}"),
            Fault::NullCount { null_count, length } => {
                write!(f, "null_count is {null_count} and length {length}")
            }
            Fault::TooLong { offset, length } => {
                write!(f, "memory can't hold offset {offset} and length {length}")
            }
            Fault::Number { of, wanted, got } => write!(f, "{of} is {got} in place of {wanted}"),
            Fault::NoBuffer(what) => write!(f, "the buffer of the {what} is null"),
            Fault::Range { row, start, end } => write!(f, "row {row} lies from {start} to {end}"),
            Fault::Back { end, last } => {
                write!(f, "rows end at {end}, and the last offset is {last}")
            }
            Fault::View(row) => write!(f, "row {row} lies in none of the buffers"),
            Fault::Runs { end, wanted } => {
                write!(f, "the last run ends at {end}, before {wanted} rows do")
            }
            Fault::RunEnds(format) => write!(f, "format {format:?} isn't that of ends of runs"),
            Fault::TypeId { row, id } => write!(f, "row {row} has the type {id} of no child"),
            Fault::Item { row, offset, items } => {
                write!(f, "row {row} is item {offset} of {items}")
            }
            Fault::Short { wanted, got } => {
                write!(f, "it has {got} items, of which its parent wants {wanted}")
            }
            Fault::Format(format) => write!(f, "no type has the format {format:?}"),
            Fault::Utf8(what) => write!(f, "{what} isn't UTF-8"),
            Fault::Dictionary => f.write_str("no array of its type has such a dictionary"),
            Fault::Deep(levels) => write!(f, "it has {levels} levels of children or more"),
        }
    }
}

impl fmt::Display for ArrowError {
    fn fmt(&self, f: &mut fmt::Formatter<'_>) -> fmt::Result {
        match self {
            ArrowError::Stream { call, error } => write!(f, "{call}: {error}"),
            ArrowError::Malformed { column, fault } => write!(f, "{}{fault}", Of(column)),
            ArrowError::Type {
                column,
                format,
                wanted,
            } => write!(f, "{}format {format:?} isn't {wanted}", Of(column)),
            ArrowError::Format {
                column,
                format,
                wanted,
                row,
            } => {
                write!(f, "{}values of format {format:?} aren't ", Of(column))?;
                write!(f, "those of {wanted:?}")?;
                row.map_or(Ok(()), |row| write!(f, ": row {row} isn't"))
            }
            ArrowError::Field { column, difference } => write!(f, "{}{difference}", Of(column)),
            ArrowError::Unaligned { column, alignment } => {
                let column = Of(column);
                write!(f, "{column}values don't begin at a multiple of {alignment}")
            }
            ArrowError::NoColumn { name } => write!(f, "no column {name:?}"),
            ArrowError::Take { column, error } => write!(f, "{}{error}", Of(column)),
            ArrowError::TakeBits(error) => write!(f, "{error}"),
            ArrowError::BadIndex(error) => write!(f, "{error}"),
            ArrowError::OutOfBounds(error) => write!(f, "{error}"),
            ArrowError::Group(error) => write!(f, "{error}"),
            ArrowError::Memory { column, bytes } => {
                write!(f, "{}no memory for rows of {bytes} bytes", Of(column))
            }
            ArrowError::Mask { column, bits, rows } => {
                write!(f, "{}a mask of {bits} bits for {rows} rows", Of(column))
            }
            ArrowError::TooLong {
                column,
                what,
                number,
                most,
            } => {
                let column = Of(column);
                write!(f, "{column}{number} {what}, and numbers up to {most}")
            }
            ArrowError::LongTexts { column, bytes } => {
                let (column, most) = (Of(column), i32::MAX);
                write!(
                    f,
                    "{column}texts of {bytes} bytes, and offsets up to {most}"
                )
            }
        }
    }
}

/// Writes the column's name before a message.
pub(super) struct Of<'a>(pub &'a str);

impl fmt::Display for Of<'_> {
    fn fmt(&self, f: &mut fmt::Formatter<'_>) -> fmt::Result {
        match self.0 {
            "" => Ok(()),
            column => write!(f, "column {column:?}: "),
        }
    }
}

impl Error for ArrowError {}

impl ArrowError {
    /// Returns the error with the parent's name before the column's.
    pub(super) fn under(self, parent: &str) -> ArrowError {
        self.renamed(|column| {
            let point = if column.is_empty() { "" } else { "." };
            alloc::format!("{parent}{point}{column}")
        })
    }

    /// Returns the error with another column.
    pub(super) fn of(self, column: &str) -> ArrowError {
        self.renamed(|_| column.into())
    }

    /// Replaces the column, if the error has one.
    fn renamed(mut self, new: impl FnOnce(&str) -> String) -> ArrowError {
        match &mut self {
            ArrowError::Malformed { column, .. }
            | ArrowError::Type { column, .. }
            | ArrowError::Format { column, .. }
            | ArrowError::Field { column, .. }
            | ArrowError::Unaligned { column, .. }
            | ArrowError::Take { column, .. }
            | ArrowError::Memory { column, .. }
            | ArrowError::Mask { column, .. }
            | ArrowError::TooLong { column, .. }
            | ArrowError::LongTexts { column, .. } => *column = new(column),
            ArrowError::Stream { .. }
            | ArrowError::NoColumn { .. }
            | ArrowError::TakeBits(_)
            | ArrowError::BadIndex(_)
            | ArrowError::OutOfBounds(_)
            | ArrowError::Group(_) => (),
        }
        self
    }
}

/// Returns an error of the array itself.
impl From<Fault> for ArrowError {
    fn from(fault: Fault) -> ArrowError {
        ArrowError::Malformed {
            column: String::new(),
            fault,
        }
    }
}

/// Returns an error that names no column.
///
/// ```
/// use vortex_bits::arrow::ArrowError;
/// use vortex_bits::values;
///
/// fn taken(values: &[i64], indices: &[i32]) -> Result<Vec<i64>, ArrowError> {
///     Ok(values::try_take(values, indices)?)
/// }
/// assert_eq!(taken(&[7, 9], &[1])?, [9]);
/// let refused = taken(&[7, 9], &[-1]).unwrap_err();
/// assert_eq!(refused.to_string(), "index -1 at position 0 names none of 2 values");
/// # Ok::<(), vortex_bits::arrow::ArrowError>(())
/// ```
impl From<TakeValuesError> for ArrowError {
    fn from(error: TakeValuesError) -> ArrowError {
        let column = String::new();
        ArrowError::Take { column, error }
    }
}

impl From<TakeError> for ArrowError {
    fn from(error: TakeError) -> ArrowError {
        ArrowError::TakeBits(error)
    }
}

impl From<GroupError> for ArrowError {
    fn from(error: GroupError) -> ArrowError {
        ArrowError::Group(error)
    }
}

impl From<BadIndex> for ArrowError {
    fn from(error: BadIndex) -> ArrowError {
        ArrowError::BadIndex(error)
    }
}

impl From<OutOfBounds> for ArrowError {
    fn from(error: OutOfBounds) -> ArrowError {
        ArrowError::OutOfBounds(error)
    }
}
