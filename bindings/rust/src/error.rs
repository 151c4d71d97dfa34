//! Errors of windows and of calls.

use core::error::Error;
use core::fmt;

/// The error of a window that isn't in bounds of its bytes or whose end isn't a `usize`, and of a
/// range that starts after its end or ends after the bits or rows.
#[derive(Clone, Copy, Debug, PartialEq, Eq, Hash)]
#[non_exhaustive]
pub struct OutOfBounds {
    /// The index of the first bit or row; `usize::MAX` if the index is above that.
    pub offset: usize,
    /// The number of bits or rows in the window; 0 if the range starts after its end, and
    /// `usize::MAX` if the number is above that.
    pub len: usize,
    /// The number of bits of the bytes, or of the window that was sliced; or the number of rows.
    /// `usize::MAX` if the bytes have more bits.
    pub bits: usize,
    /// `bit` or `row`.
    unit: &'static str,
}

impl OutOfBounds {
    /// Returns the error of bits.
    pub(crate) const fn new(offset: usize, len: usize, bits: usize) -> Self {
        OutOfBounds {
            offset,
            len,
            bits,
            unit: "bit",
        }
    }

    /// Returns the same error of rows.
    pub(crate) const fn of_rows(self) -> Self {
        OutOfBounds {
            unit: "row",
            ..self
        }
    }
}

impl fmt::Display for OutOfBounds {
    fn fmt(&self, f: &mut fmt::Formatter<'_>) -> fmt::Result {
        let OutOfBounds {
            offset,
            len,
            bits,
            unit,
        } = self;
        match len {
            0 if offset > bits => write!(f, "{unit} {offset} is past {bits} {unit}s"),
            // An empty window that starts there is in bounds.
            0 => write!(f, "the range starts at {unit} {offset}, after its end"),
            _ => write!(
                f,
                "the {len} {unit}s from {unit} {offset} on are not among {bits} {unit}s"
            ),
        }
    }
}

impl Error for OutOfBounds {}

/// The error of a take of bits.
#[derive(Clone, Copy, Debug, PartialEq, Eq, Hash)]
#[non_exhaustive]
pub enum TakeError {
    /// The output window doesn't have one bit per index. It is unchanged.
    Room {
        /// The number of bits in the output.
        bits: usize,
        /// The number of indices.
        indices: usize,
    },
    /// The validity doesn't have one bit per index. The output is unchanged.
    Validity {
        /// The number of bits in the validity.
        bits: usize,
        /// The number of indices.
        indices: usize,
    },
    /// The index at this position is negative, or isn't below the length of the window. It is the
    /// first such index among the valid ones. The bits of the output are arbitrary.
    Index {
        /// The position among the indices.
        position: usize,
        /// The index; `i128::MAX` if it is above that.
        index: i128,
        /// The number of bits in the window that is read.
        len: usize,
    },
}

impl fmt::Display for TakeError {
    fn fmt(&self, f: &mut fmt::Formatter<'_>) -> fmt::Result {
        match self {
            TakeError::Room { bits, indices } => {
                write!(f, "{indices} indices and {bits} bits to write")
            }
            TakeError::Validity { bits, indices } => no_validity(f, *indices, *bits),
            &TakeError::Index {
                position,
                index,
                len,
            } => no_place(f, position, index, len),
        }
    }
}

impl Error for TakeError {}

fn no_place(f: &mut fmt::Formatter<'_>, position: usize, index: i128, len: usize) -> fmt::Result {
    write!(
        f,
        "index {index} at position {position} names none of {len} bits"
    )
}

/// The error of a take of values.
#[derive(Clone, Copy, Debug, PartialEq, Eq, Hash)]
#[non_exhaustive]
pub enum TakeValuesError {
    /// The output isn't as long as the indices. It is unchanged.
    Room {
        /// The number of values in the output.
        room: usize,
        /// The number of indices.
        indices: usize,
    },
    /// The validity doesn't have one bit per index. The output is unchanged.
    Validity {
        /// The number of bits in the validity.
        bits: usize,
        /// The number of indices.
        indices: usize,
    },
    /// The index at this position is negative, or isn't below the number of values. It is the first
    /// such index among the valid ones. The items of the output are arbitrary.
    Index {
        /// The position among the indices.
        position: usize,
        /// The index; `i128::MAX` if it is above that.
        index: i128,
        /// The number of values.
        values: usize,
    },
}

impl fmt::Display for TakeValuesError {
    fn fmt(&self, f: &mut fmt::Formatter<'_>) -> fmt::Result {
        match self {
            TakeValuesError::Room { room, indices } => {
                write!(f, "{indices} indices and {room} values to write")
            }
            TakeValuesError::Validity { bits, indices } => no_validity(f, *indices, *bits),
            TakeValuesError::Index {
                position,
                index,
                values,
            } => write!(
                f,
                "index {index} at position {position} names none of {values} values"
            ),
        }
    }
}

impl Error for TakeValuesError {}

fn no_validity(f: &mut fmt::Formatter<'_>, indices: usize, bits: usize) -> fmt::Result {
    write!(f, "{indices} indices and {bits} bits of validity")
}

/// The error of counts, sums, minima, maxima and bitmaps by group, which are then unchanged.
#[derive(Clone, Copy, Debug, PartialEq, Eq, Hash)]
#[non_exhaustive]
pub enum GroupError {
    /// There isn't one value per row.
    Values {
        /// The number of values.
        values: usize,
        /// The number of rows, which is that of the codes.
        rows: usize,
    },
    /// The mask doesn't have one bit per row.
    Mask {
        /// The number of bits in the mask.
        bits: usize,
        /// The number of rows, which is that of the codes.
        rows: usize,
    },
    /// The code of this row is negative, or isn't below the number of groups. It is the first such
    /// row among the selected ones.
    Code {
        /// The row.
        row: usize,
        /// Its code; `i128::MAX` if it is above that.
        code: i128,
        /// The number of groups, which is that of counts, sums, minima, maxima or bitmaps.
        groups: usize,
    },
}

impl fmt::Display for GroupError {
    fn fmt(&self, f: &mut fmt::Formatter<'_>) -> fmt::Result {
        match self {
            GroupError::Values { values, rows } => write!(f, "{values} values for {rows} codes"),
            GroupError::Mask { bits, rows } => write!(f, "a mask of {bits} bits for {rows}"),
            GroupError::Code { row, code, groups } => {
                write!(f, "code {code} of row {row} names none of {groups} groups")
            }
        }
    }
}

impl Error for GroupError {}

/// The error of the first index that is negative, or isn't below the number of bits of a new
/// bitmap.
#[derive(Clone, Copy, Debug, PartialEq, Eq, Hash)]
#[non_exhaustive]
pub struct BadIndex {
    /// The position among the indices.
    pub position: usize,
    /// The index; `i128::MAX` if it is above that.
    pub index: i128,
    /// The number of bits of the new bitmap.
    pub len: usize,
}

impl fmt::Display for BadIndex {
    fn fmt(&self, f: &mut fmt::Formatter<'_>) -> fmt::Result {
        no_place(f, self.position, self.index, self.len)
    }
}

impl Error for BadIndex {}

/// The error of a split of a writable window.
#[derive(Clone, Copy, Debug, PartialEq, Eq, Hash)]
#[non_exhaustive]
pub enum SplitError {
    /// The index is past the window.
    Past {
        /// The index.
        place: usize,
        /// The number of bits in the window.
        len: usize,
    },
    /// The parts before the index and from it on share a byte.
    WithinByte {
        /// The index.
        place: usize,
        /// The bit of the bytes at the index: `offset + place`.
        bit: usize,
    },
}

impl fmt::Display for SplitError {
    fn fmt(&self, f: &mut fmt::Formatter<'_>) -> fmt::Result {
        match self {
            SplitError::Past { place, len } => write!(f, "index {place} is past {len} bits"),
            SplitError::WithinByte { place, bit } => {
                let byte = bit / 8;
                write!(
                    f,
                    "index {place} is bit {bit} of the bytes, within byte {byte}"
                )
            }
        }
    }
}

impl Error for SplitError {}

/// The error of a table of counts that is too short for its window.
#[derive(Clone, Copy, Debug, PartialEq, Eq, Hash)]
#[non_exhaustive]
pub struct ShortTable {
    /// The number of blocks in the window.
    pub blocks: usize,
    /// The number of entries in the table.
    pub entries: usize,
}

impl fmt::Display for ShortTable {
    fn fmt(&self, f: &mut fmt::Formatter<'_>) -> fmt::Result {
        let ShortTable { blocks, entries } = self;
        write!(f, "a table of {entries} entries for {blocks} blocks")
    }
}

impl Error for ShortTable {}

/// Returns the value of a call that succeeded.
///
/// # Panics
///
/// Panics with the text of the error.
#[inline]
#[track_caller]
pub(crate) fn expect<T, E: fmt::Display>(answer: Result<T, E>) -> T {
    match answer {
        Ok(answer) => answer,
        Err(refused) => refuse(&refused),
    }
}

#[cold]
#[inline(never)]
#[track_caller]
fn refuse(refused: &dyn fmt::Display) -> ! {
    panic!("{refused}")
}
