//! How each type stores its items in buffers.

use super::texts::View;

/// How the bits of a value encode it.
#[derive(Clone, Copy, Debug, PartialEq, Eq)]
pub enum Kind {
    Signed,
    Unsigned,
    Float,
    /// Several numbers, or none.
    Bytes,
}

/// The kind of parts that rows of texts and lists consist of.
#[derive(Clone, Copy, Debug, PartialEq, Eq)]
pub enum Of {
    Bytes,
    Items,
}

/// How a type stores its items in buffers, for the types that this crate reads.
#[derive(Clone, Copy, Debug, PartialEq, Eq)]
pub enum Layout {
    /// Each item is a bit.
    Bits,
    /// Each item has this number of bytes.
    Fixed(Kind, usize),
    /// The items are in the children.
    Struct,
    /// Each row is a range of a buffer or of the child. The offsets between rows have this number
    /// of bytes.
    Ranges(usize, Of),
    /// The items are in views and in buffers of bytes. The last buffer has the sizes of these.
    Views,
    /// Each row is this number of items of the child.
    Lists(usize),
    /// Each row has an offset in the child, and in the next buffer a number of items. Both have
    /// this number of bytes.
    ListViews(usize),
    /// Each item is in one of the children. A byte names the child. The item's index there is its
    /// own if the union is sparse; otherwise a number of 32 bits is the index.
    Union { children: i64, is_sparse: bool },
    /// Each item of the second child is the value of a run of rows. The first child has the end of
    /// each run: the index of the row after it.
    Runs,
    /// There are no buffers: all items are null.
    Nulls,
}

impl Layout {
    /// Returns the layout of a format; None if no type has the format.
    pub fn of(format: &str) -> Option<Layout> {
        use Kind::{Bytes, Float, Signed, Unsigned};
        Some(match format {
            "b" => Layout::Bits,
            "c" => Layout::Fixed(Signed, 1),
            "C" => Layout::Fixed(Unsigned, 1),
            "s" => Layout::Fixed(Signed, 2),
            "S" => Layout::Fixed(Unsigned, 2),
            "e" => Layout::Fixed(Float, 2),
            "i" | "tdD" | "tts" | "ttm" | "tiM" => Layout::Fixed(Signed, 4),
            "I" => Layout::Fixed(Unsigned, 4),
            "f" => Layout::Fixed(Float, 4),
            "l" | "tdm" | "ttu" | "ttn" | "tDs" | "tDm" | "tDu" | "tDn" => Layout::Fixed(Signed, 8),
            "L" => Layout::Fixed(Unsigned, 8),
            "g" => Layout::Fixed(Float, 8),
            "tiD" => Layout::Fixed(Bytes, 8),
            "tin" => Layout::Fixed(Bytes, 16),
            "+s" => Layout::Struct,
            "n" => Layout::Nulls,
            "+r" => Layout::Runs,
            "z" | "u" => Layout::Ranges(4, Of::Bytes),
            "Z" | "U" => Layout::Ranges(8, Of::Bytes),
            "+l" | "+m" => Layout::Ranges(4, Of::Items),
            "+L" => Layout::Ranges(8, Of::Items),
            "vz" | "vu" => Layout::Views,
            "+vl" => Layout::ListViews(4),
            "+vL" => Layout::ListViews(8),
            _ => return Layout::of_parts(format.split_once(':')?),
        })
    }

    /// Returns the layout of a format with parameters.
    fn of_parts((name, parameters): (&str, &str)) -> Option<Layout> {
        match name {
            // In the interface a format ends at its first 0.
            "tss" | "tsm" | "tsu" | "tsn" if !parameters.contains('\0') => {
                Some(Layout::Fixed(Kind::Signed, 8))
            }
            "w" => Some(Layout::Fixed(Kind::Bytes, digits(parameters)?)),
            "d" => Some(Layout::Fixed(Kind::Signed, decimal(parameters)? / 8)),
            "+w" => {
                let items = digits(parameters)?;
                i32::try_from(items).is_ok().then_some(Layout::Lists(items))
            }
            "+ud" => Layout::union(parameters, false),
            "+us" => Layout::union(parameters, true),
            _ => None,
        }
    }

    fn union(ids: &str, is_sparse: bool) -> Option<Layout> {
        let children = distinct(ids)?;
        Some(Layout::Union {
            children,
            is_sparse,
        })
    }

    /// Returns the number of buffers of an array; None for views, whose arrays have at least three
    /// buffers and not all the same number.
    pub fn buffers(self) -> Option<i64> {
        match self {
            Layout::Bits | Layout::Fixed(..) | Layout::Ranges(_, Of::Items) => Some(2),
            Layout::Ranges(_, Of::Bytes) | Layout::ListViews(_) => Some(3),
            Layout::Struct | Layout::Lists(_) => Some(1),
            Layout::Views => None,
            Layout::Union { is_sparse, .. } => Some(if is_sparse { 1 } else { 2 }),
            Layout::Runs | Layout::Nulls => Some(0),
        }
    }

    /// Returns the number of children of the type; None if that differs between types.
    pub fn children(self) -> Option<i64> {
        match self {
            Layout::Bits
            | Layout::Fixed(..)
            | Layout::Ranges(_, Of::Bytes)
            | Layout::Views
            | Layout::Nulls => Some(0),
            Layout::Ranges(_, Of::Items) | Layout::Lists(_) | Layout::ListViews(_) => Some(1),
            Layout::Struct => None,
            Layout::Union { children, .. } => Some(children),
            Layout::Runs => Some(2),
        }
    }

    /// Returns whether arrays of both have the same buffers, number of children and width of
    /// values.
    pub fn is_like(self, other: Layout) -> bool {
        match (self, other) {
            (Layout::Fixed(_, width), Layout::Fixed(_, same)) => width == same,
            (Layout::Lists(_), Layout::Lists(_)) => true,
            (one, other) => one == other,
        }
    }

    /// Returns whether the first buffer has the validity bits.
    pub fn has_validity(self) -> bool {
        !matches!(self, Layout::Union { .. } | Layout::Runs | Layout::Nulls)
    }

    /// Returns whether this is a dense union, whose items have offsets in the children.
    pub fn is_dense(self) -> bool {
        matches!(
            self,
            Layout::Union {
                is_sparse: false,
                ..
            }
        )
    }

    /// Returns the bytes of an item in the widest buffer whose size follows from the length, and
    /// how many more items than rows that buffer has.
    pub fn widest(self) -> (usize, usize) {
        match self {
            Layout::Fixed(_, width) => (width.max(1), 0),
            Layout::Ranges(width, _) => (width, 1),
            Layout::ListViews(width) => (width, 0),
            Layout::Views => (size_of::<View>(), 0),
            Layout::Union { is_sparse, .. } if !is_sparse => (size_of::<i32>(), 0),
            _ => (1, 0),
        }
    }

    /// Returns the buffers that must be present if there are rows: their indices and names.
    pub fn wanted(self) -> &'static [(usize, &'static str)] {
        match self {
            Layout::Bits | Layout::Fixed(_, 1..) => &[(1, "values")],
            Layout::Ranges(..) => &[(1, "offsets")],
            Layout::Views => &[(1, "views")],
            Layout::ListViews(_) => &[(1, "offsets"), (2, "sizes")],
            Layout::Union { is_sparse, .. } if is_sparse => &[(0, "types")],
            Layout::Union { .. } => &[(0, "types"), (1, "offsets")],
            Layout::Fixed(_, 0)
            | Layout::Struct
            | Layout::Lists(_)
            | Layout::Runs
            | Layout::Nulls => &[],
        }
    }
}

/// Returns whether the values of a format are integers, and can be indices of a dictionary.
pub(super) fn is_index(format: &str) -> bool {
    matches!(format, "c" | "C" | "s" | "S" | "i" | "I" | "l" | "L")
}

/// Returns whether the values of a format are texts, whose bytes are UTF-8.
pub(super) fn is_text(format: &str) -> bool {
    matches!(format, "u" | "U" | "vu")
}

/// Returns whether the values of a format can be the ends of runs.
pub(super) fn is_run_end(format: &str) -> bool {
    matches!(format, "s" | "i" | "l")
}

/// Parses a number without a sign.
fn digits(text: &str) -> Option<usize> {
    let is_number = text.bytes().all(|it| it.is_ascii_digit());
    text.parse().ok().filter(|_| is_number)
}

/// Returns the bits of a decimal; 128 if the format has none. Returns None if its digits don't fit
/// in the bits.
fn decimal(parameters: &str) -> Option<usize> {
    let mut numbers = parameters.split(',');
    let (digits, scale) = (numbers.next()?, numbers.next()?);
    let bits = numbers.next().map_or(Some(128), self::digits)?;
    let most = match bits {
        32 => 9,
        64 => 18,
        128 => 38,
        256 => 76,
        _ => return None,
    };
    let has_digits = self::digits(digits).is_some_and(|it| (1..=most).contains(&it));
    let has_scale = !scale.starts_with('+') && scale.parse::<i32>().is_ok();
    let is_known = has_digits && has_scale && numbers.next().is_none();
    is_known.then_some(bits)
}

/// Returns the type ids of a union, in the order of its children.
pub(super) fn type_ids(format: &str) -> impl Iterator<Item = u8> {
    let ids = format.split_once(':').map_or("", |(_, ids)| ids);
    ids.split(',').filter_map(|id| id.parse().ok())
}

/// Returns the number of type ids; None unless each is from 0 to 127 and all are different.
fn distinct(ids: &str) -> Option<i64> {
    if ids.is_empty() {
        return Some(0);
    }
    let mut seen = 0u128;
    for id in ids.split(',') {
        let bit = 1 << digits(id).filter(|id| *id < 128)?;
        if seen & bit != 0 {
            return None;
        }
        seen |= bit;
    }
    Some(i64::from(seen.count_ones()))
}
