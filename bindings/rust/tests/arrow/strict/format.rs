//! The formats of the interface, by its grammar.
use std::collections::BTreeSet;

use super::{Checked, holds};

/// The layout of items.
#[derive(Clone, Debug, PartialEq)]
pub enum Type {
    Null,
    Bits,
    /// The bytes per item, and the sign of whole numbers, which may be indices.
    Fixed(usize, Option<Sign>),
    /// The bytes per offset, and whether the bytes of rows are UTF-8.
    Bytes(usize, bool),
    Views(bool),
    /// The bytes per offset into the child, and whether it is a map.
    List(usize, bool),
    ListView(usize),
    FixedList(usize),
    Struct,
    SparseUnion(Vec<i8>),
    DenseUnion(Vec<i8>),
    Runs,
}

#[derive(Clone, Copy, Debug, PartialEq)]
pub enum Sign {
    Signed,
    Unsigned,
}

/// The type of a format.
pub fn parse(format: &str) -> Checked<Type> {
    use Sign::{Signed, Unsigned};
    Ok(match format {
        "n" => Type::Null,
        "b" => Type::Bits,
        "c" => Type::Fixed(1, Some(Signed)),
        "C" => Type::Fixed(1, Some(Unsigned)),
        "s" => Type::Fixed(2, Some(Signed)),
        "S" => Type::Fixed(2, Some(Unsigned)),
        "i" => Type::Fixed(4, Some(Signed)),
        "I" => Type::Fixed(4, Some(Unsigned)),
        "l" => Type::Fixed(8, Some(Signed)),
        "L" => Type::Fixed(8, Some(Unsigned)),
        "e" => Type::Fixed(2, None),
        "f" | "tdD" | "tts" | "ttm" | "tiM" => Type::Fixed(4, None),
        "g" | "tdm" | "ttu" | "ttn" | "tDs" | "tDm" | "tDu" | "tDn" | "tiD" => Type::Fixed(8, None),
        "tin" => Type::Fixed(16, None),
        "z" => Type::Bytes(4, false),
        "u" => Type::Bytes(4, true),
        "Z" => Type::Bytes(8, false),
        "U" => Type::Bytes(8, true),
        "vz" => Type::Views(false),
        "vu" => Type::Views(true),
        "+l" => Type::List(4, false),
        "+m" => Type::List(4, true),
        "+L" => Type::List(8, false),
        "+vl" => Type::ListView(4),
        "+vL" => Type::ListView(8),
        "+s" => Type::Struct,
        "+r" => Type::Runs,
        _ => return with_parameters(format),
    })
}

fn with_parameters(format: &str) -> Checked<Type> {
    let wrong = || format!("{format:?} is no format");
    let (name, parameters) = format.split_once(':').ok_or_else(wrong)?;
    match name {
        "tss" | "tsm" | "tsu" | "tsn" => Ok(Type::Fixed(8, None)),
        "w" => Ok(Type::Fixed(number(parameters).ok_or_else(wrong)?, None)),
        "+w" => Ok(Type::FixedList(number(parameters).ok_or_else(wrong)?)),
        "d" => Ok(Type::Fixed(decimal(parameters).ok_or_else(wrong)?, None)),
        "+us" => Ok(Type::SparseUnion(ids(parameters)?)),
        "+ud" => Ok(Type::DenseUnion(ids(parameters)?)),
        _ => Err(wrong()),
    }
}

/// A number of items, which has digits alone.
fn number(text: &str) -> Option<usize> {
    let has_digits = !text.is_empty() && text.bytes().all(|it| it.is_ascii_digit());
    let number = text.parse::<i32>().ok().filter(|_| has_digits)?;
    usize::try_from(number).ok()
}

/// The bytes of a decimal.
fn decimal(parameters: &str) -> Option<usize> {
    let parts: Vec<i32> = parameters
        .split(',')
        .map(|it| it.parse().ok().filter(|_| !it.starts_with('+')))
        .collect::<Option<_>>()?;
    let (digits, bits) = match parts[..] {
        [digits, _] => (digits, 128),
        [digits, _, bits] => (digits, bits),
        _ => return None,
    };
    let most = match bits {
        32 => 9,
        64 => 18,
        128 => 38,
        256 => 76,
        _ => return None,
    };
    (1..=most)
        .contains(&digits)
        .then(|| usize::try_from(bits / 8).ok())?
}

/// The ids of types, each from 0 to 127 and there once.
fn ids(parameters: &str) -> Checked<Vec<i8>> {
    let id = |text: &str| {
        let id = number(text).and_then(|it| i8::try_from(it).ok());
        id.ok_or_else(|| format!("{text:?} is no id of a type"))
    };
    let ids: Vec<i8> = match parameters {
        "" => Vec::new(),
        parameters => parameters.split(',').map(id).collect::<Checked<_>>()?,
    };
    let distinct: BTreeSet<i8> = ids.iter().copied().collect();
    holds(distinct.len() == ids.len(), || format!("ids twice {ids:?}"))?;
    Ok(ids)
}

impl Type {
    /// The number of buffers of an array; views of texts may have more.
    pub fn buffers(&self) -> i64 {
        match self {
            Type::Null | Type::Runs => 0,
            Type::Struct | Type::FixedList(_) | Type::SparseUnion(_) => 1,
            Type::Bits | Type::Fixed(..) | Type::List(..) | Type::DenseUnion(_) => 2,
            Type::Bytes(..) | Type::Views(_) | Type::ListView(_) => 3,
        }
    }

    /// The number of children; None for a struct, which may have any number.
    pub fn children(&self) -> Option<usize> {
        match self {
            Type::Struct => None,
            Type::List(..) | Type::ListView(_) | Type::FixedList(_) => Some(1),
            Type::Runs => Some(2),
            Type::SparseUnion(ids) | Type::DenseUnion(ids) => Some(ids.len()),
            _ => Some(0),
        }
    }

    /// Whether the first buffer has bits that say which items are null.
    pub fn has_validity(&self) -> bool {
        !matches!(
            self,
            Type::Null | Type::Runs | Type::SparseUnion(_) | Type::DenseUnion(_)
        )
    }
}
