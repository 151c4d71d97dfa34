//! Random arrays of each type, at offsets and nested: valid ones, and ones with errors.
mod kinds;
mod lies;
mod rows;

use std::sync::LazyLock;

use crate::plain::Random;
use crate::raw::{Array, Buffer, Count, Schema};

pub use lies::spoil;

/// An array with its type.
pub type Tree = (Array, Schema);

/// Makes random arrays. Their buffers are exactly as long as their numbers say. A clone makes equal
/// arrays in other memory.
#[derive(Clone)]
pub struct Maker {
    random: Random,
    /// Whether some numbers, offsets and views are wrong.
    lies: bool,
    pub count: Count,
    /// The offset of each array; by chance where it is None.
    pub offset: Option<usize>,
}

/// How many kinds of arrays there are.
pub const KINDS: usize = 13;

/// A number of rounds: a hundredth under Miri, else multiplied by the environment's `ROUNDS`.
pub fn rounds(number: usize) -> usize {
    let times = std::env::var("ROUNDS").ok().and_then(|it| it.parse().ok());
    if cfg!(miri) {
        number / 100
    } else {
        number * times.unwrap_or(1)
    }
}

/// What each array has.
struct Rows {
    offset: usize,
    len: usize,
    /// How many items there are, those before the offset too.
    end: usize,
    valid: Option<Vec<bool>>,
}

impl Maker {
    pub fn new(seed: u64, lies: bool) -> Maker {
        Maker {
            random: Random(seed | 1),
            lies,
            count: Count::default(),
            offset: None,
        }
    }

    /// A number below another one.
    pub fn below(&mut self, end: usize) -> usize {
        usize::try_from((self.random.number() >> 16) % u64::try_from(end.max(1)).unwrap()).unwrap()
    }

    pub fn one_of<T: Copy>(&mut self, all: &[T]) -> T {
        all[self.below(all.len())]
    }

    pub fn bytes(&mut self, len: usize) -> Vec<u8> {
        self.random.bytes(len)
    }

    /// Whether to lie here.
    fn lies(&mut self) -> bool {
        self.lies && self.below(14) == 0
    }

    /// Rows of a random type, with at most `levels` levels of children.
    pub fn tree(&mut self, len: usize, levels: usize) -> Tree {
        let kind = self.below(if levels == 0 { 5 } else { KINDS });
        self.tree_of(kind, len, levels)
    }

    /// Rows of a kind of type. Kinds from 5 on have children or a dictionary.
    pub fn tree_of(&mut self, kind: usize, len: usize, levels: usize) -> Tree {
        match kind {
            0 => self.fixed(len),
            1 => self.bits(len),
            2 => self.texts(len),
            3 => self.views(len),
            4 => self.nulls(len),
            5 => self.dictionary(len, levels - 1),
            6 => self.structs(len, levels - 1),
            7 => self.lists(len, levels - 1),
            8 => self.list_views(len, levels - 1),
            9 => self.fixed_lists(len, levels - 1),
            10 => self.union(len, levels - 1),
            11 => self.runs(len, levels - 1),
            _ => self.map(len),
        }
    }

    /// The length of a child whose parent needs `wanted` items.
    fn child_len(&mut self, wanted: usize) -> usize {
        if self.lies() {
            return self.below(wanted + 1);
        }
        wanted + self.below(3)
    }

    fn rows(&mut self, len: usize) -> Rows {
        let offset = self.one_of(&[0, 0, 0, 1, 7, 8, 9, 63, 64, 65]);
        let offset = self.offset.unwrap_or(offset);
        let end = offset + len;
        let valid = match self.below(3) {
            0 => None,
            1 => Some(vec![true; end]),
            _ => Some((0..end).map(|_| self.below(3) > 0).collect()),
        };
        Rows {
            offset,
            len,
            end,
            valid,
        }
    }

    /// The array of rows with a validity and then these buffers.
    fn made(
        &mut self,
        format: &str,
        rows: &Rows,
        buffers: Vec<Option<Buffer>>,
        (children, dictionary): (Vec<Tree>, Option<Tree>),
    ) -> Tree {
        let has_validity = !(format == "n" || format == "+r" || format.starts_with("+u"));
        let validity = has_validity.then(|| rows.valid.as_ref().map(|bits| packed(bits)));
        let buffers = validity.into_iter().chain(buffers).collect();
        let (arrays, fields) = children.into_iter().unzip();
        let (items, of) = dictionary.unzip();
        let number = |it| i64::try_from(it).unwrap();
        let nulls = match format {
            "n" => rows.len,
            _ if !has_validity => 0,
            _ => rows.nulls(),
        };
        let mut said = if self.below(3) == 0 {
            -1
        } else {
            number(nulls)
        };
        if self.lies() {
            said = number(self.below(rows.len + 4)) - 3;
        }
        let array = Array::of(number(rows.len), buffers, arrays, items, &self.count)
            .at(number(rows.offset))
            .nulls(said);
        let name = self.one_of(&["", "a", "b", "\u{e9}"]);
        let mut schema = Schema::of(name, format, fields, of, &self.count);
        // Type null allows nulls even without rows, since a take may add null rows.
        let has_nulls = nulls > 0 || format == "n";
        schema.flags = if has_nulls { 2 } else { self.one_of(&[0, 2]) };
        if self.below(4) == 0 {
            schema.metadata = METADATA.as_ptr().cast();
        }
        (array, schema)
    }
}

/// One pair, of the key "k" and the value "vv".
static METADATA: LazyLock<Vec<u8>> = LazyLock::new(|| {
    let number = |it: i32| it.to_ne_bytes().to_vec();
    [
        number(1),
        number(1),
        b"k".to_vec(),
        number(2),
        b"vv".to_vec(),
    ]
    .concat()
});

impl Rows {
    fn nulls(&self) -> usize {
        let valid = self.valid.iter().flatten().skip(self.offset);
        valid.filter(|it| !**it).count()
    }

    fn is_valid(&self, place: usize) -> bool {
        self.valid.as_ref().is_none_or(|valid| valid[place])
    }
}

fn packed(bits: &[bool]) -> Buffer {
    let byte = |bits: &[bool]| {
        bits.iter()
            .rev()
            .fold(0, |byte, bit| byte << 1 | u8::from(*bit))
    };
    Buffer::exact(&bits.chunks(8).map(byte).collect::<Vec<_>>())
}

/// Numbers of so many bytes.
fn numbers(numbers: &[i64], width: usize) -> Buffer {
    let bytes = numbers.iter().flat_map(|number| {
        let mut bytes = number.to_le_bytes()[..width].to_vec();
        if cfg!(target_endian = "big") {
            bytes.reverse();
        }
        bytes
    });
    Buffer::exact(&bytes.collect::<Vec<_>>())
}

/// How many structs a tree has: each of them is released once.
pub fn structs((array, _): &Tree) -> usize {
    let mut all = Vec::new();
    lies::collect(array, &mut all);
    2 * all.len()
}
