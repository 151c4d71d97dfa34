//! Rows of each type, read one by one from the structs of the interface. The code follows only the
//! specification.
use crate::plain::bit;
use crate::raw::{Array, Schema};
use crate::strict::{Sign, Type, parse};

/// What a row is.
#[derive(Clone, Debug, PartialEq)]
pub enum Cell {
    Null,
    Bytes(Vec<u8>),
    Many(Vec<Cell>),
}

/// An array with its type.
#[derive(Clone, Copy)]
struct Of<'a> {
    array: &'a Array,
    schema: &'a Schema,
}

/// All rows of an array.
///
/// # Safety
///
/// The structs are valid by the interface.
pub unsafe fn cells(array: &Array, schema: &Schema) -> Vec<Cell> {
    let of = Of { array, schema };
    (0..count(array.length))
        // SAFETY: as for this function.
        .map(|row| unsafe { of.cell(row) })
        .collect()
}

fn count(number: i64) -> usize {
    usize::try_from(number).unwrap()
}

impl<'a> Of<'a> {
    fn format(self) -> Type {
        // SAFETY: it is a text.
        let format = unsafe { std::ffi::CStr::from_ptr(self.schema.format) };
        parse(format.to_str().unwrap()).unwrap()
    }

    unsafe fn child(self, place: usize) -> Of<'a> {
        // SAFETY: the caller says that there is such a child.
        unsafe {
            Of {
                array: &**self.array.children.add(place),
                schema: &**self.schema.children.add(place),
            }
        }
    }

    /// Some bytes of a buffer.
    unsafe fn bytes(self, buffer: usize, start: usize, len: usize) -> &'a [u8] {
        if len == 0 {
            return &[];
        }
        // SAFETY: the caller says that the buffer has these bytes.
        unsafe {
            let bytes = (*self.array.buffers.add(buffer)).cast::<u8>();
            std::slice::from_raw_parts(bytes.add(start), len)
        }
    }

    /// A signed number of a buffer.
    unsafe fn number(self, buffer: usize, place: usize, width: usize) -> i64 {
        // SAFETY: as for the caller.
        let bytes = unsafe { self.bytes(buffer, place * width, width) };
        match width {
            1 => i8::from_ne_bytes(bytes.try_into().unwrap()).into(),
            2 => i16::from_ne_bytes(bytes.try_into().unwrap()).into(),
            4 => i32::from_ne_bytes(bytes.try_into().unwrap()).into(),
            _ => i64::from_ne_bytes(bytes.try_into().unwrap()),
        }
    }

    unsafe fn is_null(self, of: &Type, place: usize) -> bool {
        if *of == Type::Null {
            return true;
        }
        // SAFETY: there is a buffer at least; unless it is null, it has a bit for each item.
        unsafe {
            of.has_validity()
                && self.array.null_count != 0
                && !(*self.array.buffers).is_null()
                && !bit(self.bytes(0, 0, place / 8 + 1), place)
        }
    }

    unsafe fn many(self, child: usize, start: usize, len: usize) -> Cell {
        // SAFETY: as for the caller.
        let cells = (start..start + len).map(|row| unsafe { self.child(child).cell(row) });
        Cell::Many(cells.collect())
    }

    /// A row.
    unsafe fn cell(self, row: usize) -> Cell {
        let (of, place) = (self.format(), count(self.array.offset) + row);
        // SAFETY: as for the caller.
        unsafe {
            if self.is_null(&of, place) {
                return Cell::Null;
            }
            let two = |width| [place, place + 1].map(|it| count(self.number(1, it, width)));
            match of {
                Type::Bits => {
                    let bytes = self.bytes(1, 0, place / 8 + 1);
                    Cell::Bytes(vec![u8::from(bit(bytes, place))])
                }
                Type::Fixed(width, sign) if !self.array.dictionary.is_null() => {
                    let index = self.number(1, place, width);
                    let all = if sign == Some(Sign::Unsigned) {
                        64 - 8 * width
                    } else {
                        0
                    };
                    let index = u64::from_ne_bytes(index.to_ne_bytes()) & u64::MAX >> all;
                    let items = Of {
                        array: &*self.array.dictionary,
                        schema: &*self.schema.dictionary,
                    };
                    items.cell(usize::try_from(index).unwrap())
                }
                Type::Fixed(width, _) => Cell::Bytes(self.bytes(1, place * width, width).to_vec()),
                Type::Bytes(width, _) => {
                    let [start, end] = two(width);
                    Cell::Bytes(self.bytes(2, start, end - start).to_vec())
                }
                Type::Views(_) => self.viewed(place),
                Type::List(width, _) => {
                    let [start, end] = two(width);
                    self.many(0, start, end - start)
                }
                Type::ListView(width) => {
                    let [start, len] = [1, 2].map(|it| count(self.number(it, place, width)));
                    self.many(0, start, len)
                }
                Type::FixedList(each) => self.many(0, place * each, each),
                Type::Struct => {
                    let columns = 0..count(self.array.n_children);
                    Cell::Many(columns.map(|it| self.child(it).cell(place)).collect())
                }
                Type::Runs => self.of_run(place),
                Type::SparseUnion(ids) => self.of_union(&ids, place, place),
                Type::DenseUnion(ids) => {
                    let item = count(self.number(1, place, 4));
                    self.of_union(&ids, place, item)
                }
                Type::Null => Cell::Null,
            }
        }
    }

    /// Returns the type id of a row, and the item of its child; null if the item is null.
    unsafe fn of_union(self, ids: &[i8], place: usize, item: usize) -> Cell {
        // SAFETY: as for the caller.
        let (id, cell) = unsafe {
            let id = self.number(0, place, 1);
            let child = ids.iter().position(|it| i64::from(*it) == id).unwrap();
            (id, self.child(child).cell(item))
        };
        match cell {
            Cell::Null => Cell::Null,
            cell => Cell::Many(vec![Cell::Bytes(id.to_ne_bytes().into()), cell]),
        }
    }

    unsafe fn viewed(self, place: usize) -> Cell {
        // SAFETY: as for the caller.
        unsafe {
            let view = self.bytes(1, 16 * place, 16);
            let at =
                |at: usize| count(i32::from_ne_bytes(view[at..at + 4].try_into().unwrap()).into());
            let bytes = match at(0) {
                len @ ..=12 => &view[4..4 + len],
                len => self.bytes(2 + at(8), at(12), len),
            };
            Cell::Bytes(bytes.to_vec())
        }
    }

    unsafe fn of_run(self, place: usize) -> Cell {
        // SAFETY: as for the caller.
        unsafe {
            let ends = self.child(0);
            let Type::Fixed(width, _) = ends.format() else {
                unreachable!()
            };
            let first = count(ends.array.offset);
            let mut runs = 0..count(ends.array.length);
            let run = runs.find(|run| count(ends.number(1, first + run, width)) > place);
            self.child(1).cell(run.unwrap())
        }
    }
}
