//! Schemas.
use std::ffi::{CStr, c_char};
use std::hint::black_box;
use std::slice;

use super::format::{Sign, Type, parse};
use super::{Checked, Look, holds, under};
use crate::raw;

const ORDERED: i64 = 1;
const NULLABLE: i64 = 2;
const SORTED: i64 = 4;

/// What a schema says.
pub struct Tree {
    pub of: Type,
    pub may_be_null: bool,
    pub children: Vec<Tree>,
    pub dictionary: Option<Box<Tree>>,
}

impl Tree {
    /// The tree of a schema.
    ///
    /// # Safety
    ///
    /// The pointers are null or point to what the interface says.
    pub unsafe fn read(schema: &raw::Schema, look: Look) -> Checked<Tree> {
        holds(schema.release.is_some(), || "it is released".into())?;
        // SAFETY: as for this function.
        let (format, ()) = unsafe { (text(schema.format, "format")?, metadata(schema.metadata)?) };
        if !schema.name.is_null() {
            // SAFETY: as for this function.
            unsafe { text(schema.name, "name")? };
        }
        let of = parse(&format)?;
        // SAFETY: as for this function.
        let (children, dictionary) =
            unsafe { (children(schema, look)?, dictionary(schema, look)?) };
        let wanted = of.children().unwrap_or(children.len());
        let got = children.len();
        holds(got == wanted, || {
            format!("{got} children of {format:?}, which has {wanted}")
        })?;
        if look == Look::Items {
            flags(schema.flags, &of, dictionary.is_some())?;
        }
        if dictionary.is_some() {
            let is_index = matches!(of, Type::Fixed(_, Some(_)));
            holds(is_index, || format!("{format:?} has a dictionary"))?;
        }
        let tree = Tree {
            of,
            may_be_null: schema.flags & NULLABLE != 0,
            children,
            dictionary: dictionary.map(Box::new),
        };
        tree.has_its_children()?;
        Ok(tree)
    }

    fn has_its_children(&self) -> Checked<()> {
        if let Type::Runs = self.of {
            let ends = &self.children[0];
            let is_number = matches!(ends.of, Type::Fixed(2 | 4 | 8, Some(Sign::Signed)));
            holds(is_number, || format!("runs end at {:?}", ends.of))?;
            holds(ends.dictionary.is_none(), || "runs end at indices".into())?;
        }
        Ok(())
    }
}

fn flags(flags: i64, of: &Type, has_dictionary: bool) -> Checked<()> {
    let known = ORDERED | NULLABLE | SORTED;
    holds(flags & !known == 0, || format!("flags {flags}"))?;
    let is_ordered = flags & ORDERED != 0;
    holds(!is_ordered || has_dictionary, || {
        format!("flags {flags} without a dictionary")
    })?;
    let is_map = matches!(of, Type::List(_, true));
    let is_sorted = flags & SORTED != 0;
    holds(!is_sorted || is_map, || format!("flags {flags} of {of:?}"))
}

unsafe fn text(pointer: *const c_char, what: &str) -> Checked<String> {
    holds(!pointer.is_null(), || format!("{what} is null"))?;
    // SAFETY: it is a text that ends with 0.
    let text = unsafe { CStr::from_ptr(pointer) }.to_str();
    text.map(String::from)
        .map_err(|_| format!("{what} isn't UTF-8"))
}

/// Reads all keys and values of the metadata.
unsafe fn metadata(pointer: *const c_char) -> Checked<()> {
    if pointer.is_null() {
        return Ok(());
    }
    let number = |at: usize| {
        // SAFETY: it is laid out as the interface says.
        let number = unsafe { pointer.add(at).cast::<i32>().read_unaligned() };
        usize::try_from(number).map_err(|_| format!("a number of {number} in metadata"))
    };
    let mut at = 4;
    for _ in 0..2 * number(0)? {
        let size = number(at)?;
        // SAFETY: a text of `size` bytes follows its size.
        let text = unsafe { slice::from_raw_parts(pointer.add(at + 4).cast::<u8>(), size) };
        black_box(text.iter().fold(0u8, |all, byte| all ^ byte));
        at += 4 + size;
    }
    Ok(())
}

unsafe fn children(schema: &raw::Schema, look: Look) -> Checked<Vec<Tree>> {
    let number = usize::try_from(schema.n_children).map_err(|_| "n_children".to_string())?;
    holds(number == 0 || !schema.children.is_null(), || {
        "children is null".into()
    })?;
    let child = |place| {
        // SAFETY: there are `number` pointers.
        let child = unsafe { *schema.children.add(place) };
        holds(!child.is_null(), || "a child is null".into())?;
        // SAFETY: as for `Tree::read`.
        under(unsafe { Tree::read(&*child, look) }, place)
    };
    (0..number).map(child).collect()
}

unsafe fn dictionary(schema: &raw::Schema, look: Look) -> Checked<Option<Tree>> {
    if schema.dictionary.is_null() {
        return Ok(None);
    }
    // SAFETY: as for `Tree::read`.
    under(
        unsafe { Tree::read(&*schema.dictionary, look) },
        "dictionary",
    )
    .map(Some)
}
