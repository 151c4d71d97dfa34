//! Arrays.
use super::buffers::{Buffers, ascending, indices, is_valid, viewed, width};
use super::format::Type;
use super::schema::Tree;
use super::{Checked, Look, holds, under};
use crate::raw;

/// An array with its type.
struct Node<'a> {
    tree: &'a Tree,
    start: usize,
    end: usize,
    buffers: Buffers<'a>,
    children: Vec<&'a raw::Array>,
}

/// Tests that an array is valid for a type. Returns the number of arrays that were tested.
///
/// # Safety
///
/// The pointers are null or point to what the structs say.
pub unsafe fn check(array: &raw::Array, tree: &Tree, look: Look) -> Checked<usize> {
    holds(array.release.is_some(), || "it is released".into())?;
    let [start, len] = [("offset", array.offset), ("length", array.length)]
        .map(|(what, number)| usize::try_from(number).map_err(|_| format!("{what} is {number}")));
    let (start, len) = (start?, len?);
    let is_number = array.offset.checked_add(array.length).is_some();
    holds(is_number, || "the end is no number".into())?;
    let end = start + len;
    let (nulls, most) = (array.null_count, array.length);
    holds((-1..=most).contains(&nulls), || {
        format!("null_count is {nulls} of {most}")
    })?;
    buffers_are_there(array, &tree.of, len)?;
    // SAFETY: as for this function.
    let children = unsafe { children(array, tree)? };
    let node = Node {
        tree,
        start,
        end,
        buffers: Buffers::new(array, end),
        children,
    };
    node.has_its_items()?;
    if look == Look::Items {
        node.has_its_nulls(array)?;
        // SAFETY: as for this function.
        unsafe { node.items(array)? };
    }
    // SAFETY: as for this function.
    unsafe { node.below(array, look) }.map(|below| 1 + below)
}

fn buffers_are_there(array: &raw::Array, of: &Type, len: usize) -> Checked<()> {
    let (number, wanted) = (array.n_buffers, of.buffers());
    let is_right = match of {
        // A view names a buffer by 32 bits.
        Type::Views(_) => (wanted..=i64::from(i32::MAX) + 4).contains(&number),
        _ => number == wanted,
    };
    holds(is_right, || format!("{number} buffers of {of:?}"))?;
    holds(number == 0 || !array.buffers.is_null(), || {
        "buffers is null".into()
    })?;
    // SAFETY: there is a pointer for each buffer.
    let is_null = |place: usize| unsafe { *array.buffers.add(place) }.is_null();
    if of.has_validity() && is_null(0) {
        let nulls = array.null_count;
        holds(nulls <= 0, || format!("{nulls} nulls without a validity"))?;
    }
    let wanted: &[usize] = match of {
        Type::Bits | Type::Fixed(1.., _) | Type::Bytes(..) | Type::Views(_) | Type::List(..) => {
            &[1]
        }
        Type::ListView(_) => &[1, 2],
        Type::SparseUnion(_) => &[0],
        Type::DenseUnion(_) => &[0, 1],
        _ => &[],
    };
    let null = wanted.iter().find(|place| is_null(**place));
    holds(len == 0 || null.is_none(), || {
        format!("buffer {null:?} of {of:?} is null")
    })
}

unsafe fn children<'a>(array: &'a raw::Array, tree: &Tree) -> Checked<Vec<&'a raw::Array>> {
    let (number, wanted) = (array.n_children, tree.children.len());
    let is_right = usize::try_from(number) == Ok(wanted);
    holds(is_right, || {
        format!("{number} children in place of {wanted}")
    })?;
    holds(wanted == 0 || !array.children.is_null(), || {
        "children is null".into()
    })?;
    let has_dictionary = !array.dictionary.is_null();
    let is_right = has_dictionary == tree.dictionary.is_some();
    holds(is_right, || "a dictionary of one alone".into())?;
    let child = |place| {
        // SAFETY: there is a pointer for each child.
        let child = unsafe { *array.children.add(place) };
        holds(!child.is_null(), || "a child is null".into())?;
        // SAFETY: as for `check`.
        Ok(unsafe { &*child })
    };
    (0..wanted).map(child).collect()
}

impl Node<'_> {
    /// Tests the children and the dictionary. Returns the number of arrays that were tested.
    unsafe fn below(&self, array: &raw::Array, look: Look) -> Checked<usize> {
        let mut looked = 0;
        for (place, (child, tree)) in self.children.iter().zip(&self.tree.children).enumerate() {
            // SAFETY: as for `check`.
            looked += under(unsafe { check(child, tree, look) }, place)?;
        }
        if let Some(tree) = &self.tree.dictionary {
            // SAFETY: it isn't null, as the type's isn't.
            let items = unsafe { check(&*array.dictionary, tree, look) };
            looked += under(items, "dictionary")?;
        }
        Ok(looked)
    }

    fn len_of(&self, child: usize) -> usize {
        usize::try_from(self.children[child].length).unwrap_or(0)
    }

    /// Tests the lengths of the children, as far as they don't depend on the items.
    fn has_its_items(&self) -> Checked<()> {
        let (end, has_rows) = (self.end, self.end > self.start);
        let wanted = match &self.tree.of {
            Type::Struct | Type::SparseUnion(_) => end,
            Type::FixedList(each) => end.checked_mul(*each).ok_or("lists that are too long")?,
            Type::Runs if has_rows => {
                let (ends, values) = (self.len_of(0), self.len_of(1));
                holds(values >= ends, || format!("{ends} runs of {values} values"))?;
                1
            }
            _ => 0,
        };
        for child in 0..self.children.len() {
            let len = self.len_of(child);
            holds(len >= wanted, || {
                format!("child {child} has {len} items of {wanted}")
            })?;
        }
        Ok(())
    }

    /// Tests `null_count`, and that there are no nulls if the type allows none.
    fn has_its_nulls(&self, array: &raw::Array) -> Checked<()> {
        let len = self.end - self.start;
        let nulls = match self.tree.of {
            Type::Null => len,
            _ if !self.tree.of.has_validity() => 0,
            _ => {
                let validity = self.buffers.validity()?;
                let is_null = |place: &usize| !is_valid(validity, *place);
                (self.start..self.end).filter(is_null).count()
            }
        };
        let said = array.null_count;
        let is_right = said == -1 || usize::try_from(said) == Ok(nulls);
        holds(is_right, || {
            format!("null_count is {said}, and {nulls} are null")
        })?;
        holds(self.tree.may_be_null || nulls == 0, || {
            format!("{nulls} nulls of a type without")
        })
    }

    fn is_valid(&self, place: usize) -> Checked<bool> {
        if !self.tree.of.has_validity() {
            return Ok(true);
        }
        Ok(is_valid(self.buffers.validity()?, place))
    }

    /// Tests that a consumer that follows the items stays within the buffers and the children.
    unsafe fn items(&self, array: &raw::Array) -> Checked<()> {
        match &self.tree.of {
            Type::Bits => drop(self.buffers.bytes(1, self.end.div_ceil(8))?),
            Type::Fixed(width, sign) => {
                let bytes = self.buffers.bytes(1, self.end * width)?;
                if let (Some(sign), Some(_)) = (sign, &self.tree.dictionary) {
                    // SAFETY: it isn't null, as the type's isn't.
                    let items = unsafe { (*array.dictionary).length };
                    self.name_items(&indices(bytes, *width, *sign), items.into())?;
                }
            }
            Type::Bytes(width, is_text) => self.texts(*width, *is_text)?,
            Type::Views(is_text) => self.views(*is_text)?,
            Type::List(width, _) => {
                let last = ascending(&self.offsets(*width)?)?;
                let items = self.len_of(0);
                holds(last <= items, || {
                    format!("lists end at {last} of {items} items")
                })?;
            }
            Type::ListView(width) => self.list_views(*width)?,
            Type::SparseUnion(ids) => drop(self.types(ids)?),
            Type::DenseUnion(ids) => self.dense(ids)?,
            Type::Runs => self.runs()?,
            Type::Null | Type::FixedList(_) | Type::Struct => {}
        }
        Ok(())
    }

    fn name_items(&self, indices: &[i128], items: i128) -> Checked<()> {
        for (place, index) in indices.iter().enumerate().skip(self.start) {
            let is_right = !self.is_valid(place)? || (0..items).contains(index);
            holds(is_right, || format!("index {index} of {items} items"))?;
        }
        Ok(())
    }

    /// The offsets of the rows and of their end; no offsets if there are no rows.
    fn offsets(&self, width: usize) -> Checked<Vec<i64>> {
        if self.end == self.start {
            return Ok(Vec::new());
        }
        let all = self.buffers.numbers(1, width, self.end + 1)?;
        Ok(all[self.start..].to_vec())
    }

    fn texts(&self, width: usize, is_text: bool) -> Checked<()> {
        let offsets = self.offsets(width)?;
        let bytes = self.buffers.bytes(2, ascending(&offsets)?)?;
        for (row, ends) in offsets.windows(2).enumerate() {
            let [from, to] = [ends[0], ends[1]].map(|it| usize::try_from(it).unwrap());
            self.is_text(self.start + row, &bytes[from..to], is_text)?;
        }
        Ok(())
    }

    fn is_text(&self, place: usize, bytes: &[u8], is_text: bool) -> Checked<()> {
        let is_right = !is_text || !self.is_valid(place)? || std::str::from_utf8(bytes).is_ok();
        holds(is_right, || format!("item {place} isn't UTF-8"))
    }

    fn views(&self, is_text: bool) -> Checked<()> {
        let views = self.buffers.bytes(1, self.end * width(&self.tree.of))?;
        let buffers = self.buffers.of_views()?;
        for (place, view) in views.chunks_exact(16).enumerate().skip(self.start) {
            if self.is_valid(place)? {
                self.is_text(place, viewed(view, &buffers)?, is_text)?;
            }
        }
        Ok(())
    }

    fn list_views(&self, width: usize) -> Checked<()> {
        let items = i128::try_from(self.len_of(0)).unwrap();
        let [offsets, sizes] = [1, 2].map(|place| self.buffers.numbers(place, width, self.end));
        for (offset, size) in offsets?.iter().zip(&sizes?).skip(self.start) {
            let is_right = *offset >= 0 && *size >= 0;
            let end = i128::from(*offset) + i128::from(*size);
            holds(is_right && end <= items, || {
                format!("a list of {offset} and {size}")
            })?;
        }
        Ok(())
    }

    /// The children of the rows.
    fn types(&self, ids: &[i8]) -> Checked<Vec<usize>> {
        let types = self.buffers.numbers(0, 1, self.end)?;
        let child = |id: &i64| {
            let found = ids.iter().position(|it| i64::from(*it) == *id);
            found.ok_or_else(|| format!("no type has the id {id}"))
        };
        types.iter().skip(self.start).map(child).collect()
    }

    fn dense(&self, ids: &[i8]) -> Checked<()> {
        let offsets = self.buffers.numbers(1, 4, self.end)?;
        let mut last = vec![0; ids.len()];
        for (child, offset) in self.types(ids)?.into_iter().zip(&offsets[self.start..]) {
            let len = i64::try_from(self.len_of(child)).unwrap();
            let is_right = (last[child]..len).contains(offset);
            holds(is_right, || {
                format!("place {offset} of {len} items of child {child}")
            })?;
            last[child] = *offset;
        }
        Ok(())
    }

    fn runs(&self) -> Checked<()> {
        let (ends, wanted) = (self.children[0], self.end);
        let [start, len] = [ends.offset, ends.length].map(|it| usize::try_from(it).unwrap());
        let width = width(&self.tree.children[0].of);
        let ends = Buffers::new(ends, start + len).numbers(1, width, start + len)?;
        let ends = &ends[start..];
        let is_rising = ends.windows(2).all(|it| it[0] < it[1]);
        let is_right = is_rising && ends.first().is_none_or(|it| *it > 0);
        holds(is_right, || format!("runs end at {ends:?}"))?;
        let last = ends
            .last()
            .map_or(0, |it| usize::try_from(*it).unwrap_or(0));
        let has_rows = self.end > self.start;
        holds(!has_rows || last >= wanted, || {
            format!("runs up to {last} of {wanted}")
        })
    }
}
