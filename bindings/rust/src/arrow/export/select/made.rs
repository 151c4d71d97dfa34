//! New rows, before they become an array.

use alloc::sync::Arc;
use alloc::vec;
use alloc::vec::Vec;
use core::ffi::c_void;
use core::ptr;

use super::rows::{Rows, Runs};
use super::{below, selected, whole};
use crate::Bits;
use crate::arrow::array::Array;
use crate::arrow::error::ArrowError;
use crate::arrow::export::held::{Held, Kept};
use crate::arrow::ffi::{ArrowArray, Below, Owned};
use crate::arrow::field::Field;
use crate::arrow::node::{NodeRef, Shared};
use crate::arrow::pointers::Pointers;
use crate::bytes::AlignedBytes;

/// Which rows are null.
pub(super) enum Nulls {
    /// This number of rows, in a type whose arrays have no validity bits.
    Unmarked(usize),
    /// The rows whose bit is false, and their number; None if no row is.
    Marked(Option<(AlignedBytes, usize)>),
}

impl Nulls {
    /// Returns a bit for each of `len` rows; None if there are no bits.
    pub(super) fn valid(&self, len: usize) -> Option<Bits<'_>> {
        match self {
            Nulls::Marked(Some((bytes, _))) => Some(Bits::new(bytes, 0, len)),
            _ => None,
        }
    }
}

/// The greatest number of new buffers of a type, without that of the validity.
const MOST: usize = 2;

/// The owners of the buffers of new rows: of the validity, of the other new ones, and of those that
/// `Made::shared` has.
pub(in crate::arrow::export) type Owners = (
    Option<AlignedBytes>,
    [Option<AlignedBytes>; MOST],
    Option<Arc<Shared>>,
);

/// The parts of new rows, except their validity.
#[derive(Default)]
pub(super) struct Made {
    /// New buffers, in their order.
    buffers: [Option<AlignedBytes>; MOST],
    /// Buffers after the new ones, and their owners.
    pub shared: Vec<*const c_void>,
    owners: Option<Arc<Shared>>,
    pub below: Vec<Owned<ArrowArray>>,
    pub dictionary: Option<Owned<ArrowArray>>,
}

impl Made {
    pub(super) fn of<const N: usize>(new: [AlignedBytes; N]) -> Made {
        const { assert!(N <= MOST) };
        let mut new = new.into_iter();
        Made {
            buffers: [(); MOST].map(|()| new.next()),
            ..Made::default()
        }
    }

    /// Keeps the owners of the buffers that the views of an array name, and of their sizes.
    pub(super) fn keep(&mut self, node: NodeRef<'_>) {
        let new = || {
            let nodes = vec![node.keeper().to_node()];
            Arc::new(Shared {
                nodes,
                _sizes: None,
            })
        };
        self.owners = Some(node.shared().map_or_else(new, Arc::clone));
    }

    /// Keeps the owners of the buffers that the views of all arrays name, and the new sizes.
    pub(super) fn keep_all(&mut self, of: &[Array], sizes: AlignedBytes) {
        let mut nodes = Vec::new();
        for it in of {
            match it.node.as_ref().shared() {
                Some(shared) => nodes.extend(shared.nodes.iter().cloned()),
                None => nodes.push(it.node.as_ref().keeper().to_node()),
            }
        }
        self.owners = Some(Arc::new(Shared {
            nodes,
            _sizes: Some(sizes),
        }));
    }

    /// Adds the selected rows of each child.
    pub(super) fn children<'a, A: AsRef<[Array]>>(
        &mut self,
        field: &Field,
        of: impl Fn(usize) -> A,
        rows: impl Fn(usize) -> Rows<'a>,
    ) -> Result<(), ArrowError> {
        self.below.reserve_exact(field.children.len());
        for (place, child) in field.children.iter().enumerate() {
            let made = selected(child, of(place).as_ref(), rows(place));
            self.below
                .push(made.map_err(|error| below(field, place, error))?);
        }
        Ok(())
    }

    /// Adds the selected items of the child at `place` of each array.
    pub(super) fn items(
        &mut self,
        field: &Field,
        place: usize,
        of: &[Array],
        mut items: Runs,
    ) -> Result<(), ArrowError> {
        let mut of = whole(of, place);
        items.cut(field, &mut of)?;
        let made = selected(&field.children[place], &of, items.rows());
        self.below
            .push(made.map_err(|error| below(field, place, error))?);
        Ok(())
    }

    /// Adds the same rows of each child, for a struct or a sparse union.
    pub(super) fn columns(
        &mut self,
        field: &Field,
        of: &[Array],
        rows: Rows<'_>,
    ) -> Result<(), ArrowError> {
        if let [one] = of {
            if let Rows::Places(places, _) = rows {
                one.ask_for(places);
            }
            return self.children(field, |place| [one.part(place)], |_| rows);
        }
        let column = |place| of.iter().map(|it| it.part(place)).collect::<Vec<_>>();
        self.children(field, column, |_| rows)
    }

    /// Returns an array of `len` rows.
    pub(super) fn array(self, len: usize, nulls: Nulls) -> Owned<ArrowArray> {
        let mut buffers = Pointers::default();
        let (number, valid) = match nulls {
            Nulls::Unmarked(number) => (number, None),
            Nulls::Marked(valid) => {
                let (valid, number) = valid.map_or((None, 0), |(it, number)| (Some(it), number));
                buffers.push(valid.as_ref().map_or(ptr::null(), |it| it.as_ptr().cast()));
                (number, valid)
            }
        };
        for own in self.buffers.iter().flatten() {
            buffers.push(own.address().cast());
        }
        for shared in self.shared {
            buffers.push(shared);
        }
        let mut below = Below::new(self.below);
        if let Some(dictionary) = self.dictionary {
            below.set_dictionary(dictionary);
        }
        let held = Held {
            buffers,
            below,
            kept: Kept::New((valid, self.buffers, self.owners)),
        };
        held.array(len, Some(number), 0)
    }
}
