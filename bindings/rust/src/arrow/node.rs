//! The numbers and the buffers of the arrays of a tree, after a test.

mod read;

use alloc::boxed::Box;
use alloc::sync::Arc;
use alloc::vec::Vec;
use core::ops::Deref;
use core::sync::atomic::AtomicBool;

use super::error::ArrowError;
use super::ffi::{ArrowArray, Owned};
use super::field::Field;
use super::pointers::Pointers;
use crate::bytes::AlignedBytes;

/// An array of a tree of arrays. It keeps the whole tree.
///
/// All arrays of a tree are in one allocation. A query reads few numbers of each column of a batch.
/// If each column had an allocation, it would first wait for a list of their addresses.
#[derive(Clone)]
pub(super) struct Node {
    tree: Arc<[Tested]>,
    place: usize,
}

/// A reference to an array of a tree of arrays.
#[derive(Clone, Copy)]
pub(super) struct NodeRef<'a> {
    tree: &'a Arc<[Tested]>,
    place: usize,
}

/// The numbers and the buffers of an array, after a test.
pub(super) struct Tested {
    pub field: Arc<Field>,
    /// The number of items before it in its buffers.
    pub offset: usize,
    /// The number of items. These and the items before take at most `isize::MAX` bytes.
    pub len: usize,
    /// A bit for each item; null if all are valid.
    pub validity: *const u8,
    /// The bits, values, views, or offsets of texts and lists (one more than rows). It is null only
    /// if these take no bytes, or there are no items.
    pub values: *const u8,
    /// The index of the first child in the tree. The dictionary is behind the children. Let `end`
    /// be `offset + len`: a child of a struct or of a sparse union has at least `end` items, and
    /// one of fixed-size lists at least `end` times the length of a list.
    below: usize,
    /// The number of null items, if the producer reports it.
    pub nulls: Option<usize>,
    /// Whether the offsets of all texts or lists have been tested. No one writes them, so they are
    /// tested once.
    pub ascends: AtomicBool,
    /// All buffers, as the producer passed them.
    pub buffers: Pointers,
    /// What its array shares.
    origin: Origin,
    /// The outermost array, which is released with the tree. Only the first array of a tree has it,
    /// unless the tree is borrowed.
    #[allow(dead_code, reason = "its drop releases the array")]
    owner: Option<Box<Owned<ArrowArray>>>,
}

/// What an array of this crate's exports shares with others.
#[derive(Default)]
pub(super) struct Origin {
    /// The node whose buffers it has, if it is an export of that node.
    pub node: Option<Node>,
    /// The owners of the buffers of new views.
    pub shared: Option<Arc<Shared>>,
}

/// The owners of the buffers that the views of several arrays name, and of the buffers' sizes.
pub(super) struct Shared {
    pub nodes: Vec<Node>,
    pub _sizes: Option<AlignedBytes>,
}

/// Returns what an array shares. Each owner of such a function says with which arrays it may be
/// called.
pub(super) type OriginOf = unsafe fn(&ArrowArray) -> Origin;

/// Returns that nothing is known. It may be called with any array, such as that of another library.
pub(super) fn unknown(_: &ArrowArray) -> Origin {
    Origin::default()
}

// SAFETY: the pointers lead to buffers of the outermost array, which may be released on any thread.
unsafe impl Send for Tested {}

// SAFETY: nothing writes to the buffers before they are released.
unsafe impl Sync for Tested {}

impl Node {
    /// Reads an array of a type and all arrays below it, and tests their numbers. The node keeps
    /// the array.
    ///
    /// # Safety
    ///
    /// As for [`Node::borrowed`], until the array is released.
    pub unsafe fn owned(
        array: Owned<ArrowArray>,
        field: &Arc<Field>,
        origin: OriginOf,
    ) -> Result<Node, ArrowError> {
        let owner = Box::new(array);
        // SAFETY: the caller promises it.
        let mut all = unsafe { read::all(owner.get(), field, origin)? };
        all[0].owner = Some(owner);
        Ok(Node::first(all))
    }

    /// Reads an array of a type and all arrays below it, and tests their numbers.
    ///
    /// # Safety
    ///
    /// The array is released, or is as the interface requires: each of its pointers is null or
    /// leads to as much memory as the numbers say. That memory stays as long as the node. `origin`
    /// may be called with each array of the tree.
    pub unsafe fn borrowed(
        array: &ArrowArray,
        field: &Arc<Field>,
        origin: OriginOf,
    ) -> Result<Node, ArrowError> {
        // SAFETY: the caller promises it.
        unsafe { read::all(array, field, origin) }.map(Node::first)
    }

    /// Returns the first array of a tree.
    fn first(all: Vec<Tested>) -> Node {
        let (tree, place) = (all.into(), 0);
        Node { tree, place }
    }

    /// Returns a reference to the array and its tree, which counts no owner.
    #[inline]
    pub fn as_ref(&self) -> NodeRef<'_> {
        let (tree, place) = (&self.tree, self.place);
        NodeRef { tree, place }
    }
}

impl Deref for Node {
    type Target = Tested;

    #[inline]
    fn deref(&self) -> &Tested {
        self.as_ref().get()
    }
}

impl Deref for NodeRef<'_> {
    type Target = Tested;

    #[inline]
    fn deref(&self) -> &Tested {
        self.get()
    }
}

impl<'a> NodeRef<'a> {
    /// Returns the numbers and the buffers.
    #[inline]
    pub fn get(self) -> &'a Tested {
        &self.tree[self.place]
    }

    /// Returns an owner of the tree.
    #[inline]
    pub fn to_node(self) -> Node {
        Node {
            tree: Arc::clone(self.tree),
            place: self.place,
        }
    }

    #[inline]
    fn at(self, place: usize) -> NodeRef<'a> {
        NodeRef { place, ..self }
    }

    /// Returns the children.
    pub fn children(self) -> impl ExactSizeIterator<Item = NodeRef<'a>> {
        let (first, number) = (self.below, self.field.children.len());
        (first..first + number).map(move |place| self.at(place))
    }

    /// Returns the child at an index.
    ///
    /// # Panics
    ///
    /// Panics if there is no such child.
    #[inline]
    pub fn child(self, place: usize) -> NodeRef<'a> {
        let node = self.get();
        assert!(place < node.field.children.len());
        self.at(node.below + place)
    }

    /// Returns the dictionary; None if there is none.
    pub fn dictionary(self) -> Option<NodeRef<'a>> {
        let node = self.get();
        let place = node.below + node.field.children.len();
        node.field.dictionary.as_ref().map(|_| self.at(place))
    }

    /// Returns whether both are the same array of the same tree.
    pub fn is(self, other: NodeRef<'_>) -> bool {
        Arc::ptr_eq(self.tree, other.tree) && self.place == other.place
    }

    /// Returns the node that keeps the buffers: this one, or the one that its array is an export
    /// of. So an export of an export keeps the first tree only.
    pub fn keeper(self) -> NodeRef<'a> {
        self.get().origin.node.as_ref().map_or(self, Node::as_ref)
    }

    /// Returns the owners of the buffers that its views name, if this crate made the views.
    pub fn shared(self) -> Option<&'a Arc<Shared>> {
        self.keeper().get().origin.shared.as_ref()
    }
}

impl Tested {
    /// Returns how many of `len` items are null, if it is known without counting: they are all
    /// items, or no item is null.
    pub fn nulls_of(&self, len: usize) -> Option<usize> {
        self.nulls.filter(|&nulls| nulls == 0 || len == self.len)
    }

    /// Returns the value at `place`, counted from the buffer's start, as a signed number of `width`
    /// bytes.
    ///
    /// # Safety
    ///
    /// The buffer has this value.
    pub unsafe fn number_at(&self, place: usize, width: usize) -> i64 {
        // SAFETY: the caller promises it.
        unsafe {
            let number = self.values.add(place * width);
            match width {
                2 => i64::from(number.cast::<i16>().read_unaligned()),
                4 => i64::from(number.cast::<i32>().read_unaligned()),
                _ => number.cast::<i64>().read_unaligned(),
            }
        }
    }
}

/// Returns the row before which a run ends; None if the end is negative. If a `usize` can't hold
/// it, returns `usize::MAX`, which is behind all rows too.
pub(super) fn row_of(end: i64) -> Option<usize> {
    let end = u64::try_from(end).ok()?;
    Some(usize::try_from(end).unwrap_or(usize::MAX))
}
