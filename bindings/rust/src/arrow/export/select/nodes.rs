//! Finds arrays that share memory: the buffers and children that they share are neither copied nor
//! moved.

use alloc::collections::BTreeMap;
use alloc::vec::Vec;
use core::ffi::c_void;
use core::ptr;

use crate::arrow::array::Array;
use crate::arrow::node::{NodeRef, Tested};

/// The memory of all items of a node. Nodes of one type that are equal in it have the same items as
/// long as both live. Exports of one array are such nodes.
#[derive(PartialEq, Eq, PartialOrd, Ord)]
pub(super) struct Memory<'a> {
    /// The offset and the number of the items. Buffers of no items may be at one address.
    items: (usize, usize),
    /// The validity in use. It is null if the array says that it has no null, whatever its buffers
    /// have.
    validity: *const u8,
    buffers: &'a [*const c_void],
    /// The memory of the children and of the dictionary.
    below: Vec<Memory<'a>>,
    /// The node that keeps the items, if these take no memory.
    keeper: Option<*const Tested>,
}

/// Returns the memory of all items of a node.
pub(super) fn items(node: NodeRef<'_>) -> Memory<'_> {
    let below = node.children().chain(node.dictionary());
    let is_nowhere = node.buffers.is_empty() && node.children().len() == 0;
    Memory {
        items: (node.offset, node.len),
        validity: node.validity,
        buffers: &node.get().buffers,
        below: below.map(items).collect(),
        keeper: is_nowhere.then(|| ptr::from_ref(node.keeper().get())),
    }
}

/// Returns the buffers that the views of a node name, and the buffer of their sizes.
pub(super) fn viewed(node: NodeRef<'_>) -> &[*const c_void] {
    &node.get().buffers[2..]
}

/// Returns the first node if all nodes have the same memory; None if they don't, or if there is no
/// node. `of` returns the memory of a node. It isn't called for clones of the first node.
pub(super) fn only<'a, K: PartialEq>(
    mut nodes: impl Iterator<Item = NodeRef<'a>>,
    of: impl Fn(NodeRef<'a>) -> K,
) -> Option<NodeRef<'a>> {
    let first = nodes.next()?;
    let is_same = |it: NodeRef<'a>| it.is(first) || of(it) == of(first);
    nodes.all(is_same).then_some(first)
}

/// Several nodes, some of which may have the same memory.
pub(super) struct Nodes {
    /// The first node of each memory, whole, in their order.
    pub each: Vec<Array>,
    /// For each given node the index in `each` of the one with its memory.
    pub places: Vec<usize>,
}

impl Nodes {
    /// Returns these nodes. `of` returns the memory of a node. Looks up each one among those before
    /// it, in a map.
    pub(super) fn of<'a, K: Ord>(
        nodes: impl Iterator<Item = NodeRef<'a>>,
        of: impl Fn(NodeRef<'a>) -> K,
    ) -> Nodes {
        let (mut each, mut found) = (Vec::new(), BTreeMap::new());
        let place = |node: NodeRef<'a>| {
            *found.entry(of(node)).or_insert_with(|| {
                each.push(Array::whole(node));
                each.len() - 1
            })
        };
        let places = nodes.map(place).collect();
        Nodes { each, places }
    }

    /// Returns for each given node the number of parts before its own ones, if the parts of all
    /// nodes in `each` are joined in their order. `parts` returns the number of parts of a node.
    pub(super) fn before(&self, parts: impl Fn(&Array) -> usize) -> impl Iterator<Item = usize> {
        let mut all = 0_usize;
        let before = |node: &Array| {
            let before = all;
            all = all.saturating_add(parts(node));
            before
        };
        let before: Vec<usize> = self.each.iter().map(before).collect();
        self.places.iter().map(move |place| before[*place])
    }
}
