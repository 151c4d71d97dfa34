//! Bytes aligned to 64, for one owner or several.

use alloc::sync::Arc;
use alloc::vec;
use alloc::vec::Vec;
use core::fmt;
use core::ops::{Deref, DerefMut};
#[cfg(feature = "arrow")]
use core::ptr;

/// The alignment of the first byte.
const ALIGNMENT: usize = 64;

/// Bytes with one owner, in which a [`Bitmap`](crate::Bitmap) can grow. If there are any, the first
/// one's address is a multiple of 64, the size of a cache line and the alignment that Arrow
/// recommends for buffers.
///
/// ```
/// use vortex_bits::{AlignedBytes, Bitmap};
///
/// let mut bytes = AlignedBytes::zeroed(100);
/// bytes[99] = 0b1010_0000;
/// assert_eq!(bytes.as_ptr().addr() % 64, 0);
/// assert_eq!(Bitmap::new(bytes, 700, 100).last_set(), Some(99));
/// ```
#[derive(Default)]
pub struct AlignedBytes {
    /// Up to 63 unused bytes, then the bytes.
    all: Vec<u8>,
    start: usize,
}

impl AlignedBytes {
    /// Returns an empty buffer with capacity for `bytes` bytes.
    ///
    /// ```
    /// assert!(vortex_bits::AlignedBytes::with_capacity(100).is_empty());
    /// ```
    ///
    /// # Panics
    ///
    /// Panics if a [`Vec`] can't have these bytes and 63 more, as do the calls below.
    #[must_use]
    pub fn with_capacity(bytes: usize) -> AlignedBytes {
        if bytes == 0 {
            return AlignedBytes::default();
        }
        AlignedBytes::cut(Vec::with_capacity(bytes.saturating_add(ALIGNMENT - 1)), 0)
    }

    /// Returns `bytes` bytes, all 0.
    ///
    /// ```
    /// assert_eq!(*vortex_bits::AlignedBytes::zeroed(3), [0; 3]);
    /// ```
    #[must_use]
    pub fn zeroed(bytes: usize) -> AlignedBytes {
        if bytes == 0 {
            return AlignedBytes::default();
        }
        AlignedBytes::cut(vec![0; bytes.saturating_add(ALIGNMENT - 1)], bytes)
    }

    /// Returns `bytes` bytes, all 0; None if memory runs out.
    #[cfg(feature = "arrow")]
    pub(crate) fn try_zeroed(bytes: usize) -> Option<AlignedBytes> {
        let mut zeros = AlignedBytes::try_with_capacity(bytes)?;
        zeros.all.resize(zeros.start + bytes, 0);
        Some(zeros)
    }

    /// Returns an empty buffer with capacity for `bytes` bytes; None if memory runs out.
    #[cfg(feature = "arrow")]
    pub(crate) fn try_with_capacity(bytes: usize) -> Option<AlignedBytes> {
        if bytes == 0 {
            return Some(AlignedBytes::default());
        }
        let mut all = Vec::new();
        all.try_reserve_exact(bytes.checked_add(ALIGNMENT - 1)?)
            .ok()?;
        Some(AlignedBytes::cut(all, 0))
    }

    /// Returns the address of the first byte; if there is none, an address as well aligned.
    #[cfg(feature = "arrow")]
    pub(crate) fn address(&self) -> *const u8 {
        if self.is_empty() {
            return ptr::without_provenance(ALIGNMENT);
        }
        self.as_ptr()
    }

    /// Appends bytes. There must be capacity for them.
    #[cfg(feature = "arrow")]
    #[inline(never)]
    pub(crate) fn extend(&mut self, bytes: &[u8]) {
        self.all.extend_from_slice(bytes);
    }

    /// Returns the first `len` aligned bytes of some memory, which has capacity for 63 bytes more.
    fn cut(mut all: Vec<u8>, len: usize) -> AlignedBytes {
        let start = all.as_ptr().align_offset(ALIGNMENT).min(ALIGNMENT - 1);
        all.resize(start + len, 0);
        AlignedBytes { all, start }
    }

    /// Reserves capacity for `more` bytes. A new allocation at least doubles the length.
    #[inline]
    pub(crate) fn reserve(&mut self, more: usize) {
        if self.all.capacity() - self.all.len() < more {
            self.move_to(self.len().max(more).saturating_add(self.len()));
        }
    }

    #[cold]
    #[inline(never)]
    fn move_to(&mut self, capacity: usize) {
        let mut moved = AlignedBytes::with_capacity(capacity);
        moved.all.extend_from_slice(self);
        *self = moved;
    }

    /// Returns the byte at an index; None if the index is out of bounds.
    #[inline]
    pub(crate) fn byte_mut(&mut self, place: usize) -> Option<&mut u8> {
        self.all.get_mut(self.start + place)
    }

    /// Appends one byte.
    #[inline]
    pub(crate) fn push(&mut self, byte: u8) {
        if self.all.len() == self.all.capacity() {
            self.reserve(1);
        }
        self.all.push(byte);
    }

    /// Resizes to `len` bytes. New bytes are 0.
    #[inline]
    pub(crate) fn resize(&mut self, len: usize) {
        self.reserve(len.saturating_sub(self.len()));
        self.all.resize(self.start + len, 0);
    }
}

impl Deref for AlignedBytes {
    type Target = [u8];

    #[inline]
    fn deref(&self) -> &[u8] {
        &self.all[self.start..]
    }
}

impl DerefMut for AlignedBytes {
    #[inline]
    fn deref_mut(&mut self) -> &mut [u8] {
        &mut self.all[self.start..]
    }
}

impl AsRef<[u8]> for AlignedBytes {
    #[inline]
    fn as_ref(&self) -> &[u8] {
        self
    }
}

/// Copies the bytes.
impl Clone for AlignedBytes {
    fn clone(&self) -> AlignedBytes {
        AlignedBytes::from(&self[..])
    }
}

/// Copies the bytes.
impl From<&[u8]> for AlignedBytes {
    fn from(bytes: &[u8]) -> AlignedBytes {
        let mut copy = AlignedBytes::with_capacity(bytes.len());
        copy.all.extend_from_slice(bytes);
        copy
    }
}

/// Copies the bytes, because the memory of a [`Vec`] may have any address.
impl From<Vec<u8>> for AlignedBytes {
    fn from(bytes: Vec<u8>) -> AlignedBytes {
        AlignedBytes::from(&bytes[..])
    }
}

impl fmt::Debug for AlignedBytes {
    fn fmt(&self, f: &mut fmt::Formatter<'_>) -> fmt::Result {
        self[..].fmt(f)
    }
}

/// [`AlignedBytes`] that clones share, on any thread.
///
/// ```
/// use vortex_bits::{AlignedBytes, SharedBytes};
///
/// let bytes = SharedBytes::from(AlignedBytes::zeroed(3));
/// assert_eq!(bytes.as_ptr(), bytes.clone().as_ptr());
/// ```
#[derive(Clone, Default)]
pub struct SharedBytes(Arc<AlignedBytes>);

impl SharedBytes {
    /// Returns the bytes with one owner. Copies them if they have other owners.
    ///
    /// ```
    /// use vortex_bits::{AlignedBytes, SharedBytes};
    ///
    /// let bytes = SharedBytes::from(AlignedBytes::zeroed(3));
    /// let place = bytes.as_ptr();
    /// assert_eq!(bytes.into_owned().as_ptr(), place);
    /// ```
    #[must_use]
    pub fn into_owned(self) -> AlignedBytes {
        Arc::unwrap_or_clone(self.0)
    }
}

impl Deref for SharedBytes {
    type Target = [u8];

    #[inline]
    fn deref(&self) -> &[u8] {
        &self.0
    }
}

impl AsRef<[u8]> for SharedBytes {
    #[inline]
    fn as_ref(&self) -> &[u8] {
        self
    }
}

impl From<AlignedBytes> for SharedBytes {
    fn from(bytes: AlignedBytes) -> SharedBytes {
        SharedBytes(Arc::new(bytes))
    }
}

/// Copies the bytes, because the memory of a [`Vec`] may have any address. A `Bitmap<Vec<u8>>`
/// copies nothing.
///
/// ```
/// use vortex_bits::{Bitmap, SharedBytes};
///
/// let rows = Bitmap::new(SharedBytes::from(vec![0b101]), 0, 3);
/// assert_eq!(rows.count_ones(), 2);
/// ```
impl From<Vec<u8>> for SharedBytes {
    fn from(bytes: Vec<u8>) -> SharedBytes {
        SharedBytes::from(AlignedBytes::from(bytes))
    }
}

/// Copies the bytes.
impl From<SharedBytes> for Arc<[u8]> {
    fn from(bytes: SharedBytes) -> Arc<[u8]> {
        Arc::from(&bytes[..])
    }
}

impl fmt::Debug for SharedBytes {
    fn fmt(&self, f: &mut fmt::Formatter<'_>) -> fmt::Result {
        self[..].fmt(f)
    }
}

/// A shared [`Vec`] as a slice. Owners of bits and of values need `AsRef<[T]>`, which `Arc<Vec<T>>`
/// doesn't implement. Clones share the `Vec`.
///
/// ```
/// use std::sync::Arc;
/// use vortex_bits::{Bitmap, SharedVec};
///
/// // An engine's buffer. From bit 3 on it has the validity of the rows.
/// let buffer = Arc::new(vec![0b1110_1000]);
/// let valid = Bitmap::new(SharedVec(Arc::clone(&buffer)), 3, 5);
/// assert_eq!(valid.count_ones(), 4);
/// assert_eq!(valid.bits().bytes().as_ptr(), buffer.as_ptr());
/// ```
#[derive(Debug, Default, PartialEq, Eq)]
pub struct SharedVec<T>(pub Arc<Vec<T>>);

impl<T> Clone for SharedVec<T> {
    fn clone(&self) -> SharedVec<T> {
        SharedVec(Arc::clone(&self.0))
    }
}

impl<T> Deref for SharedVec<T> {
    type Target = [T];

    #[inline]
    fn deref(&self) -> &[T] {
        &self.0
    }
}

impl<T> AsRef<[T]> for SharedVec<T> {
    #[inline]
    fn as_ref(&self) -> &[T] {
        self
    }
}

impl<T> From<Arc<Vec<T>>> for SharedVec<T> {
    fn from(shared: Arc<Vec<T>>) -> SharedVec<T> {
        SharedVec(shared)
    }
}

impl<T> From<Vec<T>> for SharedVec<T> {
    fn from(values: Vec<T>) -> SharedVec<T> {
        SharedVec(Arc::new(values))
    }
}

/// Bytes in which a [`Bitmap`](crate::Bitmap) grows and can be edited: [`AlignedBytes`], and
/// [`SharedBytes`], of which it makes a copy first if they have another owner.
#[diagnostic::on_unimplemented(
    message = "the bits of a `Bitmap<{Self}>` are read, and don't grow",
    label = "bits in `{Self}`",
    note = "`Bitmap::from(bitmap.bits())` is a copy that grows"
)]
pub trait Grow: sealed::Grow {}

impl Grow for AlignedBytes {}
impl Grow for SharedBytes {}

pub(crate) mod sealed {
    use super::{AlignedBytes, Arc, SharedBytes};

    pub trait Grow: AsRef<[u8]> + From<AlignedBytes> {
        /// Returns whether the bytes have no other owner.
        fn is_owned(&self) -> bool;

        /// Returns the bytes; None if they have another owner.
        fn owned(&mut self) -> Option<&mut AlignedBytes>;
    }

    impl Grow for AlignedBytes {
        #[inline]
        fn is_owned(&self) -> bool {
            true
        }

        #[inline]
        fn owned(&mut self) -> Option<&mut AlignedBytes> {
            Some(self)
        }
    }

    impl Grow for SharedBytes {
        #[inline]
        fn is_owned(&self) -> bool {
            Arc::strong_count(&self.0) == 1
        }

        #[inline]
        fn owned(&mut self) -> Option<&mut AlignedBytes> {
            Arc::get_mut(&mut self.0)
        }
    }
}
