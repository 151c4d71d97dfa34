//! Arrays that another part of the program produced.

mod dictionary;
mod variable;

use alloc::string::String;
use alloc::sync::Arc;
use core::fmt;
use core::ops::RangeBounds;
use core::ptr;
use core::slice;

use super::error::{ArrowError, Fault};
use super::ffi::{ArrowArray, ArrowSchema, Owned};
use super::field::Field;
use super::layout::Layout;
use super::node::{Node, NodeRef, OriginOf, unknown};
use super::primitive::{Primitive, Unaligned};
use super::texts::View;
use crate::bits::within;
use crate::error::{OutOfBounds, TakeValuesError, expect};
use crate::{Bits, Validity, prefetch};

/// Rows of an array of the Arrow C data interface. The `Array` owns the producer's [`ArrowArray`],
/// and reads the values, bits and validity in place. Clones, columns, slices and exports share it.
/// Dropping the last of them releases it, on any thread.
///
/// A column has one row per row of its struct, for any offset of the two.
///
/// ```
/// use vortex_bits::arrow::Export;
/// use vortex_bits::{Bitmap, Bits};
///
/// let valid = Bitmap::from([true, true, false]);
/// let a = Export::values(vec![7i32, 9, 0], Some(valid)).named("a");
/// let flag = Export::bits(Bitmap::from([true, false, true]), None).named("flag");
/// let rows = Export::batch([a, flag]).into_array().slice(1..);
///
/// let (a, flag) = (rows.column("a")?, rows.column("flag")?);
/// assert_eq!(a.values::<i32>()?, [9, 0]);
/// assert_eq!(a.validity()?.bits(), Some(Bits::new(&[0b01], 0, 2)));
/// assert_eq!(flag.bits()?, Bits::new(&[0b10], 0, 2));
/// assert!(flag.validity()?.bits().is_none());
/// assert_eq!(
///     a.values::<i64>().unwrap_err().to_string(),
///     "column \"a\": format \"i\" isn't that of values of i64"
/// );
/// # Ok::<(), vortex_bits::arrow::ArrowError>(())
/// ```
#[derive(Clone)]
pub struct Array {
    pub(super) node: Node,
    /// The number of items in the buffers before the first row.
    pub(super) start: usize,
    /// The number of rows. They are items of the node.
    pub(super) len: usize,
}

impl Array {
    /// Takes over an array and its type, as a consumer of the interface does. Leaves both structs
    /// released, even on an error. The array is released when its last part is dropped.
    ///
    /// Tests each number that can be tested. Reads no values, except the end of the last run of
    /// run-end-encoded arrays.
    ///
    /// # Errors
    ///
    /// Returns [`ArrowError::Malformed`] if a struct isn't as the interface requires, or if the
    /// type has more than 64 levels. Both structs are then released.
    ///
    /// # Safety
    ///
    /// Each pointer is null, or leads to a struct that may be read and written. The struct is
    /// released or is as the interface requires: each pointer in it is null or leads to as much
    /// memory as the numbers say. That memory stays, and no one writes it, until the struct is
    /// released. The callbacks may be called on any thread, and no one else calls them.
    pub unsafe fn from_raw(
        array: *mut ArrowArray,
        schema: *mut ArrowSchema,
    ) -> Result<Array, ArrowError> {
        // SAFETY: the caller promises it.
        let (array, schema) = unsafe { (Owned::take(array), Owned::take(schema)) };
        // SAFETY: the caller promises it.
        let field = unsafe { Field::read(schema.get(), 0)? };
        // SAFETY: the caller promises it.
        unsafe { Array::of(array, &Arc::new(field), unknown) }
    }

    /// # Safety
    ///
    /// As for [`Array::from_raw`], and `origin` may be called with each array of the tree.
    pub(super) unsafe fn of(
        array: Owned<ArrowArray>,
        field: &Arc<Field>,
        origin: OriginOf,
    ) -> Result<Array, ArrowError> {
        // SAFETY: the caller promises it; the node keeps the array.
        let node = unsafe { Node::owned(array, field, origin)? };
        Ok(Array::whole(node.as_ref()))
    }

    pub(super) fn whole(node: NodeRef<'_>) -> Array {
        Array {
            start: node.offset,
            len: node.len,
            node: node.to_node(),
        }
    }

    /// Returns the name and the type.
    #[must_use]
    pub fn field(&self) -> &Field {
        &self.node.field
    }

    /// Returns the number of rows.
    #[inline]
    #[must_use]
    pub fn len(&self) -> usize {
        self.len
    }

    /// Returns whether there are no rows.
    #[inline]
    #[must_use]
    pub fn is_empty(&self) -> bool {
        self.len == 0
    }

    /// Returns which rows are valid. A valid row may still belong to a null row of a struct:
    /// combine both validities with `and` to learn which rows are present. If the column has a
    /// dictionary, a valid row may name a null item:
    /// [`dictionary_validity`](Array::dictionary_validity) returns which rows name valid ones.
    ///
    /// If the array says that it has no null (`null_count` is 0), its validity bits are ignored, as
    /// Arrow allows, and [`Export::from`](super::Export) exports both unchanged. If a producer's 0
    /// is wrong, the nulls are lost.
    ///
    /// ```
    /// use vortex_bits::arrow::{Array, Export};
    ///
    /// let gap = Export::values([1i8, 0], Some([true, false].into()));
    /// let (mut array, mut schema) = gap.into_raw();
    /// array.null_count = 0;
    /// // SAFETY: both are as the interface requires, except for the number of nulls.
    /// let wrong = unsafe { Array::from_raw(&raw mut array, &raw mut schema)? };
    /// assert!(wrong.validity()?.bits().is_none());
    /// # Ok::<(), vortex_bits::arrow::ArrowError>(())
    /// ```
    ///
    /// # Errors
    ///
    /// Returns [`ArrowError::Type`] if the type is null, a union or run-end encoded: these arrays
    /// have no validity bits.
    #[inline]
    pub fn validity(&self) -> Result<Validity<'_>, ArrowError> {
        if !self.node.field.layout.has_validity() {
            return Err(self.is_not("of arrays that have a validity"));
        }
        let has_bits = !self.node.validity.is_null();
        let bits = has_bits.then(|| {
            // SAFETY: there is a bit for each item.
            unsafe { self.bits_of(self.node.validity) }
        });
        Ok(Validity::new(bits, self.len))
    }

    /// Returns the number of null rows: all rows of an array of the null type. For other types it
    /// is the producer's count if that is 0, or if there is one and these are all rows of the
    /// array; otherwise the call counts the validity bits. Rows that name a null item of a
    /// dictionary are not counted.
    ///
    /// # Errors
    ///
    /// Returns the errors of [`validity`](Array::validity) if it has to count bits.
    pub fn null_count(&self) -> Result<usize, ArrowError> {
        if self.node.field.layout == Layout::Nulls {
            return Ok(self.len);
        }
        match self.node.nulls_of(self.len) {
            Some(nulls) => Ok(nulls),
            None => self.validity().map(Validity::count_zeros),
        }
    }

    /// Returns the bits of an array of truth values. The bits of null rows are arbitrary.
    ///
    /// # Errors
    ///
    /// Returns [`ArrowError::Type`] if the array has another type.
    #[inline]
    pub fn bits(&self) -> Result<Bits<'_>, ArrowError> {
        match self.node.field.layout {
            // SAFETY: there is a bit for each item.
            Layout::Bits => Ok(unsafe { self.bits_of(self.node.values) }),
            _ => Err(self.is_not("that of truth values")),
        }
    }

    /// Returns the rows' bits in a buffer.
    ///
    /// # Safety
    ///
    /// The buffer has one bit per item of the node, or is null if there are no items.
    #[inline]
    unsafe fn bits_of(&self, buffer: *const u8) -> Bits<'_> {
        if self.len == 0 {
            return Bits::default();
        }
        let (first, end) = (self.start / 8, (self.start + self.len).div_ceil(8));
        // SAFETY: these are bytes of the items from the first row to the last one.
        let bytes = unsafe { slice::from_raw_parts(buffer.add(first), end - first) };
        Bits::new(bytes, self.start % 8, self.len)
    }

    /// Returns the values, or the indices if the array has a dictionary. Those of null rows are
    /// arbitrary. [`Primitive`] lists the types of values that each array has.
    ///
    /// # Errors
    ///
    /// Returns [`ArrowError::Type`] if the array has another type, and [`ArrowError::Unaligned`] if
    /// the buffer isn't aligned for the values.
    #[inline]
    pub fn values<T: Primitive>(&self) -> Result<&[T], ArrowError> {
        self.has_values::<T>()?;
        if self.len > 0 && !self.node.values.cast::<T>().is_aligned() {
            return Err(ArrowError::Unaligned {
                column: self.name(),
                alignment: align_of::<T>(),
            });
        }
        // SAFETY: there is a value for each item, the buffer is aligned for them, and any bytes are
        // valid values.
        Ok(unsafe { self.items_of(self.len) })
    }

    /// Returns the values of a buffer with any alignment. Decimals can be read as `i128` this way.
    ///
    /// ```
    /// use vortex_bits::arrow::Export;
    ///
    /// let prices = Export::values(vec![1250i128, -3], None).into_array();
    /// assert_eq!(prices.unaligned::<i128>()?.iter().sum::<i128>(), 1247);
    /// assert_eq!(prices.field().format(), "d:38,0");
    /// # Ok::<(), vortex_bits::arrow::ArrowError>(())
    /// ```
    ///
    /// # Errors
    ///
    /// Returns [`ArrowError::Type`] if the array has another type.
    pub fn unaligned<T: Primitive>(&self) -> Result<Unaligned<'_, T>, ArrowError> {
        self.has_values::<T>()?;
        // SAFETY: there is a value for each item.
        let bytes = unsafe { self.bytes_of(self.len, size_of::<T>()) };
        Ok(Unaligned::new(bytes, self.len))
    }

    /// Returns `number` values from the first row on.
    ///
    /// # Safety
    ///
    /// The buffer of the values has this number of values of type `T`, and is aligned for them.
    #[inline]
    unsafe fn items_of<T>(&self, number: usize) -> &[T] {
        if number * size_of::<T>() == 0 {
            // SAFETY: they take no bytes.
            return unsafe { slice::from_raw_parts(ptr::dangling(), number) };
        }
        let values = self.node.values.cast::<T>();
        // SAFETY: the caller promises it; up to the last item they take at most `isize::MAX` bytes.
        unsafe { slice::from_raw_parts(values.add(self.start), number) }
    }

    /// Returns the bytes of `number` values from the first row on, `width` bytes each.
    ///
    /// # Safety
    ///
    /// The buffer of the values has this number of them.
    unsafe fn bytes_of(&self, number: usize, width: usize) -> &[u8] {
        let size = number * width;
        if size == 0 {
            return &[];
        }
        // SAFETY: these are bytes of values, at most `isize::MAX` of them.
        unsafe { slice::from_raw_parts(self.node.values.add(self.start * width), size) }
    }

    /// Returns the bytes of fixed-width values, or of views; no bytes for other types.
    pub(super) fn value_bytes(&self) -> &[u8] {
        let width = match self.node.field.layout {
            Layout::Fixed(_, width) => width,
            Layout::Views => size_of::<View>(),
            _ => return &[],
        };
        // SAFETY: there is a value or a view for each item.
        unsafe { self.bytes_of(self.len, width) }
    }

    #[inline]
    fn has_values<T: Primitive>(&self) -> Result<(), ArrowError> {
        if T::is_in(self.node.field.layout) {
            return Ok(());
        }
        Err(self.is_not(T::WANTED))
    }

    /// Returns the column with this name, the first one if several have it. Its rows are those of
    /// the struct.
    ///
    /// # Errors
    ///
    /// Returns [`ArrowError::Type`] if the array isn't a struct, and [`ArrowError::NoColumn`] if no
    /// column has the name.
    pub fn column(&self, name: &str) -> Result<Array, ArrowError> {
        self.has_columns()?;
        // The names are those of the field, so that only the node of this column is read.
        let found = self.field().fields().position(|it| it.name == name);
        let place = found.ok_or_else(|| ArrowError::NoColumn { name: name.into() })?;
        Ok(self.part(place))
    }

    /// Returns the columns of a struct, in their order. Each has the rows of the struct.
    ///
    /// # Errors
    ///
    /// Returns [`ArrowError::Type`] if the array isn't a struct.
    pub fn columns(&self) -> Result<impl ExactSizeIterator<Item = Array> + '_, ArrowError> {
        self.has_columns()?;
        Ok(self.parts())
    }

    fn has_columns(&self) -> Result<(), ArrowError> {
        match self.node.field.layout {
            Layout::Struct => Ok(()),
            _ => Err(self.is_not("that of a struct")),
        }
    }

    /// Returns the children. Those of a struct or a sparse union have only these rows; those of
    /// other types are whole.
    pub(super) fn parts(&self) -> impl ExactSizeIterator<Item = Array> + '_ {
        let has_rows = self.children_have_rows();
        let children = self.node.as_ref().children();
        children.map(move |child| self.part_of(child, has_rows))
    }

    /// Returns the child at an index as [`parts`](Array::parts) does.
    ///
    /// # Panics
    ///
    /// Panics if there is no such child.
    pub(super) fn part(&self, place: usize) -> Array {
        self.part_of(self.node.as_ref().child(place), self.children_have_rows())
    }

    /// Asks for the memory of a few rows of all columns, which a call then copies one column after
    /// the other.
    pub(super) fn ask_for(&self, rows: &[usize]) {
        /// Loads of more rows of a column overlap by themselves.
        const FEW: usize = 64;
        if rows.len() > FEW {
            return;
        }
        for column in self.node.as_ref().children() {
            let (start, width) = (column.offset + self.start, column.field.layout.widest().0);
            let is_bits = column.field.layout == Layout::Bits;
            for row in rows.iter().map(|row| start + row) {
                let place = if is_bits { row / 8 } else { row * width };
                prefetch::line(column.values.wrapping_add(place));
                prefetch::line(column.validity.wrapping_add(row / 8));
            }
        }
    }

    fn children_have_rows(&self) -> bool {
        match self.node.field.layout {
            Layout::Union { is_sparse, .. } => is_sparse,
            layout => layout == Layout::Struct,
        }
    }

    #[inline]
    fn part_of(&self, child: NodeRef<'_>, has_rows: bool) -> Array {
        if !has_rows {
            return Array::whole(child);
        }
        Array {
            node: child.to_node(),
            start: child.offset + self.start,
            len: self.len,
        }
    }

    /// Returns the items of the dictionary; None if the values aren't indices of one. The index of
    /// a null row may be any number: [`values::take_valid`](crate::values::take_valid),
    /// [`dictionary_values`](Array::dictionary_values) and
    /// [`dictionary_texts`](Array::dictionary_texts) ignore it.
    #[must_use]
    pub fn dictionary(&self) -> Option<Array> {
        self.node.as_ref().dictionary().map(Array::whole)
    }

    /// Returns the rows of a range, which share the array. Does not allocate.
    ///
    /// # Panics
    ///
    /// Panics if the range starts after its end, or ends after the rows.
    #[must_use]
    #[track_caller]
    pub fn slice(&self, range: impl RangeBounds<usize>) -> Array {
        expect(self.try_slice(range))
    }

    /// Returns the rows of a range, as [`Array::slice`] does.
    ///
    /// # Errors
    ///
    /// Returns [`OutOfBounds`] if the range starts after its end, or ends after the rows.
    pub fn try_slice(&self, range: impl RangeBounds<usize>) -> Result<Array, OutOfBounds> {
        let (start, len) = within(&range, self.len).map_err(OutOfBounds::of_rows)?;
        Ok(Array {
            node: self.node.clone(),
            start: self.start + start,
            len,
        })
    }

    fn name(&self) -> String {
        self.node.field.name.clone()
    }

    #[cold]
    pub(super) fn malformed(&self, fault: Fault) -> ArrowError {
        ArrowError::Malformed {
            column: self.name(),
            fault,
        }
    }

    /// Returns the error of indices at which rows or items can't be taken.
    #[cold]
    pub(super) fn not_taken(&self, error: TakeValuesError) -> ArrowError {
        ArrowError::Take {
            column: self.name(),
            error,
        }
    }

    #[cold]
    pub(super) fn is_not(&self, wanted: &'static str) -> ArrowError {
        ArrowError::Type {
            column: self.name(),
            format: self.node.field.format.clone(),
            wanted,
        }
    }
}

impl fmt::Debug for Array {
    fn fmt(&self, f: &mut fmt::Formatter<'_>) -> fmt::Result {
        let field = self.field();
        f.debug_struct("Array")
            .field("name", &field.name)
            .field("format", &field.format)
            .field("len", &self.len)
            .finish_non_exhaustive()
    }
}
