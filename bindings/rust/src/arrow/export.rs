//! Exports bits and values as arrays.

mod dictionary;
mod format;
mod growing;
mod held;
mod select;
mod structs;
mod texts;

use alloc::sync::Arc;
use alloc::vec::Vec;
use core::any::Any;
use core::ffi::c_void;
use core::fmt;
use core::ptr;

use super::array::Array;
use super::difference::{Between, difference};
use super::error::ArrowError;
use super::ffi::{ArrowArray, ArrowSchema, Below, Owned};
use super::field::Field;
use super::layout::Layout;
use super::node::{Node, NodeRef, unknown};
use super::primitive::Primitive;
use crate::Bitmap;
use crate::error::expect;

pub use growing::TextsMut;
pub(super) use held::origin;
use held::{Held, Kept};

/// The words for an array and for a field in an error.
const OF_ARRAY: Between = Between {
    rows: "the array",
    wanted: "the field",
    has_names: false,
};

/// An array of the Arrow C data interface over values or bits of this program, with its type, for
/// any consumer. Export copies no value, except texts: the array keeps the owner of the values
/// until it is released, by the consumer or, if no consumer took it, by dropping the `Export`. If
/// the owner then panics in its `drop`, the program aborts, because C has no panics.
///
/// ```
/// use vortex_bits::Bitmap;
/// use vortex_bits::arrow::{Array, Export};
///
/// let valid = Bitmap::from([true, false, true]);
/// let days = Export::values(vec![19_000i32, 0, 19_002], Some(valid)).with_format("tdD")?;
/// let (mut array, mut schema) = days.named("day").into_raw();
/// assert_eq!((array.length, array.null_count), (3, 1));
///
/// // A consumer takes over both structs behind the pointers, as this crate does:
/// // SAFETY: they are as the interface requires, and no one else has them.
/// let day = unsafe { Array::from_raw(&raw mut array, &raw mut schema)? };
/// assert_eq!(day.values::<i32>()?, [19_000, 0, 19_002]);
/// assert!(array.release.is_none() && schema.release.is_none());
/// # Ok::<(), vortex_bits::arrow::ArrowError>(())
/// ```
pub struct Export {
    array: Owned<ArrowArray>,
    field: Field,
    len: usize,
}

impl Export {
    /// Returns an array of values. `valid` has a bit per value, true if the value isn't null; None
    /// means that all are valid. The owner of the values may be a [`Vec`], or another one such as
    /// an `Arc<[T]>`. The bits of the validity are copied if the first one isn't the first of a
    /// byte, and left out if all are true.
    ///
    /// # Panics
    ///
    /// Panics if there isn't one bit per value, or if there are 2^63 values or more, which is
    /// possible for values of 0 bytes.
    #[must_use]
    #[track_caller]
    pub fn values<T: Primitive>(
        values: impl AsRef<[T]> + Send + Sync + 'static,
        valid: Option<Bitmap>,
    ) -> Export {
        // Moves the owner to its final address before it reads the address of the values.
        let kept = Arc::new(values);
        let values = (*kept).as_ref();
        let (len, pointer) = (values.len(), values.as_ptr().cast());
        assert!(i64::try_from(len).is_ok(), "{len} values");
        let format = T::format();
        let layout = Layout::of(&format).unwrap_or(Layout::Bits);
        let field = Field::of("", &format, layout);
        Export::column(field, len, 0, &[pointer], kept, valid)
    }

    /// Returns an array of truth values. `valid` has a bit per value, true if the value isn't null;
    /// None means that all are valid. The bits of the validity are copied if their first one and
    /// the first of the truth values aren't at the same bit of a byte, and left out if all are
    /// true.
    ///
    /// # Panics
    ///
    /// Panics if the two differ in length.
    #[must_use]
    #[track_caller]
    pub fn bits<B: AsRef<[u8]> + Send + Sync + 'static>(
        bits: Bitmap<B>,
        valid: Option<Bitmap>,
    ) -> Export {
        let kept = Arc::new(bits);
        let bits = kept.bits();
        let (len, offset, pointer) = (bits.len(), bits.offset() % 8, start_of(bits));
        Export::column(
            Field::of("", "b", Layout::Bits),
            len,
            offset,
            &[pointer],
            kept,
            valid,
        )
    }

    /// Returns a column with these buffers after that of the validity.
    #[track_caller]
    fn column(
        field: Field,
        len: usize,
        offset: usize,
        values: &[*const c_void],
        kept: Arc<dyn Any + Send + Sync>,
        valid: Option<Bitmap>,
    ) -> Export {
        let nulls = valid.as_ref().map_or(0, Bitmap::count_zeros);
        if let Some(valid) = &valid {
            let bits = valid.len();
            assert!(bits == len, "{bits} bits of validity for {len} values");
        }
        let valid = valid.filter(|_| nulls > 0).map(|it| from_bit(it, offset));
        let validity = valid
            .as_ref()
            .map_or(ptr::null(), |valid| start_of(valid.bits()));
        let held = Held {
            buffers: [validity].iter().chain(values).copied().collect(),
            below: Below::new(Vec::new()),
            kept: Kept::Column(kept, valid),
        };
        Export {
            array: held.array(len, Some(nulls), offset),
            field,
            len,
        }
    }

    /// Returns the same array with a name. If the name has a character 0, a consumer sees the part
    /// before the first one.
    #[must_use]
    pub fn named(mut self, name: &str) -> Export {
        self.field.name = name.into();
        self
    }

    /// Returns the same rows with the name, type, flags and metadata of a field, such as that of
    /// the column that they were computed from. It converts the type as
    /// [`with_format`](Export::with_format) does.
    ///
    /// ```
    /// use vortex_bits::arrow::{Export, Field};
    ///
    /// let day = Field::new("day", "tdD")?.nullable(false).with_metadata([("unit", "days")]);
    /// let days = Export::values(vec![19_000, 19_002], None).with_field(&day)?;
    /// assert_eq!(days.field(), &day);
    ///
    /// let gap = Export::values(vec![19_000, 0], Some([true, false].into())).with_field(&day);
    /// assert_eq!(
    ///     gap.unwrap_err().to_string(),
    ///     "column \"day\": the array has the number of nulls 1, the field none"
    /// );
    /// # Ok::<(), vortex_bits::arrow::ArrowError>(())
    /// ```
    ///
    /// # Errors
    ///
    /// Returns the errors of `with_format`, and [`ArrowError::Field`] if
    ///
    /// - a child or the dictionary has another type,
    /// - a row is null, and the rows' own type allows nulls but the field doesn't: nulls in
    ///   dictionaries, in the items of lists, runs and unions, and below null rows of a struct
    ///   count even if no row has them,
    /// - the field has any other flag that the rows don't have.
    pub fn with_field(self, field: &Field) -> Result<Export, ArrowError> {
        let typed = self.with_format(field.format())?;
        match difference(&typed, field, &OF_ARRAY)? {
            Some(difference) => Err(ArrowError::Field {
                column: field.name.clone(),
                difference,
            }),
            None => Ok(Export {
                field: field.clone(),
                ..typed
            }),
        }
    }

    /// Returns the name and the type.
    #[must_use]
    pub fn field(&self) -> &Field {
        &self.field
    }

    /// Returns the number of rows.
    #[must_use]
    pub fn len(&self) -> usize {
        self.len
    }

    /// Returns whether there are no rows.
    #[must_use]
    pub fn is_empty(&self) -> bool {
        self.len == 0
    }

    /// Returns the two structs. Their new owner has to release each, on any thread: they are plain
    /// data here, so their memory leaks if no one does.
    ///
    /// ```
    /// use vortex_bits::arrow::{ArrowArray, ArrowSchema, Export};
    ///
    /// /// A function of a plugin, for a caller in any language.
    /// ///
    /// /// # Safety
    /// ///
    /// /// Both structs may be written.
    /// unsafe extern "C" fn answer(array: *mut ArrowArray, schema: *mut ArrowSchema) {
    ///     let (values, of) = Export::values(vec![1i64, 2], None).named("answer").into_raw();
    ///     // SAFETY: the caller promises it.
    ///     unsafe { (array.write(values), schema.write(of)) };
    /// }
    /// # let (mut array, mut schema) = (ArrowArray::empty(), ArrowSchema::empty());
    /// # let answer = unsafe {
    /// #     answer(&raw mut array, &raw mut schema);
    /// #     vortex_bits::arrow::Array::from_raw(&raw mut array, &raw mut schema).unwrap()
    /// # };
    /// # assert_eq!(answer.values::<i64>().unwrap(), [1, 2]);
    /// ```
    #[must_use]
    pub fn into_raw(self) -> (ArrowArray, ArrowSchema) {
        let schema = self.field.schema();
        (self.array.into_raw(), schema.into_raw())
    }

    /// Returns the array without its type.
    pub(super) fn into_owned(self) -> Owned<ArrowArray> {
        self.array
    }

    /// Calls `read` with the array, and returns its result. `read` keeps no part of the array.
    pub(super) fn look<T>(
        &self,
        read: impl FnOnce(&Array) -> Result<T, ArrowError>,
    ) -> Result<T, ArrowError> {
        let field = Arc::new(self.field.clone());
        // SAFETY: the array is as the interface requires, and lives longer than the node.
        let node = unsafe { Node::borrowed(self.array.get(), &field, unknown)? };
        read(&Array::whole(node.as_ref()))
    }

    /// Returns the array as an imported one, for readers of this crate.
    ///
    /// # Panics
    ///
    /// Panics if [`try_into_array`](Export::try_into_array) returns an error.
    #[must_use]
    #[track_caller]
    pub fn into_array(self) -> Array {
        expect(self.try_into_array())
    }

    /// Returns the array as an imported one, for readers of this crate.
    ///
    /// ```
    /// use vortex_bits::arrow::Export;
    ///
    /// let values = || Export::values([1u8], None);
    /// let nested = |levels| (1..levels).fold(values(), |it, _| Export::batch([it]));
    /// assert_eq!(nested(64).try_into_array()?.len(), 1);
    /// assert_eq!(
    ///     nested(65).try_into_array().unwrap_err().to_string(),
    ///     "it has 64 levels of children or more"
    /// );
    /// # Ok::<(), vortex_bits::arrow::ArrowError>(())
    /// ```
    ///
    /// # Errors
    ///
    /// Returns [`ArrowError::Malformed`] if the type has more than 64 levels: its own, and those of
    /// its children and dictionaries. [`into_raw`](Export::into_raw) exports these, but this crate
    /// doesn't read them.
    pub fn try_into_array(self) -> Result<Array, ArrowError> {
        self.field.is_shallow()?;
        // SAFETY: the array is as the interface requires, and this is its only owner. `Held::array`
        // made each array of the tree.
        unsafe { Array::of(self.array, &Arc::new(self.field), origin) }
    }
}

/// Exports the rows unchanged, of any type, such as a column that a query forwards or a slice of a
/// batch. The export shares the array with its clones, columns and slices, and the last of them
/// releases it. If `from_raw` imports each export
/// of a chain, all arrays stay, and a chain of thousands overflows the stack when it is dropped.
///
/// ```
/// use vortex_bits::arrow::Export;
///
/// let a = Export::values(vec![1i64, 2, 3], None).named("a");
/// let rows = Export::batch([a]).into_array();
/// let last = Export::from(rows.slice(1..)).into_array();
/// assert_eq!(last.column("a")?.values::<i64>()?, [2, 3]);
/// # Ok::<(), vortex_bits::arrow::ArrowError>(())
/// ```
///
/// The array of a slice has the offset of its first row, as the interface allows. Some readers
/// ignore offsets, such as GDAL's for numpy: copy the values of a slice for them.
///
/// # Panics
///
/// Panics if [`Array::try_into_export`] returns an error.
impl From<Array> for Export {
    #[track_caller]
    fn from(array: Array) -> Export {
        expect(array.try_into_export())
    }
}

impl Array {
    /// Exports the rows unchanged, of any type, as `Export::from(array)` does.
    ///
    /// ```
    /// use vortex_bits::arrow::Export;
    ///
    /// let names = Export::texts(["a", "b"], None).into_array();
    /// assert_eq!(names.slice(1..).try_into_export()?.len(), 1);
    /// # Ok::<(), vortex_bits::arrow::ArrowError>(())
    /// ```
    ///
    /// # Errors
    ///
    /// Returns [`ArrowError::Malformed`] if the rows are a slice of malformed texts or lists: the
    /// slice ends after the last row of the whole array, so a consumer would read out of bounds.
    pub fn try_into_export(self) -> Result<Export, ArrowError> {
        self.ends_with_all()?;
        Ok(Export {
            array: shared(self.node.as_ref(), self.start, self.len),
            field: self.field().clone(),
            len: self.len,
        })
    }
}

/// Returns `len` items of a node from `start` on, with its whole children and dictionary.
fn shared(node: NodeRef<'_>, start: usize, len: usize) -> Owned<ArrowArray> {
    let whole = |node: NodeRef<'_>| shared(node, node.offset, node.len);
    let mut below = Below::new(node.children().map(whole).collect());
    if let Some(dictionary) = node.dictionary() {
        below.set_dictionary(whole(dictionary));
    }
    let held = Held {
        buffers: node.buffers.clone(),
        below,
        kept: Kept::Node(node.keeper().to_node()),
    };
    held.array(len, node.nulls_of(len), start)
}

impl fmt::Debug for Export {
    fn fmt(&self, f: &mut fmt::Formatter<'_>) -> fmt::Result {
        f.debug_struct("Export")
            .field("field", &self.field)
            .field("len", &self.len)
            .finish_non_exhaustive()
    }
}

/// Returns the address of the byte that has the first bit.
fn start_of(bits: crate::Bits<'_>) -> *const c_void {
    bits.bytes()[bits.offset() / 8..].as_ptr().cast()
}

/// Returns the bits with the first one at bit `place` of its byte. Copies them if it is elsewhere.
fn from_bit(bits: Bitmap, place: usize) -> Bitmap {
    if bits.bits().offset() % 8 == place {
        return bits;
    }
    let len = place + bits.len();
    let copy = Bitmap::make(len, |mut out| out.slice(place..).copy_from(bits.bits()));
    copy.slice(place..)
}

/// Converts a number of items or bits in memory.
pub(super) fn number(usize: usize) -> i64 {
    i64::try_from(usize).unwrap_or(i64::MAX)
}
