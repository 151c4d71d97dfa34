//! The name and the type that all arrays of a column share.

mod metadata;

use alloc::borrow::ToOwned;
use alloc::string::{String, ToString};
use alloc::sync::Arc;
use alloc::vec::Vec;
use core::ffi::{CStr, c_char};
use core::ptr::NonNull;

use super::error::{ArrowError, Fault};
use super::ffi::ArrowSchema;
use super::layout::{self, Layout, Of};

/// The greatest number of levels that this crate reads: a type's own, and those of its children and
/// dictionaries.
pub(super) const DEPTH: usize = 64;
/// The greatest number of children of a type. Other readers count them with 32 bits.
const MOST_CHILDREN: usize = i32::MAX as usize;
/// The flag of columns that may have nulls.
pub(super) const NULLABLE: i64 = 2;
/// The flag of maps whose keys are sorted.
pub(super) const SORTED: i64 = 4;

/// The name and the type of a column. It has its own copy of all that an `ArrowSchema` says.
///
/// Clones of a field share its children. A comparison, an export and the text of `Debug` still
/// visit a child once for each path to it. A type of thousands of levels overflows the stack there,
/// and when it is dropped.
///
/// ```
/// use vortex_bits::arrow::Field;
///
/// let rows = Field::batch([Field::new("a", "i")?, Field::new("b", "l")?]);
/// assert_eq!((rows.format(), rows.fields().len()), ("+s", 2));
/// assert_eq!(Field::new("a", "int").unwrap_err().to_string(), "no type has the format \"int\"");
/// # Ok::<(), vortex_bits::arrow::ArrowError>(())
/// ```
#[derive(Clone, Debug, PartialEq, Eq)]
pub struct Field {
    pub(super) name: String,
    pub(super) format: String,
    pub(super) layout: Layout,
    pub(super) flags: i64,
    /// In the layout of the interface; empty if there is none.
    pub(super) metadata: Vec<u8>,
    pub(super) children: Vec<Arc<Field>>,
    pub(super) dictionary: Option<Arc<Field>>,
    /// The number of levels: one more than the children and the dictionary have. It is stored
    /// because a walk visits a shared child once for each path to it.
    pub(super) levels: usize,
}

impl Field {
    /// Returns a column of values, truth values or texts. `format` is the interface's name of the
    /// type: `i` for `i32`, `tdD` for days, `d:19,2` for decimals, `vu` for views of texts. The
    /// column may have nulls; [`nullable`](Field::nullable) changes that.
    ///
    /// # Errors
    ///
    /// Returns [`ArrowError::Malformed`] with [`Fault::Format`] if `format` names no such type.
    pub fn new(name: &str, format: &str) -> Result<Field, ArrowError> {
        match Layout::of(format) {
            Some(
                layout @ (Layout::Bits
                | Layout::Fixed(..)
                | Layout::Ranges(_, Of::Bytes)
                | Layout::Views),
            ) => Ok(Field::of(name, format, layout)),
            _ => Err(Fault::Format(format.to_owned()).into()),
        }
    }

    /// Returns the same column with a dictionary of these items. Its values are then indices of
    /// items, as [`Export::with_dictionary`](super::Export::with_dictionary) makes them.
    ///
    /// ```
    /// use vortex_bits::arrow::{Export, ExportStream, Field};
    ///
    /// let words = Field::new("", "U")?;
    /// let answer = Field::new("answer", "c")?.with_dictionary(words)?;
    /// let stream = ExportStream::new(Field::batch([answer]), []).into_stream()?;
    /// let answer = stream.field().fields().next().unwrap();
    /// assert_eq!((answer.format(), answer.dictionary().unwrap().format()), ("c", "U"));
    ///
    /// let rows = Export::values(vec![0i8], None).named("answer");
    /// let rows = rows.with_dictionary(Export::texts(["no", "yes"], None))?;
    /// assert_eq!(rows.field(), answer);
    /// # Ok::<(), vortex_bits::arrow::ArrowError>(())
    /// ```
    ///
    /// # Errors
    ///
    /// Returns [`ArrowError::Malformed`] with [`Fault::Dictionary`] if the values aren't integers
    /// of 8 to 64 bits, or have a dictionary already.
    pub fn with_dictionary(mut self, items: Field) -> Result<Field, ArrowError> {
        if !layout::is_index(&self.format) || self.dictionary.is_some() {
            return Err(Fault::Dictionary.into());
        }
        self.set_dictionary(items);
        Ok(self)
    }

    pub(super) fn set_dictionary(&mut self, items: Field) {
        self.levels = self.levels.max(1 + items.levels);
        self.dictionary = Some(Arc::new(items));
    }

    /// Returns the same column, which may have nulls or may not.
    ///
    /// ```
    /// use vortex_bits::arrow::Field;
    ///
    /// let number = Field::new("number", "l")?;
    /// assert!(number.is_nullable() && !number.nullable(false).is_nullable());
    /// # Ok::<(), vortex_bits::arrow::ArrowError>(())
    /// ```
    #[must_use]
    pub fn nullable(mut self, may_have_nulls: bool) -> Field {
        self.flags &= !NULLABLE;
        self.flags |= if may_have_nulls { NULLABLE } else { 0 };
        self
    }

    /// Returns the same column, which may have nulls. Run-end-encoded columns have the nulls in
    /// their values, and unions in their first child: these may then have nulls too.
    pub(super) fn or_null(mut self) -> Field {
        let values = match self.layout {
            Layout::Runs => self.children.get_mut(1),
            Layout::Union { .. } => self.children.first_mut(),
            _ => None,
        };
        if let Some(values) = values {
            *values = Arc::new(Field::clone(values).or_null());
        }
        self.nullable(true)
    }

    pub(super) fn of(name: &str, format: &str, layout: Layout) -> Field {
        Field {
            name: name.to_owned(),
            format: format.to_owned(),
            layout,
            flags: NULLABLE,
            metadata: Vec::new(),
            children: Vec::new(),
            dictionary: None,
            levels: 1,
        }
    }

    /// Returns the type of a batch, a struct of these columns, without a name and without nulls.
    /// Columns that are clones of one field are exported one by one: a type with two clones of the
    /// next level at each of `n` levels takes time and memory for 2^n columns.
    #[must_use]
    pub fn batch(columns: impl IntoIterator<Item = Field>) -> Field {
        let children: Vec<_> = columns.into_iter().map(Arc::new).collect();
        Field {
            flags: 0,
            levels: levels(&children, None),
            children,
            ..Field::of("", "+s", Layout::Struct)
        }
    }

    /// Returns the name; empty if there is none.
    #[must_use]
    pub fn name(&self) -> &str {
        &self.name
    }

    /// Returns the type, as the interface names it. For a column with a dictionary it is the type
    /// of the indices.
    #[must_use]
    pub fn format(&self) -> &str {
        &self.format
    }

    /// Returns whether rows may be null.
    #[must_use]
    pub fn is_nullable(&self) -> bool {
        self.flags & NULLABLE != 0
    }

    /// Returns the fields of the children, in their order.
    pub fn fields(&self) -> impl ExactSizeIterator<Item = &Field> {
        self.children.iter().map(AsRef::as_ref)
    }

    /// Returns the child with this name, the first one if several have it. With this call an
    /// operator can look up a column in the type of a stream and forward its field.
    ///
    /// ```
    /// use vortex_bits::arrow::Field;
    ///
    /// let rows = Field::batch([Field::new("a", "u")?, Field::new("b", "l")?]);
    /// assert_eq!(rows.column("b")?.format(), "l");
    /// assert_eq!(rows.column("c").unwrap_err().to_string(), "no column \"c\"");
    /// # Ok::<(), vortex_bits::arrow::ArrowError>(())
    /// ```
    ///
    /// # Errors
    ///
    /// Returns [`ArrowError::NoColumn`] if no child has the name.
    pub fn column(&self, name: &str) -> Result<&Field, ArrowError> {
        let found = self.fields().find(|field| field.name == name);
        found.ok_or_else(|| ArrowError::NoColumn { name: name.into() })
    }

    /// Tests that the type has no more than [`DEPTH`] levels.
    pub(super) fn is_shallow(&self) -> Result<(), Fault> {
        if self.levels > DEPTH {
            return Err(Fault::Deep(DEPTH));
        }
        Ok(())
    }

    /// Returns the field of the dictionary's items; None if there is no dictionary.
    #[must_use]
    pub fn dictionary(&self) -> Option<&Field> {
        self.dictionary.as_deref()
    }

    /// Returns the name of a child in an error: its name, or its index if it has none.
    pub(super) fn name_of(&self, child: usize) -> String {
        name_of(&self.children, child)
    }

    fn says_where_runs_end(&self) -> Result<(), ArrowError> {
        if layout::is_run_end(&self.format) && self.dictionary.is_none() {
            return Ok(());
        }
        Err(Fault::RunEnds(self.format.clone()).into())
    }

    /// Reads a schema that is `depth` levels below the outermost one.
    ///
    /// # Safety
    ///
    /// The schema is released, or is as the interface requires: each of its pointers is null or
    /// leads to an object of its type, and `children` to `n_children` pointers.
    pub(super) unsafe fn read(schema: &ArrowSchema, depth: usize) -> Result<Field, ArrowError> {
        if schema.release.is_none() {
            return Err(Fault::Released("ArrowSchema").into());
        }
        if depth == DEPTH {
            return Err(Fault::Deep(DEPTH).into());
        }
        // SAFETY: they are null or texts that end with 0.
        let (format, name) = unsafe { (text(schema.format, "format")?, name(schema.name)?) };
        // SAFETY: it is null or has the layout of the interface.
        let metadata = unsafe { metadata::read(schema.metadata.cast())? };
        let layout = Layout::of(&format).ok_or_else(|| Fault::Format(format.clone()))?;
        // SAFETY: the caller promises it.
        let (children, dictionary) =
            unsafe { (children(schema, layout, depth)?, dictionary(schema, depth)?) };
        if dictionary.is_some() && !layout::is_index(&format) {
            return Err(Fault::Dictionary.into());
        }
        if let (Layout::Runs, Some(ends)) = (layout, children.first()) {
            ends.says_where_runs_end()
                .map_err(|error| error.under(&name_of(&children, 0)))?;
        }
        Ok(Field {
            name,
            format,
            layout,
            flags: schema.flags,
            metadata,
            levels: levels(&children, dictionary.as_ref()),
            children,
            dictionary,
        })
    }
}

/// Returns the number of levels of a type with these children and this dictionary.
fn levels(children: &[Arc<Field>], dictionary: Option<&Arc<Field>>) -> usize {
    let below = children.iter().chain(dictionary);
    1 + below.map(|field| field.levels).max().unwrap_or(0)
}

fn name_of(children: &[Arc<Field>], child: usize) -> String {
    match children.get(child) {
        Some(field) if !field.name.is_empty() => field.name.clone(),
        _ => child.to_string(),
    }
}

/// # Safety
///
/// As for [`Field::read`].
unsafe fn children(
    schema: &ArrowSchema,
    layout: Layout,
    depth: usize,
) -> Result<Vec<Arc<Field>>, ArrowError> {
    let number = count("n_children", schema.n_children, layout.children())?;
    let mut children = Vec::new();
    if number > MOST_CHILDREN || children.try_reserve_exact(number).is_err() {
        return Err(Fault::OutOfRange("n_children", schema.n_children).into());
    }
    for place in 0..number {
        // SAFETY: there are `number` children.
        let child = unsafe { nth_child(schema, place, depth + 1)? };
        children.push(Arc::new(child));
    }
    Ok(children)
}

/// Reads a child. An error has its name, or its index if no name can be read.
///
/// # Safety
///
/// As for [`Field::read`], and there are more than `place` children.
unsafe fn nth_child(schema: &ArrowSchema, place: usize, depth: usize) -> Result<Field, ArrowError> {
    // SAFETY: the caller promises it; the child belongs to the parent, which isn't released.
    unsafe {
        let schema = child(schema.children, place)
            .map_err(|fault| ArrowError::from(fault).under(&place.to_string()))?
            .as_ref();
        Field::read(schema, depth).map_err(|error| match own_name(schema) {
            Some(name) => error.under(&name),
            None => error.under(&place.to_string()),
        })
    }
}

/// Returns the name in a schema; None if there is none, or none that can be read.
///
/// # Safety
///
/// As for [`Field::read`].
unsafe fn own_name(schema: &ArrowSchema) -> Option<String> {
    // The name of a released schema may be gone.
    schema.release?;
    // SAFETY: the caller promises it.
    let name = unsafe { name(schema.name) };
    name.ok().filter(|name| !name.is_empty())
}

/// # Safety
///
/// As for [`Field::read`].
unsafe fn dictionary(schema: &ArrowSchema, depth: usize) -> Result<Option<Arc<Field>>, ArrowError> {
    let Some(dictionary) = NonNull::new(schema.dictionary) else {
        return Ok(None);
    };
    // SAFETY: the caller promises it.
    let field = unsafe { Field::read(dictionary.as_ref(), depth + 1) };
    field
        .map(|field| Some(Arc::new(field)))
        .map_err(|error| error.under("dictionary"))
}

/// Returns a number of a struct as a `usize`, after a test that it is `wanted` if the type fixes
/// it.
pub(super) fn count(of: &'static str, got: i64, wanted: Option<i64>) -> Result<usize, Fault> {
    match wanted {
        Some(wanted) if wanted != got => Err(Fault::Number { of, wanted, got }),
        _ => usize::try_from(got).map_err(|_| Fault::OutOfRange(of, got)),
    }
}

/// Returns the child at an index.
///
/// # Safety
///
/// The pointer is null, or leads to more than `place` pointers.
pub(super) unsafe fn child<S>(children: *mut *mut S, place: usize) -> Result<NonNull<S>, Fault> {
    let children = NonNull::new(children).ok_or(Fault::Null("children"))?;
    // SAFETY: the caller promises it.
    NonNull::new(unsafe { *children.as_ptr().add(place) }).ok_or(Fault::Null("a child"))
}

/// # Safety
///
/// The pointer is null, or leads to a text that ends with 0.
unsafe fn text(pointer: *const c_char, what: &'static str) -> Result<String, Fault> {
    if pointer.is_null() {
        return Err(Fault::Null(what));
    }
    // SAFETY: the caller promises it.
    let text = unsafe { CStr::from_ptr(pointer) }.to_str();
    text.map(str::to_owned).map_err(|_| Fault::Utf8(what))
}

/// # Safety
///
/// As for [`text`].
unsafe fn name(pointer: *const c_char) -> Result<String, Fault> {
    if pointer.is_null() {
        return Ok(String::new());
    }
    // SAFETY: the caller promises it.
    unsafe { text(pointer, "name") }
}
