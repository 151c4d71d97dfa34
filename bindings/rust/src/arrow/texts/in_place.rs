//! Predicates over texts that write the mask of a `where` in place.

use super::Texts;
use super::predicates::GROUP;
use super::test::{Contains, EndsWith, Equals, LessThan, StartsWith, Test};
use super::wanted::Wanted;
use crate::BitsMut;
use crate::bits_mut::alike;
use crate::portable::only_word;
use crate::written::Written;

/// Predicates that unset the bits of the rows in a mask that fail them. The result is that of `&=`
/// with the bitmap of the predicate with the same name without `and_`, but no bitmap is allocated:
/// all terms of an `and` write one mask. They don't read a group of 64 rows without a set bit. A
/// null row passes no predicate, so its bit is unset.
///
/// # Panics
///
/// Each panics if the mask doesn't have one bit per row.
impl Texts<'_> {
    /// Unsets the bits of rows that don't have exactly these bytes.
    ///
    /// ```
    /// use vortex_bits::Bitmap;
    /// use vortex_bits::arrow::Export;
    ///
    /// let names = Export::texts_or_nulls([Some("a"), None, Some("bc"), Some("bc")]).into_array();
    /// let mut rows = Bitmap::from([true, true, true, false]);
    /// names.texts()?.and_equals("bc", rows.bits_mut());
    /// assert_eq!(rows, Bitmap::from([false, false, true, false]));
    /// # Ok::<(), vortex_bits::arrow::ArrowError>(())
    /// ```
    #[track_caller]
    pub fn and_equals(&self, text: impl AsRef<[u8]>, mask: BitsMut<'_>) {
        self.and_test(mask, &Equals::new(text.as_ref()));
    }

    /// Unsets the bits of rows that don't come before a text in the order of their bytes.
    ///
    /// ```
    /// use vortex_bits::Bitmap;
    /// use vortex_bits::arrow::Export;
    ///
    /// let names = Export::texts_or_nulls([Some("a"), None, Some("bc"), Some("c")]).into_array();
    /// let mut rows = Bitmap::from([true, true, true, true]);
    /// names.texts()?.and_less_than("bc", rows.bits_mut());
    /// assert_eq!(rows, Bitmap::from([true, false, false, false]));
    /// # Ok::<(), vortex_bits::arrow::ArrowError>(())
    /// ```
    #[track_caller]
    pub fn and_less_than(&self, text: impl AsRef<[u8]>, mask: BitsMut<'_>) {
        self.and_test(mask, &LessThan::new(text.as_ref()));
    }

    /// Unsets the bits of rows that don't begin with these bytes.
    ///
    /// ```
    /// use vortex_bits::Bitmap;
    /// use vortex_bits::arrow::Export;
    ///
    /// let names = Export::texts_or_nulls([Some("ab"), None, Some("bc"), Some("b")]).into_array();
    /// let mut rows = Bitmap::from([true, true, true, false]);
    /// names.texts()?.and_starts_with("b", rows.bits_mut());
    /// assert_eq!(rows, Bitmap::from([false, false, true, false]));
    /// # Ok::<(), vortex_bits::arrow::ArrowError>(())
    /// ```
    #[track_caller]
    pub fn and_starts_with(&self, start: impl AsRef<[u8]>, mask: BitsMut<'_>) {
        self.and_test(mask, &StartsWith::new(start.as_ref()));
    }

    /// Unsets the bits of rows that don't end with these bytes.
    ///
    /// ```
    /// use vortex_bits::Bitmap;
    /// use vortex_bits::arrow::Export;
    ///
    /// let names = Export::texts_or_nulls([Some("ab"), None, Some("bc"), Some("b")]).into_array();
    /// let mut rows = Bitmap::from([true, true, true, false]);
    /// names.texts()?.and_ends_with("b", rows.bits_mut());
    /// assert_eq!(rows, Bitmap::from([true, false, false, false]));
    /// # Ok::<(), vortex_bits::arrow::ArrowError>(())
    /// ```
    #[track_caller]
    pub fn and_ends_with(&self, end: impl AsRef<[u8]>, mask: BitsMut<'_>) {
        self.and_test(mask, &EndsWith::new(end.as_ref()));
    }

    /// Unsets the bits of rows that don't contain these bytes.
    ///
    /// ```
    /// use vortex_bits::Bitmap;
    /// use vortex_bits::arrow::Export;
    ///
    /// let names = Export::texts_or_nulls([Some("abc"), None, Some("ac"), Some("b")]).into_array();
    /// let mut rows = Bitmap::from([true, true, true, false]);
    /// names.texts()?.and_contains("b", rows.bits_mut());
    /// assert_eq!(rows, Bitmap::from([true, false, false, false]));
    /// # Ok::<(), vortex_bits::arrow::ArrowError>(())
    /// ```
    #[track_caller]
    pub fn and_contains(&self, part: impl AsRef<[u8]>, mask: BitsMut<'_>) {
        self.and_test(mask, &Contains(part.as_ref()));
    }

    /// Unsets the bits of rows that are none of the texts.
    ///
    /// ```
    /// use vortex_bits::Bitmap;
    /// use vortex_bits::arrow::Export;
    ///
    /// let names = Export::texts_or_nulls([Some("a"), None, Some("bc"), Some("c")]).into_array();
    /// let mut rows = Bitmap::from([true, true, true, false]);
    /// names.texts()?.and_is_in(["c", "a"], rows.bits_mut());
    /// assert_eq!(rows, Bitmap::from([true, false, false, false]));
    /// # Ok::<(), vortex_bits::arrow::ArrowError>(())
    /// ```
    #[track_caller]
    pub fn and_is_in(&self, texts: impl IntoIterator<Item = impl AsRef<[u8]>>, mask: BitsMut<'_>) {
        self.and_test(mask, &Wanted::new(texts));
    }

    #[inline]
    #[track_caller]
    fn and_test(&self, mut mask: BitsMut<'_>, test: &impl Test) {
        alike(mask.len(), self.len());
        let own = |mask: &Written<'_>, start, len| only_word(mask.as_bits().part(start, len));
        self.write::<GROUP>(&mut mask.written(), own, test);
    }
}
