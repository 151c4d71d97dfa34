//! The greatest or the least values of a column.

use alloc::vec::Vec;

use crate::{Compare, Mask, portable};

/// The greatest or the least `k` values of a column that comes batch by batch, with their rows: an
/// `order by` with a `limit`. Values are equal, above or below one another as Rust's operators say.
/// Among equal values, such as 0.0 and -0.0, it keeps those of the first rows. It never keeps a
/// NaN.
///
/// A batch allocates only if it has one of the first `k` values. The `TopK` holds at most about
/// twice `k` values, and 128 more. Once `k` values are sorted, a value that doesn't come before the
/// last of them is only compared with it. The values are sorted whenever there are `k` more, or
/// 64 more if `k` is smaller. At the end of a batch, up to 16 new ones are inserted; if there are
/// more, all are sorted. So a batch with one of the first `k` values takes time in proportion to
/// `k` too, however few rows it has.
///
/// ```
/// use vortex_bits::{Bits, TopK};
///
/// let mut best = TopK::greatest(2);
/// best.append(&[0.5, 7.5, f64::NAN, 2.0], Bits::new(&[0b1101], 0, 4));
/// best.append(&[2.0, 9.0, 1.0], None::<Bits>);
/// assert_eq!(best.rows(), [(9.0, 5), (2.0, 3)]);
/// assert_eq!(best.into_rows().len(), 2);
/// ```
#[doc(alias("limit", "partial_sort", "select_k"))]
#[derive(Clone, Debug)]
pub struct TopK<T> {
    k: usize,
    order: Order,
    /// The number of rows of all batches.
    rows: usize,
    /// At most `k` values with their rows, the best first.
    best: Vec<(T, usize)>,
}

/// Which values come first.
#[derive(Clone, Copy, Debug)]
enum Order {
    Greatest,
    Least,
}

impl<T: Compare> TopK<T> {
    /// Returns a `TopK` without rows, for the `k` greatest values. Does not allocate.
    #[must_use]
    pub const fn greatest(k: usize) -> TopK<T> {
        TopK::new(k, Order::Greatest)
    }

    /// Returns a `TopK` without rows, for the `k` least values. Does not allocate.
    ///
    /// ```
    /// use vortex_bits::{Bits, TopK};
    ///
    /// let mut best = TopK::least(3);
    /// best.append(&[4, 9, 1, 4], None::<Bits>);
    /// assert_eq!(best.rows(), [(1, 2), (4, 0), (4, 3)]);
    /// ```
    #[must_use]
    pub const fn least(k: usize) -> TopK<T> {
        TopK::new(k, Order::Least)
    }

    const fn new(k: usize, order: Order) -> TopK<T> {
        TopK {
            k,
            order,
            rows: 0,
            best: Vec::new(),
        }
    }

    /// Adds the values of a batch that `mask` selects, all if it is None. Rows that it doesn't
    /// select, such as nulls, are counted too: the first row of the next batch is the one after the
    /// last value of this one.
    ///
    /// # Panics
    ///
    /// Panics if `mask` isn't as long as the values, or if the number of all rows isn't a `usize`.
    /// Nothing is added then.
    #[track_caller]
    pub fn append(&mut self, values: &[T], mask: impl Mask) {
        let mask = mask.of_len(values.len());
        let end = self.rows.checked_add(values.len());
        let end = end.expect("the number of rows is a usize");
        let (best, limits) = (&mut self.best, (self.k, self.rows));
        match self.order {
            Order::Greatest => portable::keep_best(best, limits, values, mask, |a, b| a > b),
            Order::Least => portable::keep_best(best, limits, values, mask, |a, b| a < b),
        }
        self.rows = end;
    }

    /// Returns the values with their rows, in the order: the greatest first, or the least.
    #[must_use]
    pub fn rows(&self) -> &[(T, usize)] {
        &self.best
    }

    /// Returns the values with their rows, in the order: the greatest first, or the least.
    #[must_use]
    pub fn into_rows(self) -> Vec<(T, usize)> {
        self.best
    }
}

/// Returns the indices of the `k` greatest values that `mask` selects, the greatest first; of all
/// values if it is None. There are fewer if fewer numbers are selected. Among equal values it
/// returns the first ones, and it never returns a NaN. [`TopK`] finds those of several batches.
///
/// ```
/// use vortex_bits::{Bits, values};
///
/// let mask = Bits::new(&[0b1_1101], 0, 5);
/// assert_eq!(values::top_k(&[4, 9, 7, 1, 7], 3, mask), [2, 4, 0]);
/// ```
///
/// # Panics
///
/// Panics if `mask` isn't as long as the values.
#[doc(alias("limit", "partial_sort", "sort_to_indices"))]
#[must_use]
#[track_caller]
pub fn top_k<T: Compare>(values: &[T], k: usize, mask: impl Mask) -> Vec<usize> {
    indices(TopK::greatest(k), values, mask)
}

/// Returns the indices of the `k` least values that `mask` selects, the least first, as [`top_k`]
/// does.
///
/// ```
/// use vortex_bits::{Bits, values};
///
/// assert_eq!(values::bottom_k(&[0.5, f32::NAN, -1.0, 0.25], 2, None::<Bits>), [2, 3]);
/// ```
///
/// # Panics
///
/// Panics if `mask` isn't as long as the values.
#[doc(alias("limit", "partial_sort", "sort_to_indices"))]
#[must_use]
#[track_caller]
pub fn bottom_k<T: Compare>(values: &[T], k: usize, mask: impl Mask) -> Vec<usize> {
    indices(TopK::least(k), values, mask)
}

#[track_caller]
fn indices<T: Compare>(mut best: TopK<T>, values: &[T], mask: impl Mask) -> Vec<usize> {
    best.append(values, mask);
    best.best.into_iter().map(|(_, row)| row).collect()
}
