//! The calls that are measured, as C functions: those of crates/vb_c and crates/vb_c_*, and those
//! of the benchmarks' own library, `library/`, which says what each does.

mod values;

use crate::input::Window;
pub use values::*;

/// The index of a bit, if there is one.
#[repr(C)]
#[derive(Clone, Copy)]
pub struct Place {
    found: bool,
    index: usize,
}

impl Place {
    /// The index; `usize::MAX` if there is none.
    pub fn index(self) -> usize {
        if self.found { self.index } else { usize::MAX }
    }

    pub fn is_none(self) -> bool {
        !self.found
    }
}

pub type Bytes = *const u8;

/// A call on a window: its bytes, how many there are, its first bit, and its length in bits.
pub type OnWindow = unsafe extern "C" fn(Bytes, usize, usize, usize) -> usize;

/// A call of a directory: as [`OnWindow`], with the table's entries and the indices or ranks.
pub type OfTable = unsafe extern "C" fn(
    Bytes,
    usize,
    usize,
    usize,
    *const usize,
    usize,
    *const usize,
    usize,
) -> usize;

/// Calls of a directory, each of which needs the result of the one before; the last number is the
/// mask, which library/src/directory.rt.in explains.
pub type OfTableInTurn = unsafe extern "C" fn(
    Bytes,
    usize,
    usize,
    usize,
    *const usize,
    usize,
    *const usize,
    usize,
    usize,
) -> usize;

/// Selects at ranks, in so many rounds, by a directory that is built from bits first.
pub type SelectRounds =
    unsafe extern "C" fn(Bytes, usize, usize, *const usize, usize, usize) -> usize;

/// A call on a set that is built from a window, in so many rounds.
pub type InRounds = unsafe extern "C" fn(Bytes, usize, usize, usize, usize) -> usize;

/// A test of the bits of a window.
pub type Whether = unsafe extern "C" fn(Bytes, usize, usize, usize) -> bool;

/// Finds the `n`-th true or false bit of a window.
pub type Select = unsafe extern "C" fn(Bytes, usize, usize, usize, usize) -> Place;

/// Replaces the `len` bits of `dst` from bit `d` on by their combination with those of `src` from
/// bit `s` on.
pub type Write = unsafe extern "C" fn(*mut u8, usize, usize, Bytes, usize, usize, usize);

/// An operator on two windows of one length. The last numbers are the operator and the rounds.
pub type Operator =
    unsafe extern "C" fn(Bytes, usize, usize, Bytes, usize, usize, usize, usize, usize) -> usize;

/// Bits taken: bytes and length of the set, the indices, the bytes of a validity, and whether it is
/// used.
pub type Take<I> =
    unsafe extern "C" fn(Bytes, usize, usize, *const I, usize, Bytes, usize, bool) -> usize;

unsafe extern "C" {
    pub fn vb_count_ones(bytes: Bytes, size: usize, offset: usize, len: usize) -> usize;
    pub fn vb_select(bytes: Bytes, size: usize, offset: usize, len: usize, n: usize) -> Place;
    pub fn vb_select_unset(bytes: Bytes, size: usize, offset: usize, len: usize, n: usize)
    -> Place;
    pub fn vb_and_bits(
        dst: *mut u8,
        dst_size: usize,
        d: usize,
        src: Bytes,
        src_size: usize,
        s: usize,
        len: usize,
    );
    pub fn vb_copy_bits(
        dst: *mut u8,
        dst_size: usize,
        d: usize,
        src: Bytes,
        src_size: usize,
        s: usize,
        len: usize,
    );
    pub fn vb_fill_bits(bytes: *mut u8, size: usize, offset: usize, len: usize, value: bool);
    pub fn vb_negate_bits(bytes: *mut u8, size: usize, offset: usize, len: usize);
    pub fn vb_and_count(
        left: Bytes,
        left_size: usize,
        l: usize,
        right: Bytes,
        right_size: usize,
        r: usize,
        len: usize,
    ) -> usize;
    pub fn vb_is_subset(
        left: Bytes,
        left_size: usize,
        l: usize,
        right: Bytes,
        right_size: usize,
        r: usize,
        len: usize,
    ) -> bool;
    pub fn vb_next_set(bytes: Bytes, size: usize, offset: usize, len: usize, from: usize) -> Place;
    pub fn vb_previous_set(
        bytes: Bytes,
        size: usize,
        offset: usize,
        len: usize,
        before: usize,
    ) -> Place;
    pub fn vb_any_set(bytes: Bytes, size: usize, offset: usize, len: usize) -> bool;
    pub fn vb_all_set(bytes: Bytes, size: usize, offset: usize, len: usize) -> bool;
    pub fn vb_equal_bits(
        left: Bytes,
        left_size: usize,
        l: usize,
        right: Bytes,
        right_size: usize,
        r: usize,
        len: usize,
    ) -> bool;
    pub fn vb_and_into(
        out: *mut u8,
        out_size: usize,
        o: usize,
        left: Bytes,
        left_size: usize,
        l: usize,
        right: Bytes,
        right_size: usize,
        r: usize,
        len: usize,
    );
    pub fn vb_set_indices(
        out: *mut usize,
        out_count: usize,
        bytes: Bytes,
        size: usize,
        offset: usize,
        len: usize,
    ) -> usize;
}

unsafe extern "C" {
    pub fn vb_filter_bits(
        out: *mut u8,
        out_size: usize,
        o: usize,
        bytes: Bytes,
        size: usize,
        offset: usize,
        mask: Bytes,
        mask_size: usize,
        m: usize,
        len: usize,
    ) -> usize;
    pub fn vb_and_kleene(
        trues: *mut u8,
        trues_size: usize,
        t: usize,
        valid: *mut u8,
        valid_size: usize,
        v: usize,
        left: Bytes,
        left_size: usize,
        l: usize,
        left_all_valid: bool,
        left_validity: Bytes,
        left_validity_size: usize,
        left_validity_offset: usize,
        right: Bytes,
        right_size: usize,
        r: usize,
        right_all_valid: bool,
        right_validity: Bytes,
        right_validity_size: usize,
        right_validity_offset: usize,
        len: usize,
    );
}

unsafe extern "C" {
    pub fn bench_set_indices(bytes: Bytes, size: usize, offset: usize, len: usize) -> usize;
    pub fn bench_set_slices(bytes: Bytes, size: usize, offset: usize, len: usize) -> usize;
    pub fn bench_iter(bytes: Bytes, size: usize, offset: usize, len: usize) -> usize;
    pub fn bench_iter_fold(bytes: Bytes, size: usize, offset: usize, len: usize) -> usize;
    pub fn bench_chunks(bytes: Bytes, size: usize, offset: usize, len: usize) -> usize;
    pub fn bench_iter_padded(bytes: Bytes, size: usize, offset: usize, len: usize) -> usize;
    pub fn bench_last_set_index(bytes: Bytes, size: usize, offset: usize, len: usize) -> usize;
    pub fn bench_value(
        bytes: Bytes,
        size: usize,
        offset: usize,
        len: usize,
        places: *const usize,
        many: usize,
    ) -> usize;
    pub fn bench_eq(
        left: Bytes,
        left_size: usize,
        left_offset: usize,
        right: Bytes,
        right_size: usize,
        right_offset: usize,
        len: usize,
    ) -> usize;
    pub fn bench_operator(
        left: Bytes,
        left_size: usize,
        left_offset: usize,
        right: Bytes,
        right_size: usize,
        right_offset: usize,
        len: usize,
        operator: usize,
        rounds: usize,
    ) -> usize;
    pub fn bench_operator_owned(
        left: Bytes,
        left_size: usize,
        left_offset: usize,
        right: Bytes,
        right_size: usize,
        right_offset: usize,
        len: usize,
        operator: usize,
        rounds: usize,
    ) -> usize;
    pub fn bench_set(
        bytes: Bytes,
        size: usize,
        offset: usize,
        len: usize,
        question: usize,
        start: usize,
        rounds: usize,
    ) -> usize;
    pub fn bench_not_owned(
        bytes: Bytes,
        size: usize,
        offset: usize,
        len: usize,
        rounds: usize,
    ) -> usize;
    pub fn bench_for_each_set_index(
        bytes: Bytes,
        size: usize,
        offset: usize,
        len: usize,
        rounds: usize,
    ) -> usize;
    pub fn bench_for_each_unset_index(
        bytes: Bytes,
        size: usize,
        offset: usize,
        len: usize,
        rounds: usize,
    ) -> usize;
    pub fn bench_iter_bits(
        bytes: Bytes,
        size: usize,
        offset: usize,
        len: usize,
        rounds: usize,
    ) -> usize;
    pub fn bench_map_cmp(
        bytes: Bytes,
        size: usize,
        offset: usize,
        len: usize,
        rounds: usize,
    ) -> usize;
    pub fn bench_freeze_try_into_mut(len: usize, rounds: usize) -> usize;
    pub fn bench_fill_range(len: usize, start: usize, rounds: usize) -> usize;
    pub fn bench_set_to(len: usize, places: *const usize, many: usize, rounds: usize) -> usize;
    pub fn bench_collect_bool(values: *const u32, many: usize, limit: u32) -> usize;
    pub fn bench_collect_bool_multiversioned(values: *const u32, many: usize, limit: u32) -> usize;
    pub fn bench_from_bools(bools: *const bool, many: usize) -> usize;
    pub fn bench_from_truthy(bytes: Bytes, many: usize) -> usize;
    pub fn bench_from_iter(bytes: Bytes, many: usize) -> usize;
    pub fn bench_from_indices(len: usize, places: *const usize, many: usize) -> usize;
    pub fn bench_new_set(len: usize) -> usize;
    pub fn bench_new_unset(len: usize) -> usize;
    pub fn bench_append(bytes: Bytes, many: usize, room: usize) -> usize;
    pub fn bench_appender(bytes: Bytes, many: usize, room: usize) -> usize;
    pub fn bench_append_n(before: usize, n: usize) -> usize;
    pub fn bench_append_bools(
        bools: *const bool,
        many: usize,
        before: usize,
        rounds: usize,
    ) -> usize;
    pub fn bench_extend(bytes: Bytes, many: usize, before: usize, rounds: usize) -> usize;
    pub fn bench_append_buffer(
        bytes: Bytes,
        size: usize,
        offset: usize,
        len: usize,
        before: usize,
        rounds: usize,
    ) -> usize;
    pub fn bench_take_u32(
        bytes: Bytes,
        size: usize,
        len: usize,
        indices: *const u32,
        many: usize,
        validity: Bytes,
        validity_size: usize,
        is_masked: bool,
    ) -> usize;
    pub fn bench_take_u64(
        bytes: Bytes,
        size: usize,
        len: usize,
        indices: *const u64,
        many: usize,
        validity: Bytes,
        validity_size: usize,
        is_masked: bool,
    ) -> usize;
    pub fn bench_take_i64(
        bytes: Bytes,
        size: usize,
        len: usize,
        indices: *const i64,
        many: usize,
        validity: Bytes,
        validity_size: usize,
        is_masked: bool,
    ) -> usize;
    pub fn bench_take_u128(
        bytes: Bytes,
        size: usize,
        len: usize,
        indices: *const u64,
        many: usize,
        rounds: usize,
    ) -> usize;
    pub fn bench_rank(
        bytes: Bytes,
        size: usize,
        offset: usize,
        len: usize,
        table: *const usize,
        entries: usize,
        places: *const usize,
        many: usize,
    ) -> usize;
    pub fn bench_rank_in_turn(
        bytes: Bytes,
        size: usize,
        offset: usize,
        len: usize,
        table: *const usize,
        entries: usize,
        places: *const usize,
        many: usize,
        mask: usize,
    ) -> usize;
    pub fn bench_select(
        bytes: Bytes,
        size: usize,
        offset: usize,
        len: usize,
        table: *const usize,
        entries: usize,
        ranks: *const usize,
        many: usize,
    ) -> usize;
    pub fn bench_select_in_turn(
        bytes: Bytes,
        size: usize,
        offset: usize,
        len: usize,
        table: *const usize,
        entries: usize,
        ranks: *const usize,
        many: usize,
        mask: usize,
    ) -> usize;
    pub fn bench_ranked_set_to(len: usize, rounds: usize) -> usize;
    pub fn bench_ranked_append(bytes: Bytes, many: usize) -> usize;
    pub fn bench_ranked_select(
        bytes: Bytes,
        size: usize,
        len: usize,
        ranks: *const usize,
        many: usize,
        rounds: usize,
    ) -> usize;
    pub fn bench_ranked_select_many(
        bytes: Bytes,
        size: usize,
        len: usize,
        ranks: *const usize,
        many: usize,
        rounds: usize,
    ) -> usize;
    pub fn bench_filtered(
        items: *const u32,
        many: usize,
        mask: Bytes,
        size: usize,
        rounds: usize,
    ) -> usize;
    pub fn bench_deposit_into(
        out: *mut u8,
        room: usize,
        values: Bytes,
        values_size: usize,
        many: usize,
        mask: Bytes,
        mask_size: usize,
        len: usize,
    ) -> usize;
    pub fn bench_buffer_copy_from(items: *const u32, many: usize) -> usize;
    pub fn bench_buffer_read_from(bytes: Bytes, size: usize) -> usize;
    pub fn bench_buffer_from_iter(n: u32) -> usize;
    pub fn bench_buffer_push(items: *const u32, many: usize) -> usize;
    pub fn bench_buffer_slice(items: *const u32, many: usize, start: usize, rounds: usize)
    -> usize;
    pub fn bench_buffer_as_bytes(items: *const u32, many: usize, rounds: usize) -> usize;
}

/// Calls a function on a window.
pub fn on(call: OnWindow, w: Window) -> usize {
    unsafe { call(w.bytes.as_ptr(), w.bytes.len(), w.offset, w.len) }
}

/// Calls a function in rounds on a set that it makes of a window.
pub fn in_rounds(call: InRounds, w: Window, rounds: usize) -> usize {
    unsafe { call(w.bytes.as_ptr(), w.bytes.len(), w.offset, w.len, rounds) }
}
