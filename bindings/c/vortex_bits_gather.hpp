/*
 * Bits built from other bits, a part of vortex_bits.hpp, which includes this file: validities that
 * may be missing, truth values packed and unpacked, bits at indices (take, gather), bits that a
 * mask selects (filter) and their inverse (deposit), and `and` and `or` of truth values that may be
 * null.
 *
 *     std::array<bool, 3> flags = {true, false, true};
 *     std::vector<std::uint8_t> packed(1);
 *     vortex_bits::pack_bools(flags, packed);           // 0x05
 */
#ifndef VORTEX_BITS_GATHER_HPP
#define VORTEX_BITS_GATHER_HPP

#include "vortex_bits.hpp"

#if __cplusplus >= 201703L

namespace vortex_bits {

namespace detail {

/* The C function that takes bits at indices of `Index` bytes. */
template <std::size_t Index> struct bits_taken_by;
#define VB_TAKEN_BY(size, name, integer)                                                          \
    template <> struct bits_taken_by<size> {                                                      \
        using type = integer;                                                                     \
        static constexpr auto take = vb_take_bits_##name;                                      \
    };
/* Written by tools/write-lists from tools/families/take_bits.txt. */
VB_TAKEN_BY(1, u8, std::uint8_t)
VB_TAKEN_BY(2, u16, std::uint16_t)
VB_TAKEN_BY(4, u32, std::uint32_t)
VB_TAKEN_BY(8, u64, std::uint64_t)
/* To here. */
#undef VB_TAKEN_BY

} // namespace detail

/*
 * Returns the validity of a column: a window, or nullopt if `bytes` is null, which means that all
 * rows are valid, whatever the size.
 */
inline std::optional<bits> validity(const std::uint8_t *bytes, std::size_t size, std::size_t offset,
    std::size_t len)
{
    return bytes != nullptr ? std::optional<bits>(bits(bytes, size, offset, len)) : std::nullopt;
}

/*
 * Returns how many of `len` rows are valid in both of two columns. With nullopt as its validity, a
 * column has valid rows only.
 */
inline std::size_t count_valid(std::optional<bits> left, std::optional<bits> right,
    std::size_t len)
{
    detail::expect((!left || left->len_ == len) && (!right || right->len_ == len),
        "not a bit of validity for each row");
    const bits one = left.value_or(bits()), other = right.value_or(bits());
    return vb_count_valid(one.bytes_, one.size_, one.offset_, other.bytes_, other.size_,
        other.offset_, len);
}

template <class Indices>
std::optional<std::size_t> bits::take(const Indices &indices, const bits *valid, std::uint8_t *out,
    std::size_t size, std::size_t at) const
{
    using index = std::remove_cv_t<detail::lent_t<const Indices>>;
    static_assert(detail::is_index<index>(),
        "take_into and take_of take indices of a whole number of 8, 16, 32 or 64 bits");
    detail::expect(fits(size, at, detail::size(indices)), "no space for a bit per index");
    detail::expect(valid == nullptr || valid->len_ == detail::size(indices),
        "not a bit of validity for each index");
    if constexpr (detail::is_index<index>()) {
        using by = detail::bits_taken_by<sizeof(index)>;
        const bits counts = valid != nullptr ? *valid : bits();
        return detail::position(by::take(out, size, at, bytes_, size_, offset_,
            detail::reached<index>(len_),
            reinterpret_cast<const typename by::type *>(indices.data()), detail::size(indices),
            valid == nullptr, counts.bytes_, counts.size_, counts.offset_));
    }
    return std::nullopt;
}

template <class Indices, class Out>
std::optional<std::size_t> bits::take_into(const Indices &indices, Out &&out) const
{
    static_assert(detail::is_bytes<Out>(), "take_into writes bytes of std::uint8_t");
    return take(indices, nullptr, out.data(), detail::size(out), 0);
}

template <class Indices, class Out>
std::optional<std::size_t> bits::take_into(const Indices &indices,
    std::optional<bits> valid, Out &&out) const
{
    static_assert(detail::is_bytes<Out>(), "take_into writes bytes of std::uint8_t");
    return take(indices, valid ? &*valid : nullptr, out.data(), detail::size(out), 0);
}

template <class Out> std::size_t bits::filter_into(bits mask, Out &&out) const
{
    static_assert(detail::is_bytes<Out>(), "filter_into writes bytes of std::uint8_t");
    detail::expect(mask.len_ == len_, "windows are of two lengths");
    std::size_t kept = 0;
    detail::expect(vb_try_filter_bits(out.data(), detail::size(out), 0, bytes_, size_, offset_,
            mask.bytes_, mask.size_, mask.offset_, len_, &kept),
        "no space for the selected bits");
    return kept;
}

inline std::size_t bits_mut::filter_of(bits values, bits mask)
{
    detail::expect(mask.len_ == values.len_, "windows are of two lengths");
    detail::expect(mask.len_ <= len_ || mask.count_ones() <= len_,
        "no space for the selected bits");
    return vb_filter_bits(writable(), size_, offset_, values.bytes_, values.size_, values.offset_,
        mask.bytes_, mask.size_, mask.offset_, mask.len_);
}

inline void bits_mut::and_validity(std::optional<bits> validity)
{
    detail::expect(!validity || validity->len_ == len_, "windows are of two lengths");
    const bits rows = validity.value_or(bits());
    vb_and_validity(writable(), size_, offset_, rows.bytes_, rows.size_, rows.offset_, len_);
}

inline void bits_mut::and_validities_of(std::optional<bits> left,
    std::optional<bits> right)
{
    detail::expect((!left || left->len_ == len_) && (!right || right->len_ == len_),
        "windows are of two lengths");
    const bits one = left.value_or(bits()), other = right.value_or(bits());
    vb_and_validities(writable(), size_, offset_, one.bytes_, one.size_, one.offset_, other.bytes_,
        other.size_, other.offset_, len_);
}

inline std::size_t bits_mut::filter_validity_of(std::optional<bits> validity, bits mask)
{
    detail::expect(!validity || validity->len_ == mask.len_, "windows are of two lengths");
    detail::expect(mask.len_ <= len_ || mask.count_ones() <= len_,
        "no space for the selected bits");
    const bits rows = validity.value_or(bits());
    return vb_filter_validity(writable(), size_, offset_, rows.bytes_, rows.size_, rows.offset_,
        mask.bytes_, mask.size_, mask.offset_, mask.len_);
}

template <class Indices>
std::optional<std::size_t> bits_mut::take_of(bits values, const Indices &indices,
    std::optional<bits> valid)
{
    detail::expect(detail::size(indices) <= len_, "no space for a bit per index");
    return values.take(indices, valid ? &*valid : nullptr, writable(), size_, offset_);
}

inline void bits_mut::deposit_of(bits values, bits mask)
{
    detail::expect(mask.len_ == len_, "windows are of two lengths");
    detail::expect(mask.count_ones() == values.len_, "not a bit for each set bit of the mask");
    vb_deposit_bits(writable(), size_, offset_, values.bytes_, values.size_, values.offset_,
        mask.bytes_, mask.size_, mask.offset_, len_);
}

template <class Call>
void bits_mut::by_columns(Call call, bits left, std::optional<bits> left_valid, bits right,
    std::optional<bits> right_valid, bits_mut valid)
{
    detail::expect(left.len_ == len_ && right.len_ == len_ && valid.len_ == len_
            && (!left_valid || left_valid->len_ == len_)
            && (!right_valid || right_valid->len_ == len_),
        "windows are of two lengths");
    const bits one = left_valid.value_or(bits()), other = right_valid.value_or(bits());
    call(writable(), size_, offset_, valid.writable(), valid.size_, valid.offset_, left.bytes_,
        left.size_, left.offset_, !left_valid, one.bytes_, one.size_, one.offset_, right.bytes_,
        right.size_, right.offset_, !right_valid, other.bytes_, other.size_, other.offset_, len_);
}

inline void bits_mut::and_kleene_of(bits left, std::optional<bits> left_valid, bits right,
    std::optional<bits> right_valid, bits_mut valid)
{
    by_columns(vb_and_kleene, left, left_valid, right, right_valid, valid);
}

inline void bits_mut::or_kleene_of(bits left, std::optional<bits> left_valid, bits right,
    std::optional<bits> right_valid, bits_mut valid)
{
    by_columns(vb_or_kleene, left, left_valid, right, right_valid, valid);
}

template <class Bools> void bits::copy_to_bools(Bools &&out) const
{
    using item = detail::lent_t<std::remove_reference_t<Bools>>;
    static_assert(std::is_same_v<item, bool>,
        "copy_to_bools writes values of bool, which std::vector<bool> doesn't store");
    detail::expect(detail::size(out) == len_, "not a bool for each bit");
    if constexpr (std::is_same_v<item, bool>) {
        vb_unpack_bools(out.data(), detail::size(out), bytes_, size_, offset_, len_);
    }
}

template <class Bytes> void bits::copy_to_bytes(Bytes &&out) const
{
    static_assert(detail::is_bytes<Bytes>(), "copy_to_bytes writes bytes of std::uint8_t");
    detail::expect(detail::size(out) == len_, "not a byte for each bit");
    vb_unpack_bytes(out.data(), detail::size(out), bytes_, size_, offset_, len_);
}

template <class Bools> void bits_mut::copy_from_bools(const Bools &bools)
{
    static_assert(std::is_same_v<std::remove_cv_t<detail::lent_t<const Bools>>, bool>,
        "copy_from_bools packs values of bool, which std::vector<bool> doesn't store");
    detail::expect(detail::size(bools) == len_, "not a bit for each bool");
    if constexpr (!std::is_void_v<detail::lent_t<const Bools>>) {
        vb_pack_bools(writable(), size_, offset_, bools.data(), len_);
    }
}

template <class Bytes> void bits_mut::copy_from_truthy(const Bytes &truthy)
{
    detail::expect(detail::size(truthy) == len_, "not a bit for each byte");
    vb_pack_truthy(writable(), size_, offset_, truthy.data(), len_);
}

/*
 * Packs bools into the first bytes of `out`, eight into each. The remaining bits of the last byte
 * written are false; later bytes are unchanged. Doesn't accept std::vector<bool>, which stores no
 * bools.
 */
template <class Bools, class Out> void pack_bools(const Bools &bools, Out &&out)
{
    static_assert(std::is_same_v<std::remove_cv_t<detail::lent_t<const Bools>>, bool>,
        "pack_bools packs values of bool, which std::vector<bool> doesn't store");
    static_assert(detail::is_bytes<Out>(), "pack_bools writes bytes of std::uint8_t");
    detail::expect(fits(detail::size(out), 0, detail::size(bools)), "no space for a bit per bool");
    if constexpr (!std::is_void_v<detail::lent_t<const Bools>>) {
        vb_pack_bools_padded(out.data(), detail::size(out), bools.data(), detail::size(bools));
    }
}

/* Does the same for bytes, each of which is true if it is not 0. */
template <class Bytes, class Out> void pack_truthy(const Bytes &truthy, Out &&out)
{
    static_assert(detail::is_bytes<Out>(), "pack_truthy writes bytes of std::uint8_t");
    detail::expect(fits(detail::size(out), 0, detail::size(truthy)), "no space for a bit per byte");
    vb_pack_truthy_padded(out.data(), detail::size(out), truthy.data(), detail::size(truthy));
}

} // namespace vortex_bits

#endif

#endif
