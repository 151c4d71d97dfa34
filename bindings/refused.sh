# Tests of bindings/run, which sources it: what a compiler says of types and windows that
# vortex_bits.hpp refuses. They read `here`, this folder, and write to `out`.
# shellcheck shell=bash

# Compiles the statements $1 of C++, which must give one error, and writes to out/log what it says.
has_error() {
    {
        printf '%s\n' '#include "vortex_bits.hpp"' '#include <string>' 'int main() {'
        printf '    std::vector<std::uint8_t> bytes(1);\n    vortex_bits::bits rows(bytes, 0, 8);\n'
        printf '    %s\n}\n' "$1"
    } >"$out/tells.cpp"
    ! c++ -std=c++17 -Werror=return-type -fsyntax-only -I "$here/c" "$out/tells.cpp" \
        2>"$out/log" &&
        [ "$(grep -c 'error:' "$out/log")" = 1 ]
}

# Tests that the one error of the statements $2 says $1.
tells() {
    has_error "$2" && grep -q "error: .*$1" "$out/log"
}

# Tests that the one error of the statements $2 shows a deleted constructor with the comment $1.
shows() {
    has_error "$2" && grep -q "= delete; // .*$1" "$out/log"
}

refused_types() {
    tells "keep_into takes values of" \
        'std::vector<std::string> all(8); rows.keep_into(all, all);' &&
        tells "keep_into takes values of" \
            'std::vector<bool> all(8); rows.keep_into(all, all);' &&
        tells "keep_into writes values of the type" \
            'std::vector<int> all(8); std::vector<long> out(8); rows.keep_into(all, out);' &&
        tells "scatter_into takes values of" \
            'std::vector<bool> all(8); rows.scatter_into(all, all);' &&
        tells "retain_in takes writable values" \
            'const std::vector<int> all(8); rows.retain_in(all);' &&
        tells "set_indices writes indices of" \
            'std::vector<int> all(8); rows.set_indices_into(all);' &&
        tells "set_slices writes runs of" \
            'std::vector<int> all(8); rows.set_slices_into(all);' &&
        tells "copy_to_bools writes values of bool" \
            'std::vector<bool> all(8); rows.copy_to_bools(all);' &&
        tells "take_into and take_of take indices of" \
            'std::vector<double> all(8); rows.take_into(all, bytes);' &&
        tells "take_into and take_of take indices of" \
            'std::vector<double> all(8); vortex_bits::bits_mut(bytes, 0, 8).take_of(rows, all);' &&
        tells "pack_bools packs values of" \
            'std::vector<bool> all(8); vortex_bits::pack_bools(all, bytes);' &&
        tells "take_values takes values of" \
            'std::vector<bool> all(8); vortex_bits::take_values(all, bytes, all);' &&
        tells "take_values takes indices of" \
            'std::vector<float> all(8); vortex_bits::take_values(bytes, all, bytes);' &&
        tells "compare compares whole numbers" \
            'std::vector<long double> all(8);
              vortex_bits::compare(all, VB_LESS, 1, {bytes, 0, 8});' &&
        tells "for a pointer write vortex_bits::view(pointer, count)" \
            'vortex_bits::compare(bytes.data(), VB_LESS, 1, {bytes, 0, 8});' &&
        tells "compare compares whole numbers with a whole number" \
            'std::vector<long> all(8); vortex_bits::compare(all, VB_LESS, 2.5, {bytes, 0, 8});' &&
        tells "compare compares values with a number" \
            'std::vector<double> all(8);
              vortex_bits::compare(all, VB_LESS, std::string("2"), {bytes, 0, 8});' &&
        tells "compare compares values with a number" \
            'std::vector<long> all(8); enum class kind { one };
              vortex_bits::compare(all, VB_LESS, kind::one, {bytes, 0, 8});' &&
        tells "compare_with compares values of one type" \
            'vortex_bits::compare_with(bytes, VB_LESS, std::vector<int>(1), {bytes, 0, 1});' &&
        tells "keep_into writes values of the type" \
            'const std::vector<long> all(8); rows.keep_into(all, all);' &&
        tells "a temporary container dies before the texts" \
            'std::vector<int> at{0}; vortex_bits::texts it(at, std::string());' &&
        tells "texts are over char" \
            'std::vector<int> at{0}; vortex_bits::texts it(at, at);' &&
        tells "the wanted texts are those of a container" \
            'struct { struct it { std::string operator*() { return ""; }
              it &operator++() { return *this; } bool operator!=(it) { return false; } };
              it begin() const { return {}; } it end() const { return {}; } } all;
              vortex_bits::texts<int>().is_in(all, {bytes, 0, 0});' &&
        tells "append_taken takes indices of" \
            'vortex_bits::texts_mut<int> it; (void)it.append_taken({}, std::vector<float>());' &&
        tells "sums, min and max are of whole numbers" \
            'std::vector<long double> all(8); (void)vortex_bits::masked_min(all, {bytes, 0, 8});' &&
        tells "sums are of std::int64_t for signed values" \
            'std::vector<float> all(8); (void)vortex_bits::group_sums(all, bytes, all);' &&
        tells "exact sums are of whole numbers" \
            'std::vector<float> all(8);
              (void)vortex_bits::masked_wrapping_sum(all, {bytes, 0, 8});' &&
        tells "exact sums are of whole numbers" \
            'std::vector<double> all(8); (void)vortex_bits::masked_checked_sum(all, rows).value();'
}

refused_windows() {
    shows "the bytes are const: write bits" \
        'const auto all = bytes; vortex_bits::bits_mut it(all, 0, 8);' &&
        shows "no size: write view(pointer, count)" \
            'vortex_bits::bits it(bytes.data(), 0, 8);' &&
        shows "no size: write view(pointer, count)" \
            'vortex_bits::bits_mut it(bytes.data(), 0, 8);' &&
        shows "write view(cast to uint8_t \*, ..)" \
            'std::string all(8, 0); vortex_bits::bits it(all, 0, 8);' &&
        shows "write view(cast to uint8_t \*, ..)" \
            'std::vector<std::byte> all(8); vortex_bits::bits_mut it(all, 0, 8);'
}
