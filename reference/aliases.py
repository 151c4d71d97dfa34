"""Other words of the field by which a reader looks for a call: `popcount` finds `count_ones`."""
from functools import cache

# Each key has the words that find the names in its value: calls, and traits such as `BitOr`.
WORDS = {
    "popcount popcnt cardinality hamming weight": "count_ones count_ones_by count_ones_wide "
    "vb_count_ones vb_count_ones_wide true_count",
    "null nulls validity missing": "null_count and_kleene or_kleene try_and_kleene try_or_kleene "
    "and_kleene_into or_kleene_into vb_and_kleene vb_or_kleene",
    "union": "BitOr BitOrAssign or_count or_count_by vb_or_count vb_or_bits vb_or_into",
    "intersection intersect": "BitAnd BitAndAssign and_count and_count_by vb_and_count "
    "vb_and_bits vb_and_into",
    "difference except minus": "bitand_not into_bitand_not andnot_count andnot_count_by "
    "vb_and_not_count vb_and_not_bits vb_and_not_into",
    "symmetric_difference": "BitXor BitXorAssign xor_count xor_count_by vb_xor_count vb_xor_bits "
    "vb_xor_into",
    "complement invert flip": "Not negate vb_negate_bits",
    "concat concatenate join": "append append_buffer append_view append_bits extend "
    "extend_from_slice copy_from",
    "gather": "taken take_bits take_into take_values_into set_bits_at",
    "pext compress compact": "filter_into filtered filter_values_into filter_elements_into "
    "vb_filter_bits",
    "scatter pdep expand": "deposited deposit_into vb_deposit_bits",
    "contains test": "get_bit value vb_get_bit",
    "tzcnt ctz find_first": "next_set next_set_by vb_next_set",
    "lzcnt clz find_last": "last_set_index last_set_index_by vb_last_set previous_set",
    "movemask": "pack_bools pack_bools_into_words pack_truthy vb_pack_truthy",
    "memcpy blit": "copy_bits vb_copy_bits copy_from",
    "memset": "fill_bits fill_range vb_fill_bits splat append_n",
}


@cache
def by_name() -> dict[str, str]:
    """For each name the words that find it."""
    found: dict[str, list[str]] = {}
    for words, names in WORDS.items():
        for name in names.split():
            found.setdefault(name, []).append(words)
    return {name: " ".join(words) for name, words in found.items()}
