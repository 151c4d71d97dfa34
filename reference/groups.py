"""The groups in which a reader looks for a call: count, search, walk and so on."""
import re

from reference.html_text import tag

# The titles in the order of the pages, each with the names that it has: the first title that fits
# decides.
GROUPS = [
    ("Count and sum",
     r"(true_|false_|null_)?count\w*|\w+_counts?(_by)?|rank(_by)?|most_looks|masked_\w+"),
    ("Search", r"((try|bit|ranked)_)?select\w*|(next|previous)_\w+|last_set_index(_by)?"
     r"|last_set|any|all|(any|all)_set(_by)?|is_disjoint(_by)?|is_subset(_by)?|equal_bits"),
    ("Walk", r"iter\w*|set_indices|set_slices|(unaligned_)?chunks|(try_)?for_each_\w+|remainder_\w+"
     r"|prefix|suffix|\w+_padding|trusted_len"),
    ("Combine", r"(into_)?bitand_not|(try_)?(and|or)_kleene(_into)?|zip_\w+|map_words"
     r"|intersect_by_rank|(x?or|and|and_not)(_kleene)?(_bits|_of|_into)?|negate\w*|operator[&|^]="),
    ("Filter and deposit", r"filter\w*|deposit\w*|keep_into|scatter\w*"),
    ("Gather", r"taken|take_\w+|set_bits_at"),
    ("Compare", r"(try_)?compare\w*"),
    ("Edit", r"append\w*|extend\w*|try_extend\w*|push\w*|pop|resize|truncate|clear|set|unset|set_to"
     r"|fill\w*|(un)?set_bit\w*|reserve\w*|has_room|as_mut_\w+|items_mut|copy_bits|splice_\w+"),
    ("Build", r"new\w*|full|empty\w*|zeroed\w*|with_capacity\w*|(try_)?from_\w+|copy_from\w*"
     r"|(collect|map)_(bool|cmp)\w*|(un)?pack_\w+|to_bit_buffer|read_from|table_of|align_from"
     r"|copy_to_\w+|over|of|none"),
    ("Share and convert", r"clone|slice\w*|narrow|freeze|aligned|ensure_aligned|shrink_offset"
     r"|as_(view|bytes)|into_\w+|try_into_\w+|take|inner|byte_aligned_bytes"),
]
OTHERS = "Read"
# A table of fewer calls is short enough without groups.
MANY = 13


def group_of(name: str) -> str:
    """The title of the group of a call."""
    return next((title for title, names in GROUPS if re.fullmatch(names, name)), OTHERS)


def table(rows: list[tuple[str, str]]) -> str:
    """The table of rows, each passed with its call's name; by group if there are many."""
    if len(rows) < MANY:
        return plain(rows)
    found: dict[str, list[str]] = {title: [] for title in [*(it for it, _ in GROUPS), OTHERS]}
    for name, row in rows:
        found[group_of(name)].append(row)
    return tag("table", "".join(part(*it) for it in found.items() if it[1]), class_="list")


def plain(rows: list[tuple[str, str]]) -> str:
    return tag("table", "".join(row for _, row in rows), class_="list")


def part(title: str, rows: list[str]) -> str:
    """The rows of a group, after its title."""
    head = tag("tr", tag("th", title, scope="rowgroup", colspan="2", class_="part"))
    return tag("tbody", head + "".join(rows))
