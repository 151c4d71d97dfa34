"""The tables of types and of operators that families of functions, lanes and rows use.

A template (tools/families/*.txt) uses these names. A type that is added here, or to one of the
groups below, gets its functions in each language by tools/write-lists.
"""
from dataclasses import dataclass

# Numbers of bytes in the words of docstrings, and the names of such layouts in bindings/rust.
COUNTS = {1: "one byte", 2: "two bytes", 4: "four bytes", 8: "eight bytes", 16: "16 bytes"}
LAYOUTS = {1: "One", 2: "Two", 4: "Four", 8: "Eight", 16: "Sixteen"}


@dataclass(frozen=True)
class Number:
    """A type of numbers, by its name in Rust."""

    name: str
    bits: int
    c: str
    # The value as an index, an `Option<usize>` in Rattle; empty for floats.
    place: str = ""

    def __str__(self) -> str:
        return self.name

    @property
    def is_float(self) -> bool:
        return self.name.startswith("f")

    @property
    def is_signed(self) -> bool:
        return self.name.startswith("i")

    @property
    def sign(self) -> str:
        return "signed" if self.is_signed else "unsigned"

    @property
    def size(self) -> int:
        return self.bits // 8

    @property
    def exponent(self) -> int:
        """The base-2 logarithm of the size."""
        return self.size.bit_length() - 1

    @property
    def each(self) -> str:
        return COUNTS[self.size]

    @property
    def layout(self) -> str:
        return LAYOUTS[self.size]

    @property
    def camel(self) -> str:
        return self.name.title()

    @property
    def cpp(self) -> str:
        return self.c if self.is_float else f"std::{self.c}"

    @property
    def crossing(self) -> str:
        """The type of such a value in a call of C."""
        return self.wide if self.bits == 128 else self.name

    @property
    def zero(self) -> str:
        """The value 0 of `crossing`, in contracts."""
        return "wide_zero" if self.bits == 128 else "0"

    @property
    def laid(self) -> str:
        """The type of fixed width with the same layout."""
        return self.name.replace("size", "64")

    @property
    def end(self) -> str:
        """The end of the indices that the type can represent, in Rust."""
        if self.bits == 128 or not self.is_signed and self.bits == 64:
            return "usize::MAX"
        return f"1 << {self.bits - self.is_signed}"

    def widened(self, value: str) -> str:
        """Returns a value as one of 64 bits, in Rattle."""
        if self.name.endswith("size"):
            return f"{value} as {self.laid}"
        return value if self.bits == 64 else f"{value}.into()"

    @property
    def part(self) -> str:
        """The type of a sum of 64 values."""
        return f"{self.name[0]}{64 if self.bits < 64 else 128}"

    @property
    def total(self) -> str:
        """The type of a sum of any values."""
        return f"{self.name[0]}128"

    def number(self, value: str) -> str:
        """Returns a value as an integer of contracts."""
        return value if self.is_signed else f"(pos {value})"

    @property
    def numbers(self) -> str:
        """The function from values to integers of contracts."""
        return "(λ x. x)" if self.is_signed else "pos"

    @property
    def range(self) -> str:
        """The predicate of contracts that holds for the values of the type."""
        return f"(FitsSigned w{self.bits})" if self.is_signed else f"(λ x. x < 2 ^ {self.bits})"

    @property
    def zero_literal(self) -> str:
        """The value 0 in Rattle."""
        return "0.0" if self.is_float else "0"

    @property
    def kind(self) -> str:
        """The values of the type in contracts."""
        return "Float" if self.is_float else "ℤ" if self.is_signed else "ℕ"

    @property
    def wrap(self) -> str:
        """The function of contracts that wraps an integer around to a value of the type."""
        return f"{'int_wrap' if self.is_signed else 'wrap_unsigned'} w{self.bits}"

    @property
    def long(self) -> str:
        """The type of 64 bits with the same sign."""
        return f"{self.name[0]}64"

    @property
    def long_c(self) -> str:
        """That type in C."""
        return f"{self.c.removesuffix(f'{self.bits}_t')}64_t"

    @property
    def long_plus(self) -> str:
        """The sum of a number of that type and a value, in contracts."""
        if self.is_signed:
            return "int_wrap w64 (sum +ℤ value)"
        return "wrap_unsigned w64 (pos sum +ℤ pos value)"

    @property
    def total_c(self) -> str:
        """The type `total` in C."""
        return f"vb_{self.total}"

    @property
    def wide(self) -> str:
        """The type of a sum of any values in a call of C."""
        return "SignedWide" if self.is_signed else "Wide"


U8 = Number("u8", 8, "uint8_t", "usize::from(self).place()")
U16 = Number("u16", 16, "uint16_t", "usize::from(self).place()")
U32 = Number("u32", 32, "uint32_t", "u64::from(self).place()")
U64 = Number("u64", 64, "uint64_t", "(self as usize).place()")
U128 = Number("u128", 128, "vb_u128", "u64::try_from(self).ok()?.place()")
USIZE = Number("usize", 64, "size_t", "Some(self)")
I8 = Number("i8", 8, "int8_t", "i64::from(self).place()")
I16 = Number("i16", 16, "int16_t", "i64::from(self).place()")
I32 = Number("i32", 32, "int32_t", "i64::from(self).place()")
I64 = Number("i64", 64, "int64_t", "usize::try_from(self).ok()")
I128 = Number("i128", 128, "vb_i128", "u128::try_from(self).ok()?.place()")
ISIZE = Number("isize", 64, "", "(self as i64).place()")
F32 = Number("f32", 32, "float")
F64 = Number("f64", 64, "double")

UNSIGNED = [U8, U16, U32, U64, U128, USIZE]
SIGNED = [I8, I16, I32, I64, I128, ISIZE]
FLOATS = [F32, F64]
# The types of bytes that are read or written as one number, by the names of these functions.
AS_NUMBERS = {"word": U64, "four": U32, "two": U16}
# Whole numbers, by the name of the file that has them.
WHOLE = {"unsigned": UNSIGNED, "signed": SIGNED}
# The types of C and C++: of values that are moved, of indices, and of compared values.
VALUES = [U8, U16, U32, U64, U128]
INDICES = [U8, U16, U32, U64]
COMPARED = [*INDICES, I8, I16, I32, I64, *FLOATS]
# The types of the indices that C writes to memory, by the ending of its functions' names.
LISTED = {"": USIZE, "_u32": U32}
# The types of codes of groups in C and C++.
CODES = [U8, U16, U32]
# The types that C has sums of, and the same by the name of the file that has them.
AGGREGATED = [it for it in COMPARED if not it.is_float]
SUMMED = {name: [it for it in AGGREGATED if it in numbers] for name, numbers in WHOLE.items()}
# The types of C of which a value may be missing.
OPTIONAL = [*AGGREGATED, *FLOATS]
# The least and the greatest value: the name of the call, the word for it, and its definition.
EXTREMES = [("min", "least", "LeastOf"), ("max", "greatest", "GreatestOf")]
# The same of floats, with the order in which the result is the first number, and where a number is
# that precedes another one in it.
FLOAT_EXTREMES = [("min", "least", "upwards", "below"), ("max", "greatest", "downwards", "above")]
# The types that processors have vectors of.
LANES = {name: [it for it in numbers if it.bits < 128] for name, numbers in WHOLE.items()}
# The comparisons of floats, by the name of the call and by that of IEEE 754.
FLOAT_TESTS = {"equal": "eq", "not_equal": "ne", "less": "lt", "less_or_equal": "le"}
# The comparisons of floats that are types: the name, the call that has the result, its sides, and
# the words of docstrings.
FLOAT_COMPARISONS = [
    ("Equal", "equal", "left", "right", "two values are equal"),
    ("NotEqual", "not_equal", "left", "right", "two values aren't equal"),
    ("Less", "less", "left", "right", "left value is less than the right one"),
    ("LessOrEqual", "less_or_equal", "left", "right",
     "left value is less than the right one, or equal to it"),
    ("Greater", "less", "right", "left", "left value is greater than the right one"),
    ("GreaterOrEqual", "less_or_equal", "right", "left",
     "left value is greater than the right one, or equal to it"),
]
# The results of comparisons of whole numbers and of floats: the file, the type's trait, its
# function to numbers of contracts, the word for a value, and whether 64 of them are faster one by
# one.
TRUTHS = [
    ("truths", "CompareLanes", "number", "value", "T::SIZE >= 8"),
    ("floats/truths", "FloatLanes", "float", "float", "false"),
]
# The operators of two floats, by the name of the call.
FLOAT_SIGNS = {"equal": "==", "not_equal": "!=", "less": "<", "less_or_equal": "<="}
# The allocators for tests that forward requests, by the name of the file that has them.
ALLOCATORS = {"handle": "Handle", "refusing": "Refusing"}
# The sets of bits with their counts, by the name of the file that has them.
RANKED = {"ranked": "Ranked", "ranked_buffer": "RankedBuffer"}


@dataclass(frozen=True)
class Operator:
    """An operator on two bits, by its name in C."""

    name: str
    variant: str
    # The names of the operator in vb_pair: in calls, and as a type.
    kernel: str
    merged: str
    # The condition under which the result is true, in the words of docstrings: `one` as a sentence
    # about the first bit, and `both` as one about both bits.
    one: str
    both: str

    def __str__(self) -> str:
        return self.name

    def of_one(self, bit: str, other: str) -> str:
        return self.one.format(bit=bit, other=other)

    def of_both(self, bit: str, other: str) -> str:
        return self.both.format(bit=bit, other=other)


AND = Operator(
    "and", "And", "and", "Both", "{bit} is true and {other} is", "{bit} and {other} are true",
)
OR = Operator(
    "or", "Or", "or", "Either", "{bit} is true or {other} is", "{bit} or {other} is true",
)
XOR = Operator(
    "xor", "Xor", "xor", "OneAlone", "{bit} is another than {other}", "{bit} differs from {other}",
)
AND_NOT = Operator(
    "and_not", "AndNot", "andnot", "LeftAlone", "{bit} is true and {other} isn't",
    "{bit} is true and {other} isn't",
)
OPERATORS = [AND, OR, XOR, AND_NOT]
# The operators of processors on words: the sign, and the function of contracts with its names.
OF_WORDS = [
    (AND, "&", ["◌&&◌"], "a && b"), (OR, "|", ["◌||◌"], "a || b"),
    (XOR, "^", ["cond", "not"], "cond a (not b) b"),
]
# When the result for two sets is true, in the words of BitBuffer and in those of BitBufferView.
IN_SETS = [
    (AND, "both sets are true"), (OR, "this set, `right` or both are true"),
    (XOR, "the sets differ"), (AND_NOT, "this set is true and `right` is false"),
]
IN_VIEWS = [
    (AND, "both views are true"), (OR, "at least one of the views is true"),
    (XOR, "the views differ"), (AND_NOT, "this view is true and the other one false"),
]
# The operands that an operator on sets takes by value, or by reference as "&", and what it drops.
SIDES = {
    ("", ""): "Drops both sets on error.", ("", "&"): "Drops the left operand on error.",
    ("&", ""): "Drops the right operand, also on error.", ("&", "&"): "",
}
# The operators of Rattle on sets, with the words for their results and their operands.
OF_SETS = [
    (AND, "both sets", [*SIDES]), (OR, "at least one of the sets", [*SIDES][:2] + [("&", "&")]),
    (XOR, "exactly one of the sets", [("", "&"), ("&", "&")]),
]


@dataclass(frozen=True)
class Sought:
    """The value of the bits that a search looks for."""

    value: bool

    def __str__(self) -> str:
        return "set" if self.value else "unset"

    @property
    def ending(self) -> str:
        """The end of the names of its functions."""
        return "" if self.value else "_unset"

    @property
    def truth(self) -> str:
        """The value in Rattle."""
        return str(self.value).lower()

    def of(self, bits: str) -> str:
        """Returns, in contracts, the bits in which such a bit is a set one."""
        return bits if self.value else f"(complement {bits})"


SOUGHT = [Sought(True), Sought(False)]

# The functions of vb_group that undo an addition that stops, with the function that adds and the
# mask in proofs.
UNDONE = [
    ("add_any_or_undo", "add_selected", "option_map bits_of c.args.mask"),
    ("add_few_or_undo", "add_few", "Some (bits_of c.args.mask)"),
]
