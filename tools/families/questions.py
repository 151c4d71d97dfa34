"""The table of questions about one window, and about two windows of one length.

The template questions.txt uses it. A question about two windows that is added here, after its plain
form in bindings/rust/src/portable, gets its functions and their tests in C, C++ and Rust by
tools/write-lists. Its kernel in vb_pair is written too if it returns a truth value; one that finds
an index comes first. A question about one window gets functions in C.
"""
import textwrap
from dataclasses import dataclass

from families.types import AND, AND_NOT, Operator


@dataclass(frozen=True)
class Answer:
    """A type of answers, by its names in each language."""

    rattle: str
    c: str
    cpp: str
    rust: str


TRUTH = Answer("bool", "bool", "bool", "bool")
PLACE = Answer("Place", "vb_place", "std::optional<std::size_t>", "Option<usize>")


class Question:
    """What the functions of a question have in common. It has a `name` and an `answer`; `value`,
    the name of an index that is a parameter too, or an empty text; and `told`, the docstring of its
    C function."""

    def __str__(self) -> str:
        return self.name

    @property
    def into(self) -> str:
        """Converts the kernel's answer to one for C."""
        return ".into()" if self.answer == PLACE else ""

    def then(self, text: str) -> str:
        """Returns the text with the value; an empty one if the question has none."""
        return text.format(value=self.value) if self.value else ""

    def given(self, result: str) -> str:
        """Returns the answer in contracts."""
        return f"(answered_place {result})" if self.answer == PLACE else f"IsTrue {result}"


@dataclass(frozen=True)
class Single(Question):
    """A question about one window."""

    name: str
    answer: Answer
    out: str
    told: str
    claim: str
    value: str = ""

    kernels, where = "vb_select", "the window is in the bytes"
    bytes = "bytes: &[u8],\n    offset: usize"
    c = "const uint8_t *bytes, size_t size, size_t offset"
    window, names = "InBytes bytes.now offset len", "bytes, offset"
    fits, tested = f"window {{ {window} }}", "!window_fits(bytes, offset, len)"
    rust, native = "bits: Bits<'_>", "window bits"

    def clause(self, result: str) -> str:
        return self.claim.format(self.given(result))


@dataclass(frozen=True)
class Pair(Question):
    """A question about two windows, combined by an operator: whether no bit is then set, or which
    one is the first at or after an index."""

    name: str
    operator: Operator
    answer: Answer
    out: str
    # What the kernel in vb_pair returns, if it is a truth value, and where a bit is set that
    # decides.
    states: str
    found: str
    # The docstring of the C function in its crate, and that of the Rust methods.
    told: str
    method: str
    alias: str
    # The assertion in the example of the Rust methods. In that of a `Bitmap`, `left` has the bits
    # true and false, and `right` has true and true.
    example: str
    owned_example: str
    # The answer in Rust if all bits of the right window are set.
    missing: str
    value: str = ""

    kernels, where = "vb_pair", "both windows are in their bytes"
    bytes = "left: &[u8],\n    l: usize,\n    right: &[u8],\n    r: usize"
    c = ("const uint8_t *left, size_t left_size, size_t left_offset, const uint8_t *right, "
         "size_t right_size, size_t right_offset")
    window, names = "BothInBytes left.now l right.now r len", "left, l, right, r"
    fits, tested = f"{{ {window} }}", "!window_fits(left, l, len) || !window_fits(right, r, len)"
    rust, native = "left: Bits<'_>, right: Bits<'_>", "start left, window right"

    def clause(self, result: str) -> str:
        windows = "(bits left.now l len) (bits right.now r len)"
        merged = f"(combined_by {self.operator.variant} {windows})"
        if self.answer == PLACE:
            return f"IsNext {merged}¦{self.value} {self.given(result)}"
        return f"{self.given(result)}¦↔ (count {merged} ≡ 0)"

    @property
    def word(self) -> str:
        """Combines two bits, or two words, in Rust."""
        words = {"And": "a & b", "Or": "a | b", "Xor": "a ^ b", "AndNot": "a & !b"}
        return words[self.operator.variant]

    @property
    def table(self) -> str:
        """Bit 2 * left + right is the operator's result for two bits."""
        tables = {"And": "0x8", "Or": "0xE", "Xor": "0x6", "AndNot": "0x4"}
        return tables[self.operator.variant]


@dataclass(frozen=True)
class Group:
    """Questions with one comment in the C header, which has an example, and one in C++."""

    c: str
    example: list[str]
    cpp: str
    questions: list[Pair]

    @property
    def comment(self) -> list[str]:
        return [*textwrap.wrap(self.c, 97), ""] + [f"    {it}" for it in self.example]


NEAREST = [
    Single(
        "next_set", PLACE, "place",
        "Returns the index of the first set bit at or after index `from` of the `len` bits from "
        "bit `offset` on; finds none if there is none, or if `from` is at least `len`. Reads a "
        "word, then the next one, and then four words at a time, up to those that have the bit.",
        "IsNext (bits bytes.now offset len) from {}", "from",
    ),
    Single(
        "next_unset", PLACE, "place",
        "Returns the index of the first unset bit at or after index `from` of the `len` bits from "
        "bit `offset` on; finds none if there is none, or if `from` is at least `len`. Reads as "
        "[`vb_next_set`] does.",
        "IsNext (complement (bits bytes.now offset len)) from {}", "from",
    ),
    Single(
        "previous_set", PLACE, "place",
        "Returns the index of the last set bit before index `before` of the `len` bits from bit "
        "`offset` on; finds none if there is none. A `before` of at least `len` searches all bits. "
        "Reads the word before that index, and then words towards the front, eight at once.",
        "IsPrevious (bits bytes.now offset len) before {}", "before",
    ),
    Single(
        "previous_unset", PLACE, "place",
        "Returns the index of the last unset bit before index `before` of the `len` bits from bit "
        "`offset` on; finds none if there is none. A `before` of at least `len` searches all bits. "
        "Reads as [`vb_previous_set`] does.",
        "IsPrevious (complement (bits bytes.now offset len)) before {}", "before",
    ),
]
TESTS = [
    Single(
        "any_set", TRUTH, "any",
        "Returns whether any of the `len` bits from bit `offset` on is set (false for no bits). "
        "Reads up to 64 bits as one word; of more bits the first eight bytes, then the last eight, "
        "then the words between, eight at once, up to those with a set bit.",
        "{} ↔ (0 < count (bits bytes.now offset len))",
    ),
    Single(
        "all_set", TRUTH, "all",
        "Returns whether all of the `len` bits from bit `offset` on are set (true for no bits). "
        "Reads as [`vb_any_set`] does, up to the bytes or words with an unset bit.",
        "{} ↔ (count (bits bytes.now offset len) ≡ len)",
    ),
]
OF_PAIRS = [
    Group(
        "Returns whether no bit is set in both windows, or whether each set bit of the left one is "
        "set in the right one; both hold for no bits. Reads up to the first word that decides.",
        [
            "const uint8_t left[] = {0x0C}, right[] = {0x0E};",
            "assert(vb_is_subset(left, 1, 0, right, 1, 0, 4));",
            "assert(vb_is_disjoint(left, 1, 0, right, 1, 4, 4));",
        ],
        "Returns whether no bit is set in both, and whether each bit set here is set in `right`.",
        [
            Pair(
                "is_disjoint", AND, TRUTH, "disjoint", "no bit is set in both windows", "both",
                "Returns whether no index below `len` has a set bit in both windows: `left` from "
                "bit `l` on, and `right` from bit `r` on (true for no bits). Reads up to the first "
                "word that has such an index.",
                "Returns whether no bit is set both here and in `right`. Stops after the first "
                "word that has one.",
                "intersects",
                "assert!(left.slice(..2).is_disjoint(right.slice(..2)) && "
                "!left.is_disjoint(right));",
                "assert!(left.is_disjoint(!&left) && !left.is_disjoint(&right));",
                "!self.any()",
            ),
            Pair(
                "is_subset", AND_NOT, TRUTH, "subset",
                "each set bit of the left window is also set in the right one",
                "the left window only",
                "Returns whether each index below `len` that has a set bit in `left` from bit `l` "
                "on also has one in `right` from bit `r` on (true for no bits). Reads up to the "
                "first word that has a bit set in `left` alone.",
                "Returns whether each bit set here is set in `right`. Stops after the first word "
                "with one that isn't.",
                "contains",
                "assert!(left.is_subset(right) && !right.is_subset(left));",
                "assert!(left.is_subset(&right) && !right.is_subset(&left));",
                "true",
            ),
        ],
    ),
]
PAIRS = [it for group in OF_PAIRS for it in group.questions]
# Whether one of them finds an index, and the operators that their contracts name.
PLACES = any(it.answer == PLACE for it in PAIRS)
VARIANTS = ", ".join(sorted({it.operator.variant for it in PAIRS}))
