"""Which call is shown as the example of a method that has namesakes."""
import unittest
from pathlib import Path

from reference.site import Site
from reference.tests.fixture import Repository

COUNTER, USER = "crates/low/src/counter.rt", "crates/use_low/src/lib.rt"
MODEL = "use std::marker::Model;\n"
IMPORTED = (COUNTER, MODEL, f"use crate::step::Step;\n{MODEL}")
OWN = "    /// Steps.\n    pub fn step(&mut self, n: usize) {}\n"
CALLED = (USER, "    counter.add(1);\n", "    counter.add(1);\n    counter.step(2);\n")


def step_of(kind: str) -> str:
    """Returns an implementation of `Step` for a type."""
    ghosts = "    ghost far = { λ n. n };\n\n"
    return f"impl Step for {kind} {{\n{ghosts}    fn step(&mut self, n: usize) {{}}\n}}\n\n"


def shown(before: str, own: str = "") -> list[str]:
    """Returns the heads of the blocks whose `step` has an example. `before` and `own` are texts
    before the methods of the type and among them."""
    methods = (COUNTER, "impl Counter {\n", f"{before}impl Counter {{\n{own}")
    with Repository(IMPORTED, methods, CALLED) as root:
        examples = Site(Path(root)).fragments.examples
    called = [it.called for it in examples.best.values() if it.called.name == "step"]
    return [it.owner.head_text for it in called]


class Namesakes(unittest.TestCase):
    def test_a_method_of_a_type_comes_before_that_of_a_trait(self):
        self.assertEqual(shown(step_of("Counter")), ["pub trait Step"])
        self.assertEqual(shown(step_of("Counter"), OWN), ["impl Counter"])

    def test_what_a_trait_says_of_references_is_no_method_of_the_type(self):
        self.assertEqual(shown(step_of("&mut Counter")), [])
        self.assertEqual(shown(step_of("&mut Counter"), OWN), ["impl Counter"])


if __name__ == "__main__":
    unittest.main()
