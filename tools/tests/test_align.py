"""Tests where bindings/align puts functions, on an object of the assembler."""
import shutil
import subprocess
import tempfile
import unittest
from pathlib import Path

TOP = Path(__file__).resolve().parent.parent.parent
PROGRAMS = ("cc", "ld", "nm", "objdump")
# If they start at 0, a jump of `crossing` ends at byte 32, and `fused` has one that is decoded with
# the subtraction from byte 30 on; no jump of `within` crosses. In `looping` two jumps cross, but at
# 16 that of a loop. `crossing` calls `fused` by a relocation.
CODE = """
.macro function name
.section .text.\\name, "ax", @progbits
.p2align 4
.globl \\name
.type \\name, @function
\\name:
.endm
function crossing
    .fill 30, 1, 0x90
    jmp 1f
1:  call fused
    ret
function fused
    .fill 30, 1, 0x90
    sub %eax, %eax
    jne 1f
    mov $7, %eax
1:  ret
function within
    jmp 1f
1:  ret
function looping
    .fill 31, 1, 0x90
    jmp 1f
1:  .fill 12, 1, 0x90
    dec %ecx
    jne 1b
    .fill 14, 1, 0x90
    jmp 2f
2:  ret
.section .note.GNU-stack
"""
MAIN = "int crossing(void); int main(void) { return crossing(); }\n"


@unittest.skipUnless(all(map(shutil.which, PROGRAMS)), "no compiler for C, or no binutils")
class Align(unittest.TestCase):
    def setUp(self):
        folder = tempfile.TemporaryDirectory()
        self.addCleanup(folder.cleanup)
        self.object = Path(folder.name, "a, b.o")
        self.cc("-x", "assembler", "-c", said=CODE, to=self.object)

    def cc(self, *words: str | Path, said: str, to: Path):
        subprocess.run(["cc", *words, "-", "-o", to], input=said, text=True, check=True)

    def align(self, *words: str | Path) -> tuple[int, str]:
        ended = subprocess.run([TOP / "bindings/align", *words], text=True, capture_output=True)
        return ended.returncode, ended.stderr

    def test_functions_start_where_fewer_jumps_cross(self):
        self.assertEqual(self.align(self.object), (0, ""))
        program = self.object.with_name("program")
        # Code in front of the functions doesn't move them, and `crossing` still finds `fused`.
        self.cc(self.object, "-x", "c", said=MAIN, to=program)
        self.assertEqual(subprocess.run([program]).returncode, 7)
        named = subprocess.run(["nm", program], text=True, check=True, capture_output=True).stdout
        at = {line.split()[2]: int(line.split()[0], 16) % 32 for line in named.splitlines()
              if line.split()[1] == "T"}
        self.assertEqual([at[it] for it in ("crossing", "fused", "within", "looping")],
                         [16, 16, 0, 0])

    def test_a_second_run_changes_nothing(self):
        self.align(self.object)
        once = self.object.read_bytes()
        self.assertEqual(self.align(self.object), (0, ""))
        self.assertEqual(self.object.read_bytes(), once)

    def test_one_object_is_needed(self):
        self.assertEqual(self.align()[0], 2)
        self.assertEqual(self.align("--help")[0], 2)


if __name__ == "__main__":
    unittest.main()
