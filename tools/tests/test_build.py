"""Tests that bindings/build links its libraries in a folder with any name, over an `rt` that builds
a crate of one C function."""
import shutil
import subprocess
import unittest

from tests.test_parts import Folder

PROGRAMS = ("cc", "ar", "ld", "nm", "objcopy", "objdump")
CRATES = ("vb_c", "vb_c_gather", "vb_c_compare", "vb_c_aggregate")
RT = """name=${PWD##*/}
mkdir -p out
echo "int vb_${name}_one(void) { return 1; }" | cc -fPIC -x c -c - -o "out/$name.o"
ar rc "out/lib$name.a" "out/$name.o\""""


class Build(Folder):
    def setUp(self):
        super().setUp()
        self.top /= "a, b"
        for path in ("tools/parts.sh", "bindings/build", "bindings/wide", "bindings/align"):
            self.copy(path)
        self.command("tools/digest", "echo 0")
        self.command("bin/rt", RT)
        self.command("bindings/c/functions", 'echo vb_shown >"$1/exported"')
        self.write("bindings/c/library/vortex_bits.c", "int vb_shown(void) { return 1; }\n")
        self.write("bindings/rust/Cargo.toml", 'version = "0.1.0"\n')
        self.write("crates.txt", "".join(f"{it} staticlib:\n" for it in CRATES))
        for crate in CRATES:
            self.write(f"crates/{crate}/src/lib.rt", "")

    @unittest.skipUnless(all(map(shutil.which, PROGRAMS)), "no compiler for C, or no binutils")
    def test_a_path_with_a_comma_and_a_space(self):
        status, lines = self.run_it("bindings/build", "x86-64-v2", "x86-64-v3")
        self.assertEqual((status, lines[-1]), (0, "4 passed, 0 failed"), lines)
        library = self.top / "bindings/out/libvortex_bits.so"
        shown = subprocess.run(["nm", "--dynamic", "--defined-only", library], check=True,
                               capture_output=True, text=True).stdout
        self.assertIn(" T vb_shown@@VORTEX_BITS_0_1\n", shown)
        # bindings/align was called for the functions of each level and for those in front of them.
        for archive in ("out/libvortex_bits.a", "rust/native/libvortex_bits_0_1_v3.a"):
            listed = subprocess.run(["objdump", "-hw", self.top / "bindings" / archive], check=True,
                                    capture_output=True, text=True).stdout
            code = [line.split() for line in listed.splitlines() if "CODE" in line]
            self.assertTrue(code)
            self.assertEqual({it[6] for it in code if int(it[2], 16)}, {"2**5"}, listed)


if __name__ == "__main__":
    unittest.main()
