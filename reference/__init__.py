"""The reference: pages of all crates and headers, made from their sources.

rust_text, rust_items and rust_heads read .rt files. antt_text and antt_items read .antt files.
c_headers and cpp_headers read headers, and rustdoc reads the output of cargo doc. library knows the
crates, and what a name means in each. languages knows which calls of C, C++, Rust and Rattle
are the same. scopes and links find what each word of a clause means. examples finds a call of
each item in the tests. fragments, item_pages, sight, crate_pages, antt_pages, header_pages and site
make the pages; checks looks through them. browser and browser_test read them.
"""
import sys
from pathlib import Path

# Where the modules are that read the documents.
sys.path.append(str(Path(__file__).resolve().parent.parent / "tools"))
