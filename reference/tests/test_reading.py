"""Whether each page can be read by all readers: colours, headings, heads of tables, a skip link."""
import re
import unittest
from pathlib import Path

from reference.site import Site
from reference.tests.fixture import Repository

STYLE = (Path(__file__).resolve().parent.parent / "style.css").read_text(encoding="utf-8")
PAPERS = {"paper", "panel", "mark"}


def brightness(color: str) -> float:
    parts = [int(color[at : at + 2], 16) / 255 for at in (1, 3, 5)]
    red, green, blue = [
        it / 12.92 if it <= 0.03928 else ((it + 0.055) / 1.055) ** 2.4 for it in parts
    ]
    return 0.2126 * red + 0.7152 * green + 0.0722 * blue


def contrast(one: str, other: str) -> float:
    """How much two colours differ, by WCAG's formula."""
    dark, light = sorted([brightness(one), brightness(other)])
    return (light + 0.05) / (dark + 0.05)


def schemes() -> list[dict[str, str]]:
    """The colours of the light and of the dark pages, by their names."""
    blocks = re.findall(r":root \{(.*?)\}", STYLE, re.DOTALL)
    return [dict(re.findall(r"--(\w+): (#\w{6});", it)) for it in blocks[:2]]


def rule(selector: str) -> str:
    return STYLE.partition(f"\n{selector} {{")[2].partition("}")[0]


class Colours(unittest.TestCase):
    def test_each_colour_of_text_differs_from_each_paper(self):
        self.assertEqual([len(it) > len(PAPERS) for it in schemes()], [True, True])
        for colors in schemes():
            for name in sorted(set(colors) - PAPERS - {"line"}):
                for paper in sorted(PAPERS):
                    with self.subTest(text=name, paper=paper):
                        self.assertGreaterEqual(contrast(colors[name], colors[paper]), 4.5)

    def test_the_chosen_row_of_the_search_differs_from_the_others(self):
        said = rule('#found [aria-selected="true"] a')
        back = re.search(r"background: var\(--(\w+)\)", said)
        text = re.search(r"[ ;]color: var\(--(\w+)\)", said)
        self.assertTrue(back and text, said)
        for colors in schemes():
            row = colors[back.group(1)]
            self.assertGreaterEqual(contrast(row, colors["paper"]), 4.5)
            self.assertGreaterEqual(contrast(row, colors[text.group(1)]), 4.5)
        self.assertIn("inherit", rule('#found [aria-selected="true"] :is(i, span)'))


class Structure(unittest.TestCase):
    @classmethod
    def setUpClass(cls):
        with Repository() as root:
            site = Site(Path(root))
            cls.pages = {url: it.html() for url, it in site.pages.items()}

    def test_headings_begin_with_one_of_the_page_and_leave_no_level_out(self):
        for url, html in self.pages.items():
            levels = [int(it) for it in re.findall(r"<h([1-6])[ >]", html)]
            with self.subTest(page=url):
                self.assertEqual((levels[:1], levels.count(1)), ([1], 1))
                self.assertTrue(all(b <= a + 1 for a, b in zip(levels, levels[1:])), levels)

    def test_heads_of_tables_say_what_they_head(self):
        self.assertIn("<th", self.pages["low/Counter.html"])
        for url, html in self.pages.items():
            with self.subTest(page=url):
                self.assertEqual(re.findall(r"<th(?![^>]* scope=)[ >]", html), [])

    def test_the_first_link_skips_to_the_text(self):
        for url, html in self.pages.items():
            with self.subTest(page=url):
                first = re.search(r"<body.*?(<a .*?</a>)", html, re.DOTALL)
                self.assertIn('href="#main-text"', first.group(1))
                self.assertEqual(html.count('<main id="main-text"'), 1)


if __name__ == "__main__":
    unittest.main()
