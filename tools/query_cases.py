"""Command lines for `run_query`, with the output that SQLite and demo/'s program give for them.

`of_query` returns the cases for tools/check-program. Rows, counts and extremes come from SQLite,
which Python has, and sums from its rows; reports and pictures come from demo/'s program, if
`demo/query` has built it.
"""
import csv
import io
import random
import sqlite3
import subprocess
import sys
import tempfile
from collections.abc import Callable
from dataclasses import dataclass, field
from pathlib import Path

DEMO = Path(__file__).resolve().parent.parent / "demo/target/release/query"
SEEDS = 20
EACH = 12
KINDS = {"size": "integer", "rank": "integer", "mass": "real", "name": "text", "the note": "text"}
WHOLES = ["0", "7", "-3", "12", "9223372036854775807", "-9223372036854775808"]
FLOATS = ["0.5", "-2.25", "3.0", "1e3", "11.464"]
TEXTS = ["a", "Zebra", "é", "x,y", 'q"q', "line\nbreak", "10", "it's"]
VALUES = {"integer": WHOLES, "real": FLOATS, "text": TEXTS}
COMPARISONS = ["=", "<>", "<", "<=", ">", ">="]
# More rows than a batch has.
MANY = 70_000
NO_ROW = "there is no such row: {} are kept\n"
READS = " reads it as numbers, or names the first line where it has none"
# Wrong command lines, and their messages.
WRONG = [
    ([], "one CSV file is wanted, 0 are given; --help lists the options\n"),
    (["--what", "t.csv"], "there is no option --what; --help lists the options\n"),
    (["none.csv"], "none.csv: No such file or directory (os error 2)\n"),
    (["t.csv", "--where", "size > 1", "--where=size > 2"],
     "--where is given twice; --help lists the options\n"),
    (["t.csv", "--svg", "same", "--out", "same"],
     "same: --out and --svg both write to this file\n"),
    (["t.csv", "--nth", "0"],
     '--nth "0": a whole number from 1 on is wanted; --help lists the options\n'),
    (["t.csv", "--where", "size >"],
     "--where: a column, a number or a text is wanted here\n  size >\n        ^\n"),
    (["t.csv", "--where", "none = 1"],
     '--where: there is no column "none"; the columns are size, rank, mass, name, the note\n'
     "  none = 1\n  ^\n"),
    (["t.csv", "--where", "name = 1"],
     "--where: column \"name\" is text; a text is wanted, as '1'; --type \"name\"=whole" + READS +
     "\n  name = 1\n         ^\n"),
    (["t.csv", "--where", "size > 0 or 2.5 < \"the note\""],
     "--where: column \"the note\" is text; a text is wanted, as '2.5'; --type \"the note\"=float" +
     READS + "\n  size > 0 or 2.5 < \"the note\"\n              ^\n"),
    (["t.csv", "--where", "mass = '4'"],
     '--where: column "mass" has numbers; a number without quotes is wanted; --type "mass"=text '
     "reads it as texts\n  mass = '4'\n         ^\n"),
    (["t.csv", "--where", "size = name"],
     '--where: column "name" is text and column "size" is whole; numbers compare with numbers, and '
     'texts with texts; --type "size"=text makes both texts\n  size = name\n         ^\n'),
    (["t.csv", "--where", "name = mass"],
     '--where: column "mass" is float and column "name" is text; numbers compare with numbers, and '
     'texts with texts; --type "mass"=text makes both texts\n  name = mass\n         ^\n'),
    (["t.csv", "--histogram", "name"],
     "--histogram: this column is text; one of numbers is wanted; --type COLUMN=float" + READS +
     "\n  name\n  ^\n"),
    (["t.csv", "--rows", "--svg", "picture.svg", "--histogram", "name"],
     "--histogram: this column is text; one of numbers is wanted; --type COLUMN=float" + READS +
     "\n  name\n  ^\n"),
    (["t.csv", "--type", "name=whole"],
     't.csv:2: column "name": "a" is not a whole number of 64 bits, the type of this column\n'),
    (["t.csv", "--columns", "size"],
     "--columns is for --rows and --out, of which neither is given; --help lists the options\n"),
    (["t.csv", "--rows", "--columns", "size, none"],
     '--columns: there is no column "none"; the columns are size, rank, mass, name, the note\n'
     "  size, none\n        ^\n"),
    (["t.csv", "--rows", "--columns", "size,"],
     "--columns: a column is wanted here\n  size,\n       ^\n"),
    (["t.csv", "--rows", "--columns", "the note"],
     "--columns: a comma or the end is wanted here\n  the note\n      ^\n"),
    (["t.csv", "--rows", "--columns", "count(size)"],
     "--columns: a comma or the end is wanted here\n  count(size)\n       ^\n"),
    (["t.csv", "--rows", "--columns=size", "--columns=rank"],
     "--columns is given twice; --help lists the options\n"),
    (["-", "t.csv"], "one CSV file is wanted, 2 are given; --help lists the options\n"),
    (["-"], "/dev/stdin: not a regular file; it is read twice, so save the data to a file first\n"),
    (["t.csv", "--where", "size in 1"], '--where: "(" is wanted here\n  size in 1\n          ^\n'),
    (["t.csv", "--where", "size in ()"],
     "--where: a column, a number or a text is wanted here\n  size in ()\n           ^\n"),
    (["t.csv", "--where", "size not in (1, rank, 3"],
     '--where: a comma or ")" is wanted here\n  size not in (1, rank, 3\n' + " " * 25 + "^\n"),
    (["t.csv", "--where", "size in (1, 'a')"],
     '--where: column "size" has numbers; a number without quotes is wanted; --type "size"=text '
     "reads it as texts\n  size in (1, 'a')\n              ^\n"),
    (["t.csv", "--where", "size not 1"],
     '--where: "in" is wanted here\n  size not 1\n           ^\n'),
    (["t.csv", "--where", "size 1"],
     '--where: a comparison, as "=" or "<", "is" or "in" is wanted here\n  size 1\n       ^\n'),
    (["t.csv", "--select", "mean(size)"],
     "--select: count, sum, min, max or avg is wanted here\n  mean(size)\n  ^\n"),
    (["t.csv", "--where", "size-esm = 1"],
     '--where: "-esm" isn\'t a number; a name with such characters is between double quotes\n'
     "  size-esm = 1\n      ^\n"),
    (["t.csv", "--where", "size = -1x"],
     '--where: "-1x" isn\'t a number; a name with such characters is between double quotes\n'
     "  size = -1x\n         ^\n"),
    (["t.csv", "--where", "size = 1x"],
     '--where: "1x" isn\'t a number\n  size = 1x\n         ^\n'),
    (["t.csv", "--where", "size ! 1\r\nor rank = 1"],
     "--where: '!' begins no word of a condition\n  size ! 1\u240d\n       ^\n"),
    (["t.csv", "--where", "size size !"],
     "--where: '!' begins no word of a condition\n  size size !\n            ^\n"),
    (["t.csv", "--select", "sum(", "--where", "size >"],
     "--where: a column, a number or a text is wanted here\n  size >\n        ^\n"),
    (["t.csv", "--select", "sum(size"], '--select: ")" is wanted here\n  sum(size\n          ^\n'),
]
# Files that aren't CSV, and their messages.
MALFORMED = {
    b'a,b\n1,"2\n': '2: column "b": the quote that begins this field is never closed',
    b'a,b\n1,"2"x\n': '2: column "b": "x" follows the closing quote; a delimiter or the end of the '
                      "line is wanted",
    b"a,b\n1\n": "2: 1 field; 2 are wanted: a, b; --short-rows allows for missing ones",
    b"a,b\n1,2\n3,4,5\n": "3: 3 fields; 2 are wanted: a, b",
    b"a,b\n1,2\r3\n": '2: column "b": a carriage return without a line feed; lines end in LF or '
                       "CRLF, and other carriage returns are quoted",
    b"": "1: the file is empty; a row with the names of the columns is wanted",
    b"\xff\xfea": "1: column 1: the file is UTF-16; UTF-8 is wanted",
}


# Options for a file in which columns have the same name, with the name, the number of these
# columns, and the first two of them.
ALIKE = b"a,b,A,a,b,a\n1,2,3,4,5,6\n"
ALIKE_CASES = [
    (["--where", "a = 1"], "--where", "a", 3, 1, 4, "  a = 1\n  ^\n"),
    (["--where", "A = 1 and B > 1"], "--where", "B", 2, 2, 5, "  A = 1 and B > 1\n            ^\n"),
    (["--select", "sum(A), max(b)"], "--select", "b", 2, 2, 5,
     "  sum(A), max(b)\n              ^\n"),
    (["--rows", "--columns", "A, a"], "--columns", "a", 3, 1, 4, "  A, a\n     ^\n"),
    (["--type", "b=text"], "--type", "b", 2, 2, 5, "  b\n  ^\n"),
    (["--histogram", "a"], "--histogram", "a", 3, 1, 4, "  a\n  ^\n"),
]
# Columns to write, by their numbers, from a file with these names.
NAMED = ["a", "b c", "and", "D", ""]
COLUMNS = [
    ("a", [0]),
    ('D, "b c", a', [3, 1, 0]),
    ("a, a, d", [0, 0, 3]),
    ('"and" , c5', [2, 4]),
    ('c5,D,"and","b c",A', [4, 3, 2, 1, 0]),
]
# Files without a header line whose rows may be short, with the number of columns.
SHORT = [
    (b"1\n2,x\n3,,z\n", 3),
    (b"1,2\n\n3\n", 2),
    (b"\n\n4\n5\n", 1),
    (b"1;2\n,,\"a,b\n\",,9\n3", 5),
    (b"a,b,c\n1,2,3\n", 3),
]
# Files with one value in a column, which is named, and the number of rows.
BLANK = [
    (b'a,b\n\n""\n1,2\n', "b", 1),
    (b'a\n\n""\n1\n', "a", 3),
]
# Columns with their means.
MEANS = [
    (["1", "2", "", "6"], "3.0"),
    (["9223372036854775807", "9223372036854775807", "4"], "6.148914691236517e18"),
    (["0.5", "-2.25", "1e3"], "332.75"),
    (["1e308", "1e308", "-1e308"], "3.333333333333333e307"),
    (["-1e308", "1e308", "0.5", "1e308", "-1e308"], "0.1"),
    (["1", "2", "2"], "1.6666666666666667"),
    (["", ""], ""),
    (["a", "b"], ""),
]
LONG = "a name that is too long for a picture"
# Files and options for pictures to compare.
PICTURES = [
    (f"{LONG}, as it is the name of the file.csv", "size\n1\n2\n", []),
    ("t.csv", "size\n1\n2\n", ["--where", f"size > 1 and not size = {'1' * 18} or size < -1e300"
                                " or size > 123456789 or size >= 12345678"]),
    ("t.csv", f"{LONG},b\n1,2\n2,3\n", ["--where", "b > 2"]),
    ("t.csv", "\u8868\u8a08\u7b97" * 20 + "\n" + "1.5\n" * 341, []),
    ("t.csv", "n\n" + "".join(f"{i * 9 ** 18}\n" for i in range(-60, 61)),
     ["--where", "n > 0 or n < -9e18"]),
    ("t.csv", "n\n" + "".join(f"{i}\n" for i in range(487)), ["--where", "n <> 7 and n <> 250"]),
    ("t.csv", "n\n" + "".join(f"{2 ** 63 - i}\n" for i in range(1, 101)), []),
    ("t.csv", "n\n", ["--where", "n is null"]),
]


@dataclass
class Query:
    """A command line over files, with its output, None if `to` is set, and the files that it
    writes."""

    name: str
    arguments: list[str]
    output: bytes | None
    complaint: str = ""
    status: int = 0
    files: dict[str, bytes] = field(default_factory=dict)
    written: dict[str, bytes] = field(default_factory=dict)
    # The file that is standard input, or the bytes of a pipe; otherwise standard input is empty.
    given: str = ""
    piped: bytes = b""
    to: Callable[[], int] | None = None
    before: Callable[[], None] | None = None


class Table:
    """A table of random rows, as the bytes of a file and in SQLite."""

    def __init__(self, chance: random.Random, rows: int):
        self.chance = chance
        self.rows = [[self.value(kind) for kind in KINDS.values()] for _ in range(rows)]
        self.database = sqlite3.connect(":memory:")
        columns = ", ".join(f'"{name}" {kind}' for name, kind in KINDS.items())
        self.database.execute(f"create table t({columns})")
        nulls = [[value or None for value in row] for row in self.rows]
        self.database.executemany("insert into t values (?, ?, ?, ?, ?)", nulls)

    def value(self, kind: str) -> str:
        return "" if self.chance.random() < 0.2 else self.chance.choice(VALUES[kind])

    def literal(self, kind: str) -> str:
        value = self.chance.choice(VALUES[kind])
        return "'" + value.replace("'", "''") + "'" if kind == "text" else value

    def test(self) -> str:
        name, kind = self.chance.choice(list(KINDS.items()))
        sign = self.chance.choice(COMPARISONS)
        others = [f'"{it}"' for it, other in KINDS.items() if (other == "text") == (kind == "text")]
        return self.chance.choice([
            f'"{name}" {sign} {self.literal(kind)}',
            f'{self.literal(kind)} {sign} "{name}"',
            f'"{name}" {sign} {self.chance.choice(others)}',
            f'"{name}" in ({self.literal(kind)}, {self.literal(kind)})',
            f'"{name}" not in ({self.literal(kind)})',
            f'"{name}" is null',
            f'"{name}" is not null',
        ])

    def condition(self, depth: int = 0) -> str:
        if depth == 3 or self.chance.random() < 0.3:
            return self.test()
        left, right = self.condition(depth + 1), self.condition(depth + 1)
        return self.chance.choice([f"{left} and {right}", f"{left} or {right}", f"not {left}",
                                   f"({left} or {right})", f"not ({left} and {right})"])

    def kept(self, condition: str) -> list[int]:
        """Returns the numbers of the rows for which the condition is true, from 1 on."""
        found = self.database.execute(f"select rowid from t where {condition} order by rowid")
        return [row for row, in found]

    def rows_of(self, numbers: list[int]) -> bytes:
        return written([list(KINDS), *(self.rows[number - 1] for number in numbers)])

    def shown(self, number: int) -> bytes:
        """Returns a row as `--nth` prints it."""
        before = [field for row in self.rows[: number - 1] for field in row]
        line = 1 + number + sum(field.count("\n") for field in before)
        widest = max(map(len, KINDS))
        fields = zip(KINDS, self.rows[number - 1])
        lines = [f"  {name:{widest}}  {value}".rstrip().replace("\n", "\u240a")
                 for name, value in fields]
        return "\n".join([f"row {number}, from line {line} on", *lines, ""]).encode()

    def answers(self, answers: list[str], condition: str) -> list[str]:
        """Returns SQLite's result. Its sums stop at 64 bits, so the numbers are added here."""
        found = []
        for answer in answers:
            if answer.startswith("sum"):
                column = list(KINDS).index(answer[5:-2])
                values = [self.rows[number - 1][column] for number in self.kept(condition)]
                found.append(str(sum(map(int, filter(None, values)))) if any(values) else "")
            else:
                query = f"select {answer} from t where {condition}"
                value, = self.database.execute(query).fetchone()
                found.append("" if value is None else str(value))
        return found


def written(rows: list[list[str]]) -> bytes:
    out = io.StringIO()
    csv.writer(out, lineterminator="\n").writerows(rows)
    return out.getvalue().encode()


def of_seed(seed: int) -> list[Query]:
    chance = random.Random(seed)
    table = Table(chance, chance.choice([0, 1, 60, 400]))
    head = list(KINDS)
    file = written([head, *table.rows])
    if seed % 2:
        file = b"\xef\xbb\xbf" + file.replace(b"line\nbreak", b"\0").replace(b"\n", b"\r\n")
        file = file.replace(b"\0", b"line\nbreak")
    # A column without a number is text, unless its type is given.
    given = [it for name, kind in (("size", "whole"), ("rank", "whole"), ("mass", "float"))
             for it in ("--type", f"{name}={kind}")]
    cases = []
    for number in range(EACH):
        condition = table.condition()
        kept = table.kept(condition)
        answers = ["count(*)", "sum(\"size\")", "count(\"name\")", "min(\"name\")", "max(\"rank\")",
                   "min(\"mass\")", "max(\"the note\")"]
        line = ["t.csv", "--where", condition, *given]
        bare = [answer.replace('"', "") for answer in answers]
        found = written([bare, table.answers(answers, condition)])
        name = f"seed {seed}, {number}, "
        files = {"t.csv": file}
        cases += [
            Query(name + "rows", [*line, "--rows"], table.rows_of(kept), files=files),
            Query(name + "answers", [*line, "--select", ", ".join(answers)], found, files=files),
            nth(name, line, table, kept, chance.randint(1, 9), files),
            of_columns(name, line, table, kept, chance.choices(range(len(KINDS)), k=3), files),
        ]
    return cases + like_demo(seed, table, file, given)


def nth(name: str, line: list[str], table: Table, kept: list[int], which: int,
        files: dict[str, bytes]) -> Query:
    """Returns a case for one of the selected rows; `--out` has all of them."""
    line = [*line, "--nth", str(which), "--out", "out.csv"]
    out = {"out.csv": table.rows_of(kept)}
    if which > len(kept):
        return Query(f"{name}no row", line, b"", NO_ROW.format(len(kept)), 1, files, out)
    return Query(f"{name}row {which}", line, table.shown(kept[which - 1]), files=files, written=out)


def of_columns(name: str, line: list[str], table: Table, kept: list[int], columns: list[int],
               files: dict[str, bytes]) -> Query:
    """Returns a case for some columns of the selected rows, in any order."""
    names = list(KINDS)
    rows = [names, *(table.rows[number - 1] for number in kept)]
    out = written([[row[column] for column in columns] for row in rows])
    listed = ", ".join(f'"{names[column]}"' for column in columns)
    line = [*line, "--rows", "--columns", listed]
    return Query(f"{name}columns {listed}", line, out, files=files)


def like_demo(seed: int, table: Table, file: bytes, given: list[str]) -> list[Query]:
    """Returns a report and a picture as demo/'s program prints them, if it is built."""
    if not DEMO.is_file():
        return []
    line = ["t.csv", "--where", table.condition(), *given, "--svg", "picture.svg"]
    return [from_demo(f"seed {seed}, report", line, {"t.csv": file})]


def more() -> list[Query]:
    """Cases of columns of one name, columns to write, standard input, short rows, blank lines,
    pictures, means, and marks."""
    row = [["1", "x", "2.5", "", "z"]]
    of_names = {"t.csv": written([NAMED, *row])}
    columns = [Query(f"--columns {it}", ["t.csv", "--rows", "--columns", it],
                     written([[line[at] for at in places] for line in [NAMED, *row]]),
                     files=of_names) for it, places in COLUMNS]
    alike = [Query(f"columns of one name, {line}", ["t.csv", *line], b"", alike_text(*case), 2,
                   {"t.csv": ALIKE}) for line, *case in ALIKE_CASES]
    short = [Query(f"short rows {file!r}", ["t.csv", "--short-rows", "--no-header", "--select",
                                            f"count(*), count(c{width})"],
                   counted(file, width), files={"t.csv": file}) for file, width in SHORT]
    blank = [Query(f"blank lines in {file!r}", ["t.csv", "--select", f"count(*), count({name})"],
                   f"count(*),count({name})\n{rows},1\n".encode(), files={"t.csv": file})
             for file, name, rows in BLANK]
    pictures = [from_demo(f"the picture of {name}, {line}", [name, *line, "--svg", "picture.svg"],
                          {name: file.encode()}) for name, file, line in PICTURES if DEMO.is_file()]
    means = [Query(f"the mean of {values}", ["t.csv", "--select", "avg(a)"],
                   f"avg(a)\n{mean}\n".encode(), files={"t.csv": written([["a", "b"], *(
                       [value, "0"] for value in values)])}) for values, mean in MEANS]
    marked = Query("a mark of UTF-16", ["t.csv", "--rows", "--no-header", "--columns", "c2"],
                   b'"\xff\xfex"\n', files={"t.csv": b"1,\xff\xfex\n"})
    return [*columns, *alike, *short, *blank, *pictures, *means, marked, *of_input()]


def alike_text(option: str, name: str, count: int, first: int, second: int, pointed: str) -> str:
    return (f'{option}: {count} columns are called "{name}", as column {first} and column '
            f"{second}; rename them in the first line of the file, or read it as a row by "
            f"--no-header, which calls them c{first} and c{second}\n{pointed}")


def counted(file: bytes, width: int) -> bytes:
    """Counts rows, and those with a value in the last column."""
    rows = [row for row in csv.reader(io.StringIO(file.decode())) if row or width == 1]
    values = sum(len(row) == width and row[-1] != "" for row in rows)
    return written([["count(*)", f"count(c{width})"], [len(rows), values]])


def of_input() -> list[Query]:
    """Cases of standard input: a file is read, and a pipe is an error."""
    file = b"a,b\n1,x\n2,y\n"
    files = {"t.csv": file}
    refused = "/dev/stdin: not a regular file; it is read twice, so save the data to a file first\n"
    over = "t.csv: this is the CSV file, which would be written over\n"
    return [
        Query("input, rows", ["-", "--rows"], file, files=files, given="t.csv"),
        Query("input, answers", ["--select", "sum(a)", "-"], b"sum(a)\n3\n", files=files,
              given="t.csv"),
        Query("input behind --", ["--nth=2", "--", "-"], b"row 2, from line 3 on\n  a  2\n  b  y\n",
              files=files, given="t.csv"),
        Query("input that is short", ["-", "--rows", "--short-rows", "--no-header"], b"1,\n2,3\n",
              files={"t.csv": b"1\n2,3\n"}, given="t.csv"),
        Query("input that --out would change", ["-", "--out", "t.csv"], b"", over, 2, files,
              given="t.csv"),
        Query("a pipe", ["-", "--rows"], b"", refused, 2, piped=file),
    ]


def from_demo(name: str, line: list[str], files: dict[str, bytes]) -> Query:
    with tempfile.TemporaryDirectory() as folder:
        for path, content in files.items():
            Path(folder, path).write_bytes(content)
        ended = subprocess.run([DEMO, *line], cwd=folder, capture_output=True)
        pictures = {it.name: it.read_bytes() for it in Path(folder).glob("*.svg")}
    said = ended.stderr.decode().partition("\n")[2]
    return Query(name, line, ended.stdout, said, ended.returncode, files, pictures)


def fixed() -> list[Query]:
    """Cases of wrong command lines and files, and of a file of several batches."""
    table = written([list(KINDS), ["1", "2", "0.5", "a", "b"]])
    wrong = [Query(f"the command line {line}", line, b"", said, 2, {"t.csv": table})
             for line, said in WRONG]
    malformed = [Query(f"the file {file!r}", ["t.csv"], b"", f"t.csv:{said}\n", 2, {"t.csv": file})
                 for file, said in MALFORMED.items()]
    rows = [[str(number), str(number % 7)] for number in range(MANY)]
    line = ["t.csv", "--where", "b = 3 or a >= 69990", "--select", "count(*), sum(a), max(a)"]
    kept = [int(a) for a, b in rows if b == "3" or int(a) >= 69_990]
    found = written([["count(*)", "sum(a)", "max(a)"], [len(kept), sum(kept), max(kept)]])
    many = Query("several batches", line, found, files={"t.csv": written([["a", "b"], *rows])})
    return [*wrong, *malformed, many]


def of_query() -> list[Query]:
    """Returns the cases. A line on standard error names those that are left out without demo/'s
    program."""
    if not DEMO.is_file():
        left_out = SEEDS + len(PICTURES)
        print(f"not compared: {left_out} reports and pictures of run_query, since there is no "
              "demo/target/release/query; demo/query builds it", file=sys.stderr)
    return [*fixed(), *more(), *(case for seed in range(SEEDS) for case in of_seed(seed))]
