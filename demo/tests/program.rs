//! The program as its user sees it: what it prints.

mod support;

use std::fs::{self, File};
use std::io::{self, Write};
use std::path::Path;
use std::process::Command;

use support::{Folder, error, printed, program, run};

const PARCELS: &str = concat!(env!("CARGO_MANIFEST_DIR"), "/parcels.csv");

#[test]
fn answers_about_the_parcels() {
    let file = Path::new(PARCELS);
    assert_eq!(
        printed(
            file,
            &[
                "--select",
                "count(*), count(days), sum(cents), min(weight), max(city)"
            ]
        ),
        "count(*),count(days),sum(cents),min(weight),max(city)\n120,113,126584,0.147,Wien\n"
    );
    assert_eq!(
        printed(
            file,
            &["--where", "weight > 2.5 and days is null", "--rows"]
        ),
        "parcel,city,weight,cents,days,note\nP0000080,Linz,7.667,2010,,\n\
         P0000110,Graz,4.826,1369,,\n"
    );
    assert_eq!(
        printed(
            file,
            &[
                "--where",
                "days > 100",
                "--select",
                "count(*), count(days), sum(days)"
            ]
        ),
        "count(*),count(days),sum(days)\n0,0,\n"
    );
    // A text column has no sum.
    assert_eq!(
        printed(file, &["--select", "count(city), sum(city)"]),
        "count(city),sum(city)\n120,\n"
    );
}

#[test]
fn the_nth_of_the_parcels() {
    let args = ["--where=note = 'ring twice\nsecond floor'", "--nth=2"];
    let row = printed(Path::new(PARCELS), &args);
    assert!(
        row.starts_with("row 18, from line 20 on\n  parcel  P0000018\n"),
        "{row}"
    );
}

/// The first row that it looks for is in the second batch of rows.
#[test]
fn the_nth_of_many_rows() {
    let folder = Folder::new("nth");
    let numbers: Vec<String> = (0..100_000).map(|row: u32| row.to_string()).collect();
    let file = folder.file("n.csv", format!("n\n{}\n", numbers.join("\n")));
    let row = printed(&file, &["--where", "n >= 50000", "--nth", "40000"]);
    assert_eq!(row, "row 90,000, from line 90,001 on\n  n  89999\n");
    let row = printed(&file, &["--where", "n >= 50000", "--nth", "1"]);
    assert_eq!(row, "row 50,001, from line 50,002 on\n  n  50000\n");
}

#[test]
fn a_report() {
    let report = printed(Path::new(PARCELS), &["--where", "not days <= 5"]);
    let lines: Vec<&str> = report.lines().collect();
    assert!(
        lines[0].ends_with("parcels.csv: 120 rows, 6 columns; 21 kept, 17.5 %"),
        "{}",
        lines[0]
    );
    assert_eq!(lines[1], "where not days <= 5");
    let strip = lines
        .iter()
        .position(|line| line.starts_with("kept rows"))
        .unwrap()
        + 1;
    assert_eq!(lines[strip].chars().count(), 72);
    assert!(
        lines[strip].chars().all(|it| "·░▒▓█".contains(it)),
        "{}",
        lines[strip]
    );
    assert!(lines[strip + 1].starts_with("row 1 ") && lines[strip + 1].ends_with(" row 120"));
}

#[test]
fn labels_of_few_rows_stand_apart() {
    let folder = Folder::new("few");
    let file = folder.file("few.csv", "a\n1\n2\n3\n");
    let report = printed(&file, &["--where", "a > 1"]);
    assert!(report.contains("\n·██\nrow 1 row 3\n"), "{report}");
}

#[test]
fn the_code_that_runs_is_told_in_a_line() {
    let output = run(Path::new(PARCELS), &[]);
    let errors = String::from_utf8(output.stderr).unwrap();
    assert!(
        errors.starts_with("the bit functions are ") && errors.lines().count() == 1,
        "{errors}"
    );
}

#[test]
fn rows_are_copied_as_they_are() {
    let folder = Folder::new("copied");
    let text = "\"n,1\";t\n\"a;b\";\"say \"\"hi\"\"\"\n007;\"two\nlines\"\n;\n";
    let file = folder.file("in.csv", text);
    assert_eq!(
        printed(&file, &["--delimiter", ";", "--rows"]),
        text.replace("\"n,1\"", "n,1")
    );
    let out = folder.path("out.csv");
    let args = [
        "--delimiter=;",
        "--where",
        "\"n,1\" = '007'",
        "--out",
        out.to_str().unwrap(),
    ];
    assert!(printed(&file, &args).contains("1 kept"));
    assert_eq!(
        fs::read_to_string(out).unwrap(),
        "n,1;t\n007;\"two\nlines\"\n"
    );
}

#[test]
fn a_header_line_is_copied_as_it_is() {
    let folder = Folder::new("names");
    let file = folder.file("in.csv", b"a,,\xE4\n1,2,3\n");
    let output = run(&file, &["--rows", "--where", "c2 = 2"]);
    assert_eq!(output.stdout, b"a,,\xE4\n1,2,3\n");
}

/// A file that begins with such a mark is refused.
#[test]
fn a_field_with_a_mark_of_utf_16_is_quoted() {
    let folder = Folder::new("marks");
    let file = folder.file("in.csv", b"1,\xFF\xFEx\n2,\xFE\xFF\n");
    let output = run(&file, &["--no-header", "--rows", "--columns", "c2"]);
    assert_eq!(output.stdout, b"\"\xFF\xFEx\"\n\"\xFE\xFF\"\n");
}

#[test]
fn columns_of_one_name() {
    let folder = Folder::new("twice");
    let file = folder.file("in.csv", "a,b,A,b\n1,2,3,4\n");
    let select = ["--select", "sum(a),sum(A)"];
    assert_eq!(printed(&file, &select), "sum(a),sum(A)\n1,3\n");
    let wanted =
        "2 columns are called \"B\", as column 2 and column 4; rename them in the first line";
    assert!(error(&file, &["--where", "B = 2"]).contains(wanted));
    let rows = printed(&file, &["--no-header", "--where", "c4 = '4'", "--rows"]);
    assert_eq!(rows, "1,2,3,4\n");
}

#[test]
fn files_without_a_header_line() {
    let folder = Folder::new("header");
    let file = folder.file("passwd", "root:x:0:\"\nbin:x:2:\n\nsync:x:4:a\"b");
    let args = ["--no-header", "--no-quotes", "--delimiter", ":"];
    let rows = |more: &[&str]| printed(&file, &[&args, more].concat());
    assert_eq!(
        rows(&["--where", "c3 >= 2", "--rows"]),
        "bin:x:2:\nsync:x:4:a\"b\n"
    );
    assert_eq!(
        rows(&["--select", "min(c4),max(c3)"]),
        "min(c4):max(c3)\n\":4\n"
    );
}

#[test]
fn short_rows() {
    let folder = Folder::new("short");
    let file = folder.file("short.csv", "a,b,c\n1\n2,x\n\n3,,z\n");
    let rows = printed(&file, &["--short-rows", "--where", "c is null", "--rows"]);
    assert_eq!(rows, "a,b,c\n1,,\n2,x,\n");
    let select = ["--short-rows", "--select", "count(*), count(b), sum(a)"];
    assert_eq!(printed(&file, &select), "count(*),count(b),sum(a)\n3,1,6\n");
    let long = folder.file("long.csv", "a\n1,2\n");
    assert!(error(&long, &["--short-rows"]).ends_with(":2: 2 fields; 1 is wanted: a"));
}

/// Without a header line the longest row has a field for each column.
#[test]
fn short_rows_without_a_header_line() {
    let folder = Folder::new("widest");
    let file = folder.file("short.csv", "1\n2,x\n\n3,,z\n");
    let args = ["--short-rows", "--no-header", "--rows"];
    assert_eq!(printed(&file, &args), "1,,\n2,x,\n3,,z\n");
    assert!(error(&file, &args[1..]).ends_with(":2: 2 fields; 1 is wanted: c1"));
}

#[test]
fn some_columns_in_another_order() {
    let folder = Folder::new("columns");
    let out = folder.path("out.csv");
    let args = [
        "--where",
        "parcel <= 'P0000002'",
        "--columns",
        "days, \"city\", days",
        "--rows",
        "--out",
        out.to_str().unwrap(),
    ];
    let rows = printed(Path::new(PARCELS), &args);
    assert_eq!(rows, "days,city,days\n1,Linz,1\n5,Linz,5\n");
    assert_eq!(fs::read_to_string(out).unwrap(), rows);
}

#[test]
#[cfg(target_os = "linux")]
fn a_file_as_standard_input() {
    let mut command = program(Path::new("-"));
    command.args(["--select", "count(*)"]);
    let output = command
        .stdin(File::open(PARCELS).unwrap())
        .output()
        .unwrap();
    assert_eq!(output.stdout, b"count(*)\n120\n");
}

/// The file is larger than the memory that the program may use.
#[test]
#[cfg(target_os = "linux")]
fn memory_does_not_grow_with_the_file() {
    let folder = Folder::new("large");
    let note = "n".repeat(200);
    let rows: Vec<String> = (0..200_000)
        .map(|row: u32| format!("{row},{note}\n"))
        .collect();
    let file = folder.file("large.csv", format!("number,note\n{}", rows.concat()));
    let output = Command::new("sh")
        .args(["-c", "ulimit -v 32768 && exec \"$0\" \"$@\""])
        .args([env!("CARGO_BIN_EXE_query").as_ref(), file.as_os_str()])
        .args([
            "--where",
            "number < 150000",
            "--select",
            "count(*), min(note)",
        ])
        .output()
        .unwrap();
    let errors = String::from_utf8_lossy(&output.stderr);
    assert_eq!(output.status.code(), Some(0), "{errors}");
    let printed = format!("count(*),min(note)\n150000,{note}\n");
    assert_eq!(String::from_utf8(output.stdout).unwrap(), printed);
}

/// A histogram of the whole column's range would have one bar.
#[test]
fn a_histogram_of_few_values_has_their_range() {
    let folder = Folder::new("few");
    let numbers: Vec<String> = (0..3000).map(|row: u32| row.to_string()).collect();
    let file = folder.file("n.csv", format!("n\n{}\n", numbers.join("\n")));
    let report = printed(&file, &["--where", "n >= 1000 and n < 1004"]);
    let bars: Vec<&str> = report.lines().filter(|line| line.contains('│')).collect();
    let edges = bars
        .iter()
        .map(|bar| bar.split_whitespace().next().unwrap());
    assert_eq!(edges.collect::<Vec<_>>(), ["1000", "1001", "1002", "1003"]);
    assert!(bars.iter().all(|bar| bar.ends_with(" 1")), "{report}");
}

#[test]
fn types_are_found_of_all_rows() {
    let folder = Folder::new("types");
    let file = folder.file(
        "t.csv",
        "whole,float,text,big,none,mixed\n1,1,1,99999999999999999999,,1.5\n\
         -2,1e3,x,1,,99999999999999999999\n",
    );
    let report = printed(&file, &[]);
    let kinds = report
        .lines()
        .skip(3)
        .take(6)
        .map(|line| line.split_whitespace().nth(1).unwrap());
    assert_eq!(
        kinds.collect::<Vec<_>>(),
        ["whole", "float", "text", "text", "text", "float"]
    );
    let select = [
        "--type=whole=text",
        "--type",
        "big=float",
        "--select",
        "max(whole),max(big)",
    ];
    assert_eq!(printed(&file, &select), "max(whole),max(big)\n1,1e20\n");
}

/// Literals become whole numbers of 64 bits or floats; then columns compare with them exactly.
#[test]
fn literals_that_are_not_whole_are_rounded() {
    let folder = Folder::new("literals");
    let file = folder.file(
        "n.csv",
        "a,x\n9007199254740992,0.5\n9007199254740993,0.5\n9223372036854775807,0.1\n",
    );
    for (condition, kept) in [
        ("a = 9007199254740992.7", "1"),
        ("a = 9007199254740993", "1"),
        ("a = 9007199254740993.0", "1"),
        ("a > 9007199254740992", "2"),
        ("a > 9223372036854775806.5", "0"),
        ("a < 9223372036854775808", "3"),
        ("x = 0.1", "1"),
    ] {
        let answer = printed(&file, &["--where", condition, "--select", "count(*)"]);
        assert_eq!(answer, format!("count(*)\n{kept}\n"), "{condition}");
    }
}

/// Empty lines are skipped, except the first line, which has the names or is a row.
#[test]
fn empty_lines() {
    let folder = Folder::new("empty");
    let file = folder.file("later.csv", "a,b\n\n1,2\n\"\"\n3,4\n");
    assert_eq!(printed(&file, &["--rows"]), "a,b\n1,2\n3,4\n");
    let first = folder.file("first.csv", "\n1,2\n");
    let wanted = format!("{}:2: 2 fields; 1 is wanted: c1", first.display());
    for args in [&[][..], &["--no-header"]] {
        assert_eq!(error(&first, args), wanted);
    }
}

#[test]
fn the_picture_has_a_cell_and_a_bar_for_what_is_kept() {
    let folder = Folder::new("svg");
    let numbers: Vec<String> = (0..1000).map(|row: u32| row.to_string()).collect();
    let file = folder.file("n.csv", format!("n\n{}\n", numbers.join("\n")));
    let svg = folder.path("n.svg");
    let args = [
        "--where",
        "n >= 500 and n < 750",
        "--rows",
        "--svg",
        svg.to_str().unwrap(),
    ];
    assert_eq!(printed(&file, &args).lines().count(), 251);
    let svg = fs::read_to_string(svg).unwrap();
    assert_eq!(svg.matches("class=\"cell\"").count(), 340 / 4);
    let bars = ["20 from 500 on", "20 from 520 on", "10 from 740 on"];
    assert!(bars.iter().all(|bar| svg.contains(bar)), "{svg}");
    assert_eq!(svg.matches("class=\"bar\"").count(), 13);
}

#[test]
fn no_rows_and_no_numbers() {
    let folder = Folder::new("none");
    let file = folder.file("none.csv", "a,b\n");
    assert!(printed(&file, &[]).starts_with(&format!("{}: 0 rows, 2 columns\n", file.display())));
    let args = [
        "--where",
        "a = 'x' or b is null",
        "--select",
        "count(*), min(a), sum(b)",
    ];
    assert_eq!(printed(&file, &args), "count(*),min(a),sum(b)\n0,,\n");
    let svg = folder.path("none.svg");
    printed(&file, &["--svg", svg.to_str().unwrap()]);
    assert!(fs::read_to_string(svg).unwrap().ends_with("</svg>\n"));
}

#[test]
fn help() {
    let output = run(Path::new("--help"), &[]);
    let text = String::from_utf8(output.stdout).unwrap();
    assert!(output.status.success() && text.starts_with("Answers a query over a CSV file"));
}

/// Texts of any length fit in the picture. Cells begin at whole units, next to one another.
#[test]
fn a_picture_of_long_texts() {
    let folder = Folder::new("long");
    let name = "long ".repeat(40);
    let file = folder.file(&format!("{name}.csv"), format!("{name}\n1\n2\n3\n"));
    let svg = folder.path("n.svg");
    let condition = format!("\"{name}\" > 1 or \"{name}\" < 0");
    printed(&file, &["--svg", svg.to_str().unwrap()]);
    assert!(
        !fs::read_to_string(&svg)
            .unwrap()
            .contains("of the kept rows")
    );
    let args = ["--where", &condition, "--svg", svg.to_str().unwrap()];
    printed(&file, &args);
    let svg = fs::read_to_string(svg).unwrap();
    let texts = svg.lines().filter(|line| line.starts_with("<text"));
    let lengths = texts.map(|line| line.split(['<', '>']).nth(2).unwrap().chars().count());
    assert!(lengths.max().unwrap() <= 110, "{svg}");
    assert!(svg.contains("long… of the kept rows: "), "{svg}");
    let cells = [("266", "227"), ("493", "227")];
    assert!(cells.iter().all(|(x, width)| {
        svg.contains(&format!(
            "class=\"cell\" x=\"{x}\" y=\"80\" width=\"{width}\""
        ))
    }));
}

/// The example of the README prints what it says, and draws its picture.
#[test]
fn the_readme() {
    let folder = Path::new(env!("CARGO_MANIFEST_DIR"));
    let readme = fs::read_to_string(folder.join("README.md")).unwrap();
    let block = |language: &str| -> String {
        let (_, rest) = readme.split_once(&format!("```{language}\n")).unwrap();
        rest.split_once("```").unwrap().0.to_string()
    };
    let command = block("sh");
    let condition = command
        .strip_prefix("demo/query demo/parcels.csv --where \"")
        .unwrap();
    let condition = condition.strip_suffix("\"\n").unwrap();
    let drawn = Folder::new("readme");
    let mut program = program(Path::new("demo/parcels.csv"));
    program
        .args(["--where", condition, "--svg"])
        .arg(drawn.path("parcels.svg"));
    let output = program.current_dir(folder.join("..")).output().unwrap();
    assert_eq!(String::from_utf8(output.stdout).unwrap(), block("text"));
    let [drawn, shown] = [&drawn.path("parcels.svg"), &folder.join("parcels.svg")]
        .map(|path| fs::read_to_string(path).unwrap());
    assert!(
        drawn == shown,
        "demo/parcels.svg isn't what the program draws"
    );
}

/// The file of parcels is what its script writes.
#[test]
fn the_parcels() {
    let folder = Path::new(env!("CARGO_MANIFEST_DIR"));
    let script = Command::new("python3")
        .arg(folder.join("make_parcels.py"))
        .output();
    let Ok(output) = script else {
        io::stderr().write_all(b"skipped: no python3\n").unwrap();
        return;
    };
    assert!(
        output.stdout == fs::read(PARCELS).unwrap(),
        "make_parcels.py writes another file"
    );
}
