//! The errors of the program, and its statuses.

mod support;

use std::fs;
use std::io::Read;
use std::path::Path;
use std::process::Stdio;

use support::{Folder, error, program, run};

const PARCELS: &str = concat!(env!("CARGO_MANIFEST_DIR"), "/parcels.csv");

/// Wrong files, the options of a run, and its error without the file's name before it.
const BAD_FILES: [(&str, &[&str], &str); 9] = [
    (
        "",
        &[],
        ":1: the file is empty; a row with the names of the columns is wanted",
    ),
    (
        "",
        &["--no-header"],
        ":1: the file is empty; a row is wanted",
    ),
    (
        "a,b\n1,2\n3\n",
        &[],
        ":3: 1 field; 2 are wanted: a, b; --short-rows allows for missing ones",
    ),
    ("a,b\n\n1,2,3\n", &[], ":3: 3 fields; 2 are wanted: a, b"),
    (
        "a,b\n1,\"x\n",
        &[],
        ":2: column \"b\": the quote that begins this field is never closed",
    ),
    (
        "a,b\n\"1\"2,x\n",
        &[],
        ":2: column \"a\": \"2\" follows the closing quote; a delimiter or the end of the line is \
             wanted",
    ),
    (
        "a,b\n1,x\r2\n",
        &[],
        ":2: column \"b\": a carriage return without a line feed; lines end in LF or CRLF, and \
             other carriage returns are quoted",
    ),
    (
        "size,b\n1,\"x\ny\"\n12a,\n",
        &["--type", "size=whole"],
        ":4: column \"size\": \"12a\" is not a whole number of 64 bits, the type of this column",
    ),
    (
        "size\n1e999\n",
        &["--type", "size=float"],
        ":2: column \"size\": \"1e999\" is not a decimal number, the type of this column",
    ),
];

#[test]
fn errors_of_the_file_name_the_line_and_the_column() {
    let folder = Folder::new("errors");
    for (text, args, wanted) in BAD_FILES {
        let file = folder.file("data.csv", text);
        assert_eq!(error(&file, args), format!("{}{wanted}", file.display()));
    }
}

/// Options that don't fit the parcels, and the error.
const BAD_QUERIES: [(&[&str], &str); 11] = [
    (
        &["--where", "city ! 1\r\nor days = 1"],
        "--where: '!' begins no word of a condition\n  city ! 1\u{240D}\n       ^",
    ),
    (
        &["--where", "weight > 1 and size = 2"],
        "--where: there is no column \"size\"; the columns are parcel, city, weight, cents, \
             days, note\n  weight > 1 and size = 2\n                 ^",
    ),
    (
        &["--where", "city = 4"],
        "--where: column \"city\" is text; a text is wanted, as '4'; --type \"city\"=whole reads \
             it as numbers, or names the first line where it has none\n  city = 4\n         ^",
    ),
    (
        &["--where", "cents = '4'"],
        "--where: column \"cents\" has numbers; a number without quotes is wanted; \
             --type \"cents\"=text reads it as texts\n  cents = '4'\n          ^",
    ),
    (
        &["--where", "cents = city"],
        "--where: column \"city\" is text and column \"cents\" is whole; numbers compare with \
             numbers, and texts with texts; --type \"cents\"=text makes both texts\n  \
             cents = city\n          ^",
    ),
    (
        &["--where", "1 = 2"],
        "--where: a column is wanted on one side of a comparison\n  1 = 2\n      ^",
    ),
    (
        &["--select", "count(*), sum(x)"],
        "--select: there is no column \"x\"; the columns are parcel, city, weight, cents, \
             days, note\n  count(*), sum(x)\n                ^",
    ),
    (
        &["--histogram", "city"],
        "--histogram: this column is text; one of numbers is wanted; --type COLUMN=float reads it \
             as numbers, or names the first line where it has none\n  city\n  ^",
    ),
    (
        &["--rows", "--columns", "city, size"],
        "--columns: there is no column \"size\"; the columns are parcel, city, weight, cents, \
             days, note\n  city, size\n        ^",
    ),
    (
        &["--where", "cents >"],
        "--where: a column, a number or a text is wanted here\n  cents >\n         ^",
    ),
    (
        &["--where", "cents >", "--select", "sum("],
        "--where: a column, a number or a text is wanted here\n  cents >\n         ^",
    ),
];

#[test]
fn errors_of_a_query_point_at_their_place() {
    let file = Path::new(PARCELS);
    for (args, wanted) in BAD_QUERIES {
        assert_eq!(error(file, args), wanted);
    }
}

#[test]
fn an_error_of_the_histogram_comes_before_the_rows() {
    let folder = Folder::new("histogram");
    let picture = folder.path("picture.svg");
    let picture = ["--svg", picture.to_str().unwrap(), "--histogram", "city"];
    let output = run(Path::new(PARCELS), &[&["--rows"][..], &picture].concat());
    assert_eq!(output.status.code(), Some(2));
    assert_eq!(String::from_utf8(output.stdout).unwrap(), "");
}

/// Options that fit no file, and the error.
const BAD_OPTIONS: [(&[&str], &str); 14] = [
    (&["--size"], "there is no option --size"),
    (&["-x"], "there is no option -x"),
    (&["--where"], "--where wants a value"),
    (&["--rows=1"], "--rows has no value"),
    (
        &["--nth", "0"],
        "--nth \"0\": a whole number from 1 on is wanted",
    ),
    (
        &["--nth", "x"],
        "--nth \"x\": a whole number from 1 on is wanted",
    ),
    (
        &["--delimiter", "ab"],
        "--delimiter \"ab\": one ASCII character is wanted, or tab",
    ),
    (
        &["--delimiter", "\""],
        "--delimiter \"\\\"\": one ASCII character is wanted, or tab",
    ),
    (
        &["--type", "a=b"],
        "--type \"a=b\": COLUMN=whole, =float or =text is wanted",
    ),
    (&["other.csv"], "one CSV file is wanted, 2 are given"),
    (&["--out=a", "--out=b"], "--out is given twice"),
    (
        &["--delimiter=,", "--delimiter=;"],
        "--delimiter is given twice",
    ),
    (
        &["--columns", "city"],
        "--columns is for --rows and --out, of which neither is given",
    ),
    (
        &["--rows", "--nth=1"],
        "one of --select, --rows and --nth is wanted at most",
    ),
];

#[test]
fn errors_of_the_command_line() {
    let file = Path::new(PARCELS);
    for (args, wanted) in BAD_OPTIONS {
        assert_eq!(
            error(file, args),
            format!("{wanted}; --help lists the options")
        );
    }
}

#[test]
#[cfg(target_os = "linux")]
fn names_that_are_not_utf_8() {
    use std::ffi::OsStr;
    use std::os::unix::ffi::OsStrExt;

    let folder = Folder::new("names");
    let run = |args: &[&[u8]]| {
        let mut command = program(Path::new(PARCELS));
        command.args(args.iter().map(|arg| OsStr::from_bytes(arg)));
        command.current_dir(folder.path("")).output().unwrap()
    };
    for option in [&b"--out=\xE4.csv"[..], b"-\xE4.csv"] {
        let output = run(&[option]);
        let wanted = "a file with such a name is the argument after --, --out or --svg";
        let option = OsStr::from_bytes(option);
        let wanted = format!("{option:?} isn't UTF-8; {wanted}; --help lists the options\n");
        assert_eq!(String::from_utf8(output.stderr).unwrap(), wanted);
        assert_eq!(output.status.code(), Some(2));
    }
    assert!(run(&[b"--out", b"\xE4.csv"]).status.success());
    let out = folder.path("").join(OsStr::from_bytes(b"\xE4.csv"));
    assert_eq!(fs::read(out).unwrap(), fs::read(PARCELS).unwrap());
}

#[test]
fn files_that_cannot_be_used() {
    let folder = Folder::new("unusable");
    let none = folder.path("none.csv");
    assert_eq!(
        error(&none, &[]),
        format!("{}: No such file or directory (os error 2)", none.display())
    );
    let inside = folder.path("");
    assert!(error(&inside, &[]).contains(": not a regular file; it is read twice"));
    let file = folder.file("in.csv", "a\n1\n");
    let own = file.to_str().unwrap();
    for option in ["--out", "--svg"] {
        assert!(error(&file, &[option, own]).contains("this is the CSV file"));
    }
    let both = error(&file, &["--out=same", "--svg=same"]);
    assert_eq!(both, "same: --out and --svg both write to this file");
    let link = folder.path("link.csv");
    fs::hard_link(&file, &link).unwrap();
    assert!(error(&file, &["--out", link.to_str().unwrap()]).contains("this is the CSV file"));
    assert_eq!(fs::read_to_string(&file).unwrap(), "a\n1\n");
    let out = folder.path("none/out.csv");
    assert!(error(&file, &["--out", out.to_str().unwrap()]).contains("out.csv: No such file"));
}

/// Different paths of one file, before it exists and once it does.
#[test]
#[cfg(unix)]
fn two_outputs_to_one_file() {
    let folder = Folder::new("one");
    let file = folder.file("in.csv", "a\n1\n");
    fs::create_dir(folder.path("inner")).unwrap();
    for (link, target) in [
        ("link.csv", "inner/../x.csv"),
        ("folder", "."),
        ("loop", "loop"),
    ] {
        std::os::unix::fs::symlink(target, folder.path(link)).unwrap();
    }
    let paths = ["./x.csv", "inner/../x.csv", "folder/x.csv", "link.csv"];
    let wanted = "x.csv: --out and --svg both write to this file\n";
    for exists in [false, true] {
        for path in paths {
            let mut command = program(&file);
            let command = command.args(["--out", "x.csv", "--svg", path]);
            let output = command.current_dir(folder.path("")).output().unwrap();
            let errors = String::from_utf8(output.stderr).unwrap();
            assert_eq!(
                (output.status.code(), &errors[..]),
                (Some(2), wanted),
                "{path}"
            );
            assert_eq!(folder.path("x.csv").exists(), exists);
        }
        folder.file("x.csv", "");
    }
    let loops = folder.path("loop");
    assert!(error(&file, &["--out", loops.to_str().unwrap()]).contains("loop: Too many"));
}

/// Standard output appended to the CSV file is an error: its rows would be read too.
#[test]
#[cfg(unix)]
fn standard_output_at_the_end_of_another_file() {
    let folder = Folder::new("end");
    let file = folder.file("in.csv", "a\n1\n");
    let out = folder.file("out.csv", "");
    let over = "standard output: this is the CSV file, which would be written over\n".to_string();
    let both = ": --out and standard output both write to this file\n";
    let both = format!("{}{both}", out.display());
    let out = out.to_str().unwrap();
    for (args, end, wanted) in [
        (&["--rows"][..], &file, over),
        (&["--out", out], &folder.path("out.csv"), both),
    ] {
        let end = fs::File::options().append(true).open(end).unwrap();
        let output = program(&file).args(args).stdout(end).output().unwrap();
        assert_eq!(output.status.code(), Some(2));
        assert_eq!(String::from_utf8(output.stderr).unwrap(), wanted);
    }
    let other = fs::File::create(folder.path("other.csv")).unwrap();
    let status = program(&file).arg("--rows").stdout(other).status().unwrap();
    let [read, copied] = ["in.csv", "other.csv"].map(|it| fs::read(folder.path(it)).unwrap());
    assert!(status.success() && read == b"a\n1\n" && copied == read);
}

#[test]
fn a_row_that_is_not_there_has_its_status() {
    let output = run(
        Path::new(PARCELS),
        &["--where", "days is null", "--nth", "8"],
    );
    assert_eq!((output.status.code(), output.stdout.len()), (Some(1), 0));
    assert!(
        String::from_utf8(output.stderr)
            .unwrap()
            .ends_with("there is no such row: 7 are kept\n")
    );
}

#[test]
fn a_reader_that_goes_away_is_no_error() {
    let folder = Folder::new("pipe");
    let rows = "some text that fills a pipe,1\n".repeat(50_000);
    let file = folder.file("long.csv", rows);
    let mut command = program(&file);
    command
        .args(["--rows", "--no-header"])
        .stdout(Stdio::piped())
        .stderr(Stdio::null());
    let mut child = command.spawn().unwrap();
    let mut start = [0; 4];
    child.stdout.take().unwrap().read_exact(&mut start).unwrap();
    assert_eq!((&start, child.wait().unwrap().code()), (b"some", Some(0)));
}

#[test]
#[cfg(target_os = "linux")]
fn a_full_disk_is_an_error() {
    let full = fs::File::options().write(true).open("/dev/full").unwrap();
    let mut command = program(Path::new(PARCELS));
    let output = command.arg("--rows").stdout(full).output().unwrap();
    assert_eq!(output.status.code(), Some(2));
    let errors = String::from_utf8(output.stderr).unwrap();
    assert!(
        errors.ends_with("standard output: No space left on device (os error 28)\n"),
        "{errors}"
    );
}
