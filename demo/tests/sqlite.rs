//! The same queries to `SQLite`, on the same CSV files. Skipped if there is no `sqlite3`.

mod support;

use std::fmt::Write as _;
use std::io::Write as _;
use std::path::Path;
use std::process::{Command, Stdio};

use support::{COLUMNS, Folder, Random, program};

/// The ends of a field and of a row of `SQLite`'s answers: bytes that no text of the tests has.
const ENDS: [char; 2] = ['\x1f', '\x1e'];

fn has_sqlite() -> bool {
    let found = Command::new("sqlite3").arg("--version").output().is_ok();
    if !found {
        // The harness would capture the output of `eprintln`.
        std::io::stderr()
            .write_all(b"skipped: no sqlite3\n")
            .unwrap();
    }
    found
}

fn name(column: &str) -> String {
    format!("\"{}\"", column.replace('"', "\"\""))
}

/// The answers of `SQLite` to each query, as rows of fields. `SQLite` imports the file, and runs in
/// the file's folder, since the name alone needs no quotes.
fn sqlite(file: &Path, queries: &[String]) -> Vec<Vec<Vec<String>>> {
    let kinds = ["integer", "integer", "real", "real", "text", "text"];
    let columns: Vec<String> = COLUMNS
        .iter()
        .zip(kinds)
        .map(|(column, kind)| format!("{} {kind}", name(column)))
        .collect();
    let mut script = format!("create table t({});\n", columns.join(", "));
    let import = file.file_name().map(Path::new).unwrap().display();
    writeln!(script, ".import --csv --skip 1 {import} t").unwrap();
    for column in COLUMNS.map(name) {
        writeln!(script, "update t set {column} = null where {column} = '';").unwrap();
    }
    writeln!(
        script,
        ".mode list\n.headers off\n.separator \"\\037\" \"\\036\""
    )
    .unwrap();
    for query in queries {
        writeln!(script, "{query};\nselect 'end of a query';").unwrap();
    }
    let mut child = Command::new("sqlite3")
        .args(["-batch", "-bail"])
        .current_dir(file.parent().unwrap())
        .stdin(Stdio::piped())
        .stdout(Stdio::piped())
        .spawn()
        .unwrap();
    let mut input = child.stdin.take().unwrap();
    let writer = std::thread::spawn(move || input.write_all(script.as_bytes()));
    let output = child.wait_with_output().unwrap();
    writer.join().unwrap().unwrap();
    assert!(output.status.success());
    answers(&String::from_utf8(output.stdout).unwrap())
}

fn answers(text: &str) -> Vec<Vec<Vec<String>>> {
    let mut all = vec![Vec::new()];
    for row in text.split_terminator(ENDS[1]) {
        match row {
            "end of a query" => all.push(Vec::new()),
            row => all
                .last_mut()
                .unwrap()
                .push(row.split(ENDS[0]).map(str::to_string).collect()),
        }
    }
    all.pop();
    all
}

/// Returns the CSV that the program prints, without the header.
fn printed(file: &Path, args: &[&str]) -> Vec<Vec<String>> {
    let output = program(file).args(args).output().unwrap();
    assert!(
        output.status.success(),
        "{args:?}: {}",
        String::from_utf8_lossy(&output.stderr)
    );
    let dialect = demo::csv::Dialect {
        delimiter: b',',
        quote: Some(b'"'),
    };
    let mut reader = demo::csv::Reader::new(&output.stdout[..], dialect)
        .ok()
        .unwrap();
    let mut all = Vec::new();
    loop {
        let mut rows = demo::rows::Rows::new(0);
        if !reader.read_row(&mut rows).ok().unwrap() {
            all.remove(0);
            return all;
        }
        let fields = rows
            .all_fields()
            .map(|field| String::from_utf8(field.to_vec()).unwrap());
        all.push(fields.collect());
    }
}

/// Whether two fields are the same value: texts byte by byte, whole numbers as numbers, and floats
/// up to the 15 digits that `SQLite` prints. The last digit of its sums is rounded.
fn is_same(column: usize, ours: &str, theirs: &str) -> bool {
    match column {
        0 | 1 => ours.parse::<i128>().ok() == theirs.parse().ok(),
        2 | 3 => match (ours.parse::<f64>(), theirs.parse::<f64>()) {
            (Ok(ours), Ok(theirs)) => (ours - theirs).abs() <= 2e-14 * ours.abs(),
            _ => ours.is_empty() && theirs.is_empty(),
        },
        _ => ours == theirs,
    }
}

/// The answers that `--select` lists, each with a column that has the type of the answer.
fn list() -> Vec<(String, usize)> {
    let mut list = vec![("count(*)".to_string(), 0)];
    for (place, column) in COLUMNS.iter().enumerate() {
        let column = name(column);
        list.push((format!("count({column})"), 0));
        list.push((format!("min({column})"), place));
        list.push((format!("max({column})"), place));
    }
    list.push((format!("sum({})", name("x")), 2));
    list
}

#[test]
fn the_same_answers() {
    if !has_sqlite() {
        return;
    }
    let (folder, mut random, list) = (Folder::new("sqlite_answers"), Random::new(3), list());
    let selected = list
        .iter()
        .map(|(answer, _)| answer.as_str())
        .collect::<Vec<_>>()
        .join(", ");
    for rows in [1, 2, 64, 500] {
        let table = support::table(&mut random, rows);
        let file = folder.file("t.csv", support::written(&mut random, &table));
        let conditions: Vec<String> = (0..40)
            .map(|_| support::condition(&mut random, 2).to_string())
            .collect();
        let queries: Vec<String> = conditions
            .iter()
            .map(|it| format!("select {selected} from t where {it}"))
            .collect();
        for (condition, theirs) in conditions.iter().zip(sqlite(&file, &queries)) {
            let ours = printed(&file, &["--where", condition, "--select", &selected]);
            assert_eq!((ours.len(), theirs.len()), (1, 1));
            for (place, (answer, column)) in list.iter().enumerate() {
                let (ours, theirs) = (&ours[0][place], &theirs[0][place]);
                assert!(
                    is_same(*column, ours, theirs),
                    "{answer} where {condition}: {ours}, {theirs}"
                );
            }
        }
    }
}

#[test]
fn the_same_rows() {
    if !has_sqlite() {
        return;
    }
    let (folder, mut random) = (Folder::new("sqlite_rows"), Random::new(4));
    for rows in [1, 65, 300] {
        let table = support::table(&mut random, rows);
        let file = folder.file("t.csv", support::written(&mut random, &table));
        let conditions: Vec<String> = (0..40)
            .map(|_| support::condition(&mut random, 3).to_string())
            .collect();
        let queries: Vec<String> = conditions
            .iter()
            .map(|it| format!("select * from t where {it} order by rowid"))
            .collect();
        for (condition, theirs) in conditions.iter().zip(sqlite(&file, &queries)) {
            let ours = printed(&file, &["--where", condition, "--rows"]);
            assert_eq!(ours.len(), theirs.len(), "{condition}");
            for (ours, theirs) in ours.iter().zip(&theirs) {
                let mut fields = ours.iter().zip(theirs).enumerate();
                assert!(
                    fields.all(|(place, (a, b))| is_same(place, a, b)),
                    "{ours:?}, {theirs:?}"
                );
            }
        }
    }
}

/// Rows of numbers whose sums fit 64 bits, some of them null.
fn numbers(random: &mut Random) -> String {
    let mut text = COLUMNS.map(name).join(",") + "\n";
    for _ in 0..2000 {
        let [a, b, x] = [1_000_000_000_000, 1000, 100_000].map(|end| random.below(end));
        let sign = if b % 2 == 0 { "-" } else { "" };
        let a = if a % 7 == 0 {
            String::new()
        } else {
            format!("{sign}{a}")
        };
        writeln!(text, "{a},{b},{}.{:02},0.5,x,y", x / 100, x % 100).unwrap();
    }
    text
}

/// Sums of whole numbers are compared to the byte.
#[test]
fn the_same_sums() {
    if !has_sqlite() {
        return;
    }
    let (folder, mut random) = (Folder::new("sqlite_sums"), Random::new(5));
    let file = folder.file("t.csv", numbers(&mut random));
    let conditions: Vec<String> = (0..60)
        .map(|_| {
            let (b, x) = (random.below(1000), random.below(999));
            format!("B >= {b} and (a > 0 or x < {x}.5)")
        })
        .collect();
    let selected = "sum(a), sum(B), sum(x)";
    let query = |it: &String| format!("select {selected} from t where {it}");
    let queries: Vec<String> = conditions.iter().map(query).collect();
    for (condition, theirs) in conditions.iter().zip(sqlite(&file, &queries)) {
        let ours = printed(&file, &["--where", condition, "--select", selected]);
        assert_eq!(ours[0][..2], theirs[0][..2], "{condition}");
        let [ours, theirs] = [&ours, &theirs].map(|it| it[0][2].parse::<f64>().unwrap_or(0.0));
        assert!(
            (ours - theirs).abs() <= 1e-12 * ours,
            "{condition}: {ours}, {theirs}"
        );
    }
}
