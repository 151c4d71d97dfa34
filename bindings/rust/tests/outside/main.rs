//! The query of examples/query compared with `sqlite3`, and over the batches that GDAL makes of the
//! same file. If one of them isn't installed, a line says so.
#[path = "../../examples/query/engine.rs"]
mod engine;
mod gdal;
#[path = "../../examples/geopackage/gdal.rs"]
mod library;
#[path = "../../examples/query/loops.rs"]
mod loops;
#[path = "../../examples/query/rows.rs"]
mod rows;
mod sqlite;

use std::fs;
use std::path::{Path, PathBuf};

use engine::{Answer, Question};
use rows::Rows;
use vortex_bits::arrow::Stream;

/// What isn't installed.
type Missing = &'static str;

/// The rows, a file that contains them, and the question of the query.
struct Case {
    rows: Rows,
    file: PathBuf,
    question: Question,
}

impl Case {
    fn new(rows: usize, question: Question) -> Case {
        let rows = Rows::made(rows);
        let folder = Path::new(env!("CARGO_TARGET_TMPDIR")).join(format!("{}", std::process::id()));
        fs::create_dir_all(&folder).unwrap();
        let file = folder.join("rows.csv");
        fs::write(&file, rows.written()).unwrap();
        assert_eq!(
            Rows::read(&fs::read_to_string(&file).unwrap()).unwrap(),
            rows
        );
        Case {
            rows,
            file,
            question,
        }
    }

    fn asked(&self, stream: Stream) -> Answer {
        engine::ask(stream, &self.question).unwrap()
    }

    /// The answer over batches of so many rows.
    fn answer(&self, each: usize) -> Answer {
        let stream = || self.rows.clone().stream(each).into_stream().unwrap();
        let answer = self.asked(stream());
        assert_eq!(answer, loops::ask(stream(), &self.question).unwrap());
        answer
    }
}

impl Drop for Case {
    fn drop(&mut self) {
        drop(self.file.parent().map(fs::remove_dir_all));
    }
}

/// A first line that isn't the names of the columns could be a row, so it is an error.
fn rows_have_names() {
    for text in ["", "1,2,3,1\n", "1,2,3,1\n4,5,6,0\n"] {
        let refused = Rows::read(text).unwrap_err();
        assert_eq!(refused, "line 1: not `a,b,c,flag`");
    }
    let read = Rows::read("a,b,c,flag\n1,,0.5,0\n").unwrap();
    assert_eq!(
        (read.a, read.b, read.c),
        (vec![Some(1)], vec![None], vec![Some(0.5)])
    );
    let refused = Rows::read("a,b,c,flag\n1,2,3\n").unwrap_err();
    assert_eq!(refused, "line 2: 3 fields");
}

fn main() {
    rows_have_names();
    let cases = [
        (0, Question::new(700, 0)),
        (1, Question::new(0, 0)),
        (30_011, Question::new(700, 999)),
        (5_000, Question::new(-1, 4_999)),
        (5_000, Question::new(1_000, 0)),
    ];
    let [mut sqlite, mut gdal] = [Ok::<(), Missing>(()), Ok(())];
    for (rows, question) in cases {
        let case = Case::new(rows, question);
        sqlite = sqlite.and_then(|()| sqlite::compare(&case));
        gdal = gdal.and_then(|()| gdal::compare(&case));
    }
    let said = |outcome: Result<(), Missing>| match outcome {
        Ok(()) => "ok".to_string(),
        Err(missing) => format!("skipped: no {missing}"),
    };
    println!("test the answers are those of SQLite ... {}", said(sqlite));
    println!("test batches of GDAL have the rows ... {}", said(gdal));
}
