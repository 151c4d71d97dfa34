//! The same answers by SQL.
use std::fmt::Write as _;
use std::io::Write as _;
use std::process::{Command, Stdio};

use crate::engine::{Answer, Question};
use crate::{Case, Missing};

fn sql(case: &Case) -> String {
    let Question { limit, nth, at } = &case.question;
    let file = case.file.display();
    let mut places = String::new();
    for (position, place) in at.iter().enumerate() {
        writeln!(places, "insert into at values ({position}, {place});").unwrap();
    }
    format!(
        "create table read (a text, b text, c text, flag text);
.import --csv --skip 1 \"{file}\" read
create table rows as select rowid - 1 as row, cast(nullif(a, '') as integer) as a,
    cast(nullif(b, '') as integer) as b, cast(nullif(c, '') as real) as c,
    cast(nullif(flag, '') as integer) as flag from read;
create table kept as select row_number() over (order by row) - 1 as place, row, b, c
    from rows where a > {limit} and b is not null;
begin; create table at (position integer, place integer);
{places}commit;
select 'rows', count(*), sum(a is null or b is null), sum(flag is 1) from rows;
select 'kept', count(*), count(c), total(b), total(c) from kept;
select 'first', row from kept where place = 0;
select 'nth', row from kept where place = {nth};
select 'row', b, c from kept order by row;
select 'taken', b, c is null from at join kept using (place) order by position;
"
    )
}

/// The lines that `sqlite3` prints of an answer.
fn lines(answer: &Answer) -> String {
    let mut lines = String::new();
    let mut line = |fields: &[String]| writeln!(lines, "{}", fields.join("|")).unwrap();
    let shown = |number: usize| number.to_string();
    let counted = |number| {
        if answer.rows == 0 {
            String::new()
        } else {
            shown(number)
        }
    };
    line(&[
        "rows".into(),
        shown(answer.rows),
        counted(answer.nulls),
        counted(answer.flags),
    ]);
    // A sum of nothing is -0.0 in Rust.
    #[allow(clippy::cast_precision_loss, reason = "as `total` has it")]
    let sums = [answer.sum_b as f64, answer.sum_c].map(|sum| format!("{:?}", sum + 0.0));
    let (kept, valid) = (shown(answer.b.len()), shown(answer.c_valid.count_ones()));
    line(&["kept".into(), kept, valid, sums[0].clone(), sums[1].clone()]);
    for (name, row) in [("first", answer.first), ("nth", answer.nth)] {
        if let Some(row) = row {
            line(&[name.into(), shown(row)]);
        }
    }
    for ((b, c), valid) in answer.b.iter().zip(&answer.c).zip(&answer.c_valid) {
        let c = if valid {
            format!("{c:?}")
        } else {
            String::new()
        };
        line(&["row".into(), b.to_string(), c]);
    }
    lines
}

/// The values and the number of nulls that `sqlite3` prints for the taken rows.
fn taken(said: &str) -> (Vec<i64>, usize) {
    let rows = said.lines().filter_map(|line| line.strip_prefix("taken|"));
    let fields = rows.map(|row| row.split_once('|').unwrap());
    let nulls = fields
        .clone()
        .filter(|&(_, is_null)| is_null == "1")
        .count();
    (fields.map(|(b, _)| b.parse().unwrap()).collect(), nulls)
}

pub fn compare(case: &Case) -> Result<(), Missing> {
    let piped = [Stdio::piped(), Stdio::piped()];
    let [input, output] = piped;
    let started = Command::new("sqlite3")
        .args(["-batch", "-bail", ":memory:"])
        .stdin(input)
        .stdout(output)
        .spawn();
    let mut sqlite = started.map_err(|_| "sqlite3")?;
    let mut input = sqlite.stdin.take().unwrap();
    input.write_all(sql(case).as_bytes()).unwrap();
    drop(input);
    let ended = sqlite.wait_with_output().unwrap();
    assert!(ended.status.success());
    let said = String::from_utf8(ended.stdout).unwrap();
    let answer = case.answer(4_001);
    let wanted: String = said
        .lines()
        .filter(|line| !line.starts_with("taken|"))
        .flat_map(|line| [line, "\n"])
        .collect();
    assert_eq!(lines(&answer), wanted);
    assert_eq!((answer.taken, answer.taken_nulls), taken(&said));
    Ok(())
}
