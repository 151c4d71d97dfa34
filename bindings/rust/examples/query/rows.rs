//! Rows that are made or read, and the stream of their batches: this part of the program could be
//! another's.

use std::error::Error;
use std::fmt::Write;
use std::str::FromStr;

use vortex_bits::Bitmap;
use vortex_bits::arrow::{Export, ExportStream, Field, Primitive};

/// The first line of a text: the names of the columns.
const NAMES: &str = "a,b,c,flag";

/// The columns; None where a row is null.
#[derive(Clone, Debug, Default, PartialEq)]
pub struct Rows {
    pub a: Vec<Option<i32>>,
    pub b: Vec<Option<i64>>,
    pub c: Vec<Option<f64>>,
    pub flag: Vec<Option<bool>>,
}

impl Rows {
    /// Generates `rows` rows, with some nulls in each column. The sums of c are exact in any order.
    pub fn made(rows: usize) -> Rows {
        let mut state = 0x9E37_79B9_7F4A_7C15u64;
        let mut number = move |below: u64| {
            state ^= state << 13;
            state ^= state >> 7;
            state ^= state << 17;
            i32::try_from((state >> 11) % below).unwrap_or(0)
        };
        let mut made = Rows::default();
        for _ in 0..rows {
            let a = (number(7) > 0).then(|| number(1000));
            let b = (number(4) > 0).then(|| i64::from(number(200_000)) - 100_000);
            let c = (number(5) > 0).then(|| f64::from(number(4000)) / 4.0);
            let flag = (number(9) > 0).then(|| number(2) == 1);
            made.push(a, b, c, flag);
        }
        made
    }

    fn push(&mut self, a: Option<i32>, b: Option<i64>, c: Option<f64>, flag: Option<bool>) {
        self.a.push(a);
        self.b.push(b);
        self.c.push(c);
        self.flag.push(flag);
    }

    fn add(&mut self, line: &str) -> Result<(), Box<dyn Error>> {
        let fields: Vec<&str> = line.split(',').collect();
        let &[a, b, c, flag] = &fields[..] else {
            return Err(format!("{} fields", fields.len()).into());
        };
        let flag: Option<u8> = field(flag)?;
        self.push(field(a)?, field(b)?, field(c)?, flag.map(|flag| flag != 0));
        Ok(())
    }

    /// Reads the rows of a text whose first line has the names of the columns.
    pub fn read(text: &str) -> Result<Rows, String> {
        let mut lines = (1..).zip(text.lines());
        if lines.next().is_none_or(|(_, names)| names != NAMES) {
            return Err(format!("line 1: not `{NAMES}`"));
        }
        let mut read = Rows::default();
        for (line, row) in lines {
            read.add(row)
                .map_err(|wrong| format!("line {line}: {wrong}"))?;
        }
        Ok(read)
    }

    /// The text that [`Rows::read`] reads.
    pub fn written(&self) -> String {
        let mut text = format!("{NAMES}\n");
        for row in 0..self.a.len() {
            let flag = self.flag[row].map(u8::from);
            let fields = [
                shown(self.a[row]),
                shown(self.b[row]),
                shown(self.c[row]),
                shown(flag),
            ];
            writeln!(text, "{}", fields.join(",")).expect("a text grows");
        }
        text
    }

    fn batch(&self, from: usize, to: usize) -> Export {
        let flags = self.flag[from..to].iter();
        let valid: Bitmap = flags.clone().map(Option::is_some).collect();
        let flags: Bitmap = flags.map(|flag| flag.unwrap_or_default()).collect();
        Export::batch([
            column(&self.a[from..to]).named("a"),
            column(&self.b[from..to]).named("b"),
            column(&self.c[from..to]).named("c"),
            Export::bits(flags, Some(valid)).named("flag"),
        ])
    }

    /// The rows as a stream, `each` in a batch.
    pub fn stream(self, each: usize) -> ExportStream {
        let columns = [("a", "i"), ("b", "l"), ("c", "g"), ("flag", "b")];
        let columns =
            columns.map(|(name, format)| Field::new(name, format).expect("a format of Arrow's"));
        let rows = self.a.len();
        let starts = (0..rows).step_by(each);
        let batches = starts.map(move |from| Ok(self.batch(from, rows.min(from + each))));
        ExportStream::new(Field::batch(columns), batches)
    }
}

/// A field, which may be empty.
fn field<T: FromStr>(text: &str) -> Result<Option<T>, T::Err> {
    if text.is_empty() {
        return Ok(None);
    }
    text.parse().map(Some)
}

fn shown<T: ToString>(value: Option<T>) -> String {
    value.map_or_else(String::new, |value| value.to_string())
}

fn column<T: Primitive + Default>(values: &[Option<T>]) -> Export {
    let valid: Bitmap = values.iter().map(Option::is_some).collect();
    let values: Vec<T> = values
        .iter()
        .map(|value| value.unwrap_or_default())
        .collect();
    Export::values(values, Some(valid))
}
