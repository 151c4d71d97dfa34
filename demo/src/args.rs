//! The command line.

use std::ffi::{OsStr, OsString};
use std::path::PathBuf;

use crate::error::Error;
use crate::survey::Kind;
use crate::table::Format;

/// The text of `--help`.
pub const HELP: &str = "\
Answers a query over a CSV file by the calls of vortex_bits, and draws it.

usage: demo/query FILE [option..]; FILE may be -, standard input that is redirected from a file

  --where CONDITION    the rows to keep: size > 4 and not (name in ('a', 'b') or \"a b\" is null)
  --select LIST        print answers as CSV: count(*), count(c), sum(c), min(c), max(c), avg(c)
  --rows               print the kept rows as CSV
  --nth N              print the N-th kept row, from 1 on; status 1 if there is none
  --out FILE           write the kept rows to a file as CSV
  --columns LIST       the columns that --rows and --out write, in this order: size, \"a b\"
  --svg FILE           draw the kept rows and the histogram to a file
  --histogram COLUMN   the column of the histogram; else the first one of numbers
  --delimiter BYTE     between fields, a comma by default; tab is one too
  --no-header          the first line is a row; the columns are c1, c2, ..
  --no-quotes          a double quote is a byte like others
  --short-rows         a row may lack fields at its end; they are null
  --type COLUMN=TYPE   whole, float or text, in place of what the fields show; may be repeated
  --help               print this

Without --select, --rows and --nth it prints a table of the columns, which rows are kept, and the
histogram. An empty field is null. Status 2 is an error.
";

/// The output on standard output.
#[derive(Clone, Debug, PartialEq, Eq)]
pub enum Print {
    /// The table of columns, the selected rows as a strip, and a histogram.
    Report,
    /// Answers, with the text of their list.
    Answers(String),
    /// All selected rows.
    Rows,
    /// One selected row, with the number of selected rows before it.
    Nth(u64),
}

/// The options of a run.
#[derive(Clone, Debug, PartialEq, Eq)]
pub struct Options {
    /// The CSV file.
    pub file: PathBuf,
    /// The text of the condition.
    pub condition: Option<String>,
    /// The output on standard output.
    pub print: Print,
    /// The file for the selected rows.
    pub out: Option<PathBuf>,
    /// The text of the list of columns to write.
    pub columns: Option<String>,
    /// The file for the picture.
    pub svg: Option<PathBuf>,
    /// The column of the histogram.
    pub histogram: Option<String>,
    /// How the CSV file is read.
    pub format: Format,
    /// Types of columns.
    pub kinds: Vec<(String, Kind)>,
}

/// Returns the options of a command line without the program's name; None for `--help`.
///
/// # Errors
///
/// Returns [`Error::Usage`] if there is no file or more than one, or if an option is unknown, lacks
/// a value, has a wrong one, or has two but may have one.
pub fn parse(args: impl IntoIterator<Item = OsString>) -> Result<Option<Options>, Error> {
    let (mut files, mut parser) = (Vec::new(), Parser::new(args.into_iter()));
    while let Some(arg) = parser.args.next() {
        match arg.to_str() {
            Some("--help" | "-h") => return Ok(None),
            Some("--") => files.extend(parser.args.by_ref().map(PathBuf::from)),
            Some(option) if option.starts_with("--") => parser.option(option)?,
            Some(option) if option.len() > 1 && option.starts_with('-') => {
                return usage(format!("there is no option {option}"));
            }
            None if arg.as_encoded_bytes().starts_with(b"-") => return not_utf_8(&arg),
            _ => files.push(PathBuf::from(arg)),
        }
    }
    let [file] = <[PathBuf; 1]>::try_from(files)
        .or_else(|files| usage(format!("one CSV file is wanted, {} are given", files.len())))?;
    let mut options = parser.options;
    options.file = named(file);
    if options.columns.is_some() && options.out.is_none() && options.print != Print::Rows {
        return usage("--columns is for --rows and --out, of which neither is given".to_string());
    }
    Ok(Some(options))
}

/// Returns the error of an option that isn't UTF-8. It can't be divided at its `=`.
fn not_utf_8<T>(arg: &OsStr) -> Result<T, Error> {
    usage(format!(
        "{arg:?} isn't UTF-8; a file with such a name is the argument after --, --out or --svg"
    ))
}

/// Returns the path of a file. On Linux `-` is standard input: there each `open` of /dev/stdin
/// starts at the beginning of the file.
fn named(file: PathBuf) -> PathBuf {
    if cfg!(target_os = "linux") && file.as_os_str() == "-" {
        return PathBuf::from("/dev/stdin");
    }
    file
}

fn usage<T>(wrong: String) -> Result<T, Error> {
    Err(Error::Usage(wrong))
}

/// The options with a value.
const VALUED: [&str; 9] = [
    "--where",
    "--select",
    "--nth",
    "--out",
    "--svg",
    "--columns",
    "--histogram",
    "--delimiter",
    "--type",
];

/// The options so far, and the arguments that are left.
struct Parser<I> {
    args: I,
    options: Options,
    /// The value of `--delimiter`.
    delimiter: Option<u8>,
}

impl<I: Iterator<Item = OsString>> Parser<I> {
    fn new(args: I) -> Parser<I> {
        let options = Options {
            file: PathBuf::new(),
            condition: None,
            print: Print::Report,
            out: None,
            columns: None,
            svg: None,
            histogram: None,
            format: Format::default(),
            kinds: Vec::new(),
        };
        Parser {
            args,
            options,
            delimiter: None,
        }
    }

    /// Sets an option. Its value follows `=` or is the next argument.
    fn option(&mut self, arg: &str) -> Result<(), Error> {
        let (name, given) = match arg.split_once('=') {
            Some((name, value)) => (name, Some(OsString::from(value))),
            None => (arg, None),
        };
        if let "--rows" | "--no-header" | "--no-quotes" | "--short-rows" = name {
            if given.is_some() {
                return usage(format!("{name} has no value"));
            }
            return self.flag(name);
        }
        if !VALUED.contains(&name) {
            return usage(format!("there is no option {name}"));
        }
        let Some(value) = given.or_else(|| self.args.next()) else {
            return usage(format!("{name} wants a value"));
        };
        self.value(name, value)
    }

    fn flag(&mut self, name: &str) -> Result<(), Error> {
        let format = &mut self.options.format;
        match name {
            "--rows" => return self.print(Print::Rows),
            "--no-header" => format.has_header = false,
            "--short-rows" => format.has_short_rows = true,
            _ => format.dialect.quote = None,
        }
        Ok(())
    }

    fn value(&mut self, name: &str, value: OsString) -> Result<(), Error> {
        match name {
            "--out" => set_once(&mut self.options.out, name, PathBuf::from(value)),
            "--svg" => set_once(&mut self.options.svg, name, PathBuf::from(value)),
            _ => match value.into_string() {
                Ok(text) => self.text(name, text),
                Err(_) => usage(format!("the value of {name} isn't UTF-8")),
            },
        }
    }

    fn text(&mut self, name: &str, text: String) -> Result<(), Error> {
        let options = &mut self.options;
        match name {
            "--where" => return set_once(&mut options.condition, name, text),
            "--select" => return self.print(Print::Answers(text)),
            "--nth" => return self.print(Print::Nth(nth(&text)?)),
            "--columns" => return set_once(&mut options.columns, name, text),
            "--histogram" => return set_once(&mut options.histogram, name, text),
            "--delimiter" => {
                let delimiter = delimiter(&text)?;
                set_once(&mut self.delimiter, name, delimiter)?;
                options.format.dialect.delimiter = delimiter;
            }
            _ => options.kinds.push(kind(&text)?),
        }
        Ok(())
    }

    fn print(&mut self, print: Print) -> Result<(), Error> {
        if self.options.print != Print::Report {
            return usage("one of --select, --rows and --nth is wanted at most".to_string());
        }
        self.options.print = print;
        Ok(())
    }
}

/// Sets an option that may occur once.
fn set_once<T>(option: &mut Option<T>, name: &str, value: T) -> Result<(), Error> {
    if option.is_some() {
        return usage(format!("{name} is given twice"));
    }
    *option = Some(value);
    Ok(())
}

fn nth(text: &str) -> Result<u64, Error> {
    let number: Option<u64> = text.parse().ok();
    match number.and_then(|number| number.checked_sub(1)) {
        Some(before) => Ok(before),
        None => usage(format!(
            "--nth {text:?}: a whole number from 1 on is wanted"
        )),
    }
}

fn delimiter(text: &str) -> Result<u8, Error> {
    match text.as_bytes() {
        b"tab" | b"\\t" => Ok(b'\t'),
        &[byte] if !matches!(byte, b'"' | b'\n' | b'\r') => Ok(byte),
        _ => usage(format!(
            "--delimiter {text:?}: one ASCII character is wanted, or tab"
        )),
    }
}

fn kind(text: &str) -> Result<(String, Kind), Error> {
    let parts = text.rsplit_once('=');
    let typed = parts.and_then(|(column, kind)| Some((column.to_string(), Kind::named(kind)?)));
    match typed {
        Some(typed) => Ok(typed),
        None => usage(format!(
            "--type {text:?}: COLUMN=whole, =float or =text is wanted"
        )),
    }
}
