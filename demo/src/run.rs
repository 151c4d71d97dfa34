//! A run of the program, from its options to its output.

use std::collections::BTreeSet;
use std::fs::{self, File};
use std::io::{self, BufWriter, Write};
use std::path::Path;

use vortex_bits::Level;

use crate::args::{Options, Print};
use crate::draw::{Histogram, Picture, Strip, svg};
use crate::engine::{self, Output};
use crate::error::{Error, QueryError};
use crate::found::{Nth, Writer};
use crate::outputs;
use crate::progress::grouped;
use crate::query::condition::{Condition, Name};
use crate::query::{self, Answer, Filter};
use crate::report::{self, Report};
use crate::rows::write_row;
use crate::summary::{self, Count, Summary};
use crate::survey::{Kind, Range, Survey};
use crate::table::Table;

/// The number of cells of the strip in a picture.
const SVG_STRIP: usize = 340;

/// If a histogram has fewer bins than this, it is made once more, over the range of the selected
/// values.
const FEW_BINS: usize = 4;

/// The error of a histogram of a text column.
const TEXT_COLUMN: &str = "this column is text; one of numbers is wanted; --type COLUMN=float \
    reads it as numbers, or names the first line where it has none";

/// The end of a run that didn't fail.
#[derive(Clone, Copy, Debug, PartialEq, Eq)]
pub enum Outcome {
    /// The query is answered.
    Done,
    /// The requested row doesn't exist.
    NoRow,
}

/// Reads the file and prints the output that the options select. Prints a line on standard error
/// that says which code runs.
///
/// # Errors
///
/// Returns an error if a file can't be read or written, the CSV file is malformed, or the options
/// don't fit it.
pub fn run(options: &Options) -> Result<Outcome, Error> {
    let query = Query::parse(options)?;
    let table = Table::open(&options.file, options.format)?;
    outputs::check(options)?;
    let kinds = kinds(options, &table)?;
    let (list, columns) = (query.list(&table)?, query.columns(&table)?);
    let histogram = histogram_column(options, &table)?;
    query.check_names(&table)?;
    // If standard error is closed, no one reads the line: the error is ignored.
    let _ = writeln!(io::stderr(), "{}", code());

    let survey = Survey::of(&table, &kinds)?;
    let filter = query.filter(&survey)?;
    let run = Run {
        options,
        table: &table,
        survey: &survey,
        filter,
        columns,
        histogram,
    };
    // An error of the histogram's column comes before the header of the rows.
    run.histogram()?;
    match &options.print {
        Print::Report => run.report(),
        Print::Answers(_) => run.answers(&query.answers, &list),
        Print::Rows => run.rows(),
        Print::Nth(before) => run.nth(*before),
    }
}

/// Returns a text that says which code runs.
fn code() -> &'static str {
    match Level::current() {
        Level::V2 => "the bit functions are proved ones, for x86-64-v2",
        Level::V3 => "the bit functions are proved ones, for x86-64-v3",
        _ => "the bit functions are portable Rust, tested and not proved; see demo/README.md",
    }
}

/// The condition and the lists of answers and columns, as syntax trees.
struct Query<'a> {
    options: &'a Options,
    condition: Option<Condition>,
    answers: Vec<Answer<Name>>,
    columns: Option<Vec<Name>>,
}

impl<'a> Query<'a> {
    fn parse(options: &'a Options) -> Result<Query<'a>, Error> {
        let condition = options
            .condition
            .as_ref()
            .map(|text| query::condition(text).map_err(|error| error.of("--where", text)))
            .transpose()?;
        let answers = match &options.print {
            Print::Answers(text) => {
                query::selection(text).map_err(|error| error.of("--select", text))?
            }
            _ => Vec::new(),
        };
        let columns = options
            .columns
            .as_ref()
            .map(|text| query::column_names(text).map_err(|error| error.of("--columns", text)));
        Ok(Query {
            options,
            condition,
            answers,
            columns: columns.transpose()?,
        })
    }

    /// Returns an error of the condition, with its text.
    fn wrong(&self, error: QueryError) -> Error {
        error
            .of(
                "--where",
                self.options.condition.as_deref().unwrap_or_default(),
            )
            .into()
    }

    /// Tests that the columns of the condition exist, before the first pass over the file.
    fn check_names(&self, table: &Table) -> Result<(), Error> {
        for name in self.condition.iter().flat_map(Condition::names) {
            let found = table.find(&name.name);
            found.map_err(|wrong| self.wrong(QueryError::new(name.at, wrong)))?;
        }
        Ok(())
    }

    fn filter(&self, survey: &Survey) -> Result<Option<Filter>, Error> {
        let filter = self
            .condition
            .as_ref()
            .map(|condition| Filter::new(condition, survey));
        filter.transpose().map_err(|error| self.wrong(error))
    }

    /// Returns the answers with the indices of their columns.
    fn list(&self, table: &Table) -> Result<Vec<Answer<usize>>, Error> {
        let Print::Answers(text) = &self.options.print else {
            return Ok(Vec::new());
        };
        let place = |answer: &Answer<Name>| match answer {
            Answer::Rows => Ok(Answer::Rows),
            Answer::Of(aggregate, name) => {
                let place = table.find(&name.name);
                let place = place.map_err(|wrong| {
                    Error::from(QueryError::new(name.at, wrong).of("--select", text))
                });
                Ok(Answer::Of(*aggregate, place?))
            }
        };
        self.answers.iter().map(place).collect()
    }

    /// Returns the indices of the columns to write: all, if none are named.
    fn columns(&self, table: &Table) -> Result<Vec<usize>, Error> {
        let (Some(names), Some(text)) = (&self.columns, &self.options.columns) else {
            return Ok((0..table.names().len()).collect());
        };
        let place = |name: &Name| {
            let place = table.find(&name.name);
            place.map_err(|wrong| QueryError::new(name.at, wrong).of("--columns", text).into())
        };
        names.iter().map(place).collect()
    }
}

fn kinds(options: &Options, table: &Table) -> Result<Vec<(usize, Kind)>, Error> {
    let place = |(name, kind): &(String, Kind)| {
        let place = table.find(name);
        let place = place.map_err(|wrong| QueryError::new(0, wrong).of("--type", name));
        Ok((place?, *kind))
    };
    options.kinds.iter().map(place).collect()
}

fn histogram_column(options: &Options, table: &Table) -> Result<Option<usize>, Error> {
    let Some(name) = &options.histogram else {
        return Ok(None);
    };
    let place = table.find(name);
    let place = place.map_err(|wrong| QueryError::new(0, wrong).of("--histogram", name));
    Ok(Some(place?))
}

/// The state of a run after the first pass over the file.
struct Run<'a> {
    options: &'a Options,
    table: &'a Table,
    survey: &'a Survey,
    filter: Option<Filter>,
    /// The columns to write of the selected rows.
    columns: Vec<usize>,
    /// The column of `--histogram`.
    histogram: Option<usize>,
}

/// Converts the system's error of a file.
type Failed<'a> = Box<dyn Fn(io::Error) -> Error + 'a>;

/// The writer of `--out`.
type FileWriter<'a> = Writer<'a, BufWriter<File>, Failed<'a>>;

/// What [`Run::pass`] returns.
struct Kept {
    rows: u64,
    histogram: Option<Histogram>,
}

impl Run<'_> {
    /// Reads the file for the printed output, and for the files of `--out` and `--svg`.
    fn pass(&self, printed: Vec<&mut dyn Output>) -> Result<Kept, Error> {
        let (mut count, mut strip) = (Count::default(), Strip::new(self.survey.rows, SVG_STRIP));
        let (mut histogram, mut out) = (self.histogram()?, self.out()?);
        let mut values = histogram.as_ref().map(|it| Summary::new(it.column()));
        let mut outputs: Vec<&mut dyn Output> = vec![&mut count, &mut strip];
        outputs.extend(printed.into_iter().map(|it| it as &mut dyn Output));
        outputs.extend(histogram.as_mut().map(|it| it as &mut dyn Output));
        outputs.extend(values.as_mut().map(|it| it as &mut dyn Output));
        outputs.extend(out.as_mut().map(|it| it as &mut dyn Output));
        self.read(&mut outputs)?;
        if let Some(mut out) = out {
            out.finish()?;
        }
        let range = values.and_then(|values| values.range());
        let kept = Kept {
            rows: count.0,
            histogram: self.closer(histogram, range)?,
        };
        if let Some(path) = &self.options.svg {
            self.draw(path, &kept, &strip)?;
        }
        Ok(kept)
    }

    fn read(&self, outputs: &mut [&mut dyn Output]) -> Result<(), Error> {
        engine::run(self.table, self.survey, self.filter.as_ref(), outputs)
    }

    /// Returns the histogram of the column of `--histogram`, or of the first one with numbers; None
    /// if no output shows it or the column has no number.
    fn histogram(&self) -> Result<Option<Histogram>, Error> {
        if self.options.print != Print::Report && self.options.svg.is_none() {
            return Ok(None);
        }
        let columns = &self.survey.columns;
        if let Some(place) = self
            .histogram
            .filter(|&place| columns[place].kind == Kind::Text)
        {
            let name = &columns[place].name;
            let wrong = QueryError::new(0, TEXT_COLUMN);
            return Err(wrong.of("--histogram", name).into());
        }
        let first = columns.iter().position(|column| column.range.is_some());
        let column = self.histogram.or(first);
        Ok(column.and_then(|place| Some(Histogram::new(place, columns[place].range?))))
    }

    /// Returns the histogram over the range of the selected values, if these fill only few bins of
    /// the whole column's range. Reads the file once more for it.
    fn closer(
        &self,
        histogram: Option<Histogram>,
        range: Option<Range>,
    ) -> Result<Option<Histogram>, Error> {
        let few = |it: &Histogram| self.filter.is_some() && it.bins().len() < FEW_BINS;
        let (Some(wide), Some(range)) = (histogram.as_ref().filter(|it| few(it)), range) else {
            return Ok(histogram);
        };
        let mut close = Histogram::new(wide.column(), range);
        self.read(&mut [&mut close])?;
        Ok(Some(close))
    }

    fn out(&self) -> Result<Option<FileWriter<'_>>, Error> {
        let Some(path) = &self.options.out else {
            return Ok(None);
        };
        let file = File::create(path).map_err(|error| Error::file(path, error))?;
        let failed = Box::new(|error| Error::file(path, error));
        self.writer(BufWriter::new(file), failed as Failed<'_>)
            .map(Some)
    }

    fn writer<W: Write, E: Fn(io::Error) -> Error>(
        &self,
        out: W,
        error: E,
    ) -> Result<Writer<'_, W, E>, Error> {
        let dialect = self.table.format().dialect;
        let mut writer = Writer::new(out, dialect, &self.columns, error);
        if let Some(header) = self.table.header() {
            writer.row(|column| &header[column])?;
        }
        Ok(writer)
    }

    fn draw(&self, path: &Path, kept: &Kept, strip: &Strip) -> Result<(), Error> {
        let column = |it: &Histogram| self.survey.columns[it.column()].name.clone();
        let picture = Picture {
            title: self.title(kept),
            file: report::base(&self.options.file),
            counts: report::counts(self.survey, self.kept(kept)),
            condition: self.options.condition.as_deref(),
            strip,
            rows: self.survey.rows,
            histogram: kept.histogram.as_ref().map(|it| (column(it), it.bins())),
        };
        fs::write(path, svg(&picture)).map_err(|error| Error::file(path, error))
    }

    fn title(&self, kept: &Kept) -> String {
        report::title(&self.options.file, self.survey, self.kept(kept))
    }

    /// Returns the number of selected rows, if there is a condition.
    fn kept(&self, kept: &Kept) -> Option<u64> {
        self.filter.is_some().then_some(kept.rows)
    }

    fn report(&self) -> Result<Outcome, Error> {
        let mut strip = Strip::new(self.survey.rows, report::STRIP);
        let mut summaries: Vec<Summary> =
            (0..self.survey.columns.len()).map(Summary::new).collect();
        let mut printed: Vec<&mut dyn Output> = vec![&mut strip];
        printed.extend(summaries.iter_mut().map(|it| it as &mut dyn Output));
        let kept = self.pass(printed)?;
        let report = Report {
            title: self.title(&kept),
            condition: self.options.condition.as_deref(),
            survey: self.survey,
            kept: kept.rows,
            summaries: &summaries,
            strip: &strip,
            histogram: kept.histogram.as_ref(),
        };
        let mut out = BufWriter::new(io::stdout().lock());
        report
            .write(&mut out)
            .and_then(|()| out.flush())
            .map_err(Error::output)?;
        Ok(Outcome::Done)
    }

    fn answers(&self, names: &[Answer<Name>], list: &[Answer<usize>]) -> Result<Outcome, Error> {
        let columns: BTreeSet<usize> = list.iter().filter_map(Answer::column).collect();
        let mut summaries: Vec<Summary> = columns.into_iter().map(Summary::new).collect();
        let kept = self.pass(
            summaries
                .iter_mut()
                .map(|it| it as &mut dyn Output)
                .collect(),
        )?;
        let names: Vec<String> = names.iter().map(ToString::to_string).collect();
        let answers = summary::answers(list, kept.rows, &summaries);
        let (mut out, dialect) = (io::stdout().lock(), self.table.format().dialect);
        write_row(&mut out, dialect, names.iter().map(String::as_bytes))
            .and_then(|()| write_row(&mut out, dialect, answers.iter().map(Vec::as_slice)))
            .map_err(Error::output)?;
        Ok(Outcome::Done)
    }

    fn rows(&self) -> Result<Outcome, Error> {
        let mut writer = self.writer(BufWriter::new(io::stdout().lock()), Error::output)?;
        self.pass(vec![&mut writer])?;
        writer.finish()?;
        Ok(Outcome::Done)
    }

    fn nth(&self, before: u64) -> Result<Outcome, Error> {
        let mut nth = Nth::new(before);
        let kept = self.pass(vec![&mut nth])?;
        let Some(row) = nth.found else {
            let kept = grouped(kept.rows);
            // If standard error is closed, no one reads the line: the error is ignored.
            let _ = writeln!(io::stderr(), "there is no such row: {kept} are kept");
            return Ok(Outcome::NoRow);
        };
        let mut out = BufWriter::new(io::stdout().lock());
        report::write_row(&mut out, &row, self.survey)
            .and_then(|()| out.flush())
            .map_err(Error::output)?;
        Ok(Outcome::Done)
    }
}
