//! The program: see `--help`.

use std::env;
use std::io::{self, Write};
use std::process::ExitCode;

use demo::args::{HELP, parse};
use demo::error::Error;
use demo::run::{Outcome, run};

/// The status if the requested row doesn't exist.
const NO_ROW: u8 = 1;
/// The status of an error.
const FAILED: u8 = 2;

fn answer() -> Result<Outcome, Error> {
    match parse(env::args_os().skip(1))? {
        Some(options) => run(&options),
        None => io::stdout()
            .write_all(HELP.as_bytes())
            .map_err(Error::output)
            .map(|()| Outcome::Done),
    }
}

fn main() -> ExitCode {
    match answer() {
        Ok(Outcome::Done) | Err(Error::Closed) => ExitCode::SUCCESS,
        Ok(Outcome::NoRow) => ExitCode::from(NO_ROW),
        Err(error) => {
            // If standard error is closed, no one reads the line: the error is ignored.
            let _ = writeln!(io::stderr(), "{error}");
            ExitCode::from(FAILED)
        }
    }
}
