//! Makes random calls of `vortex_bits`, and compares their results with those of loops over single
//! bits; with the feature `upstream` also with those of vortex-buffer.
//!
//!     diff [CALLS [SEED]]
//!
//! CALLS is the number of calls at each available level, 2,000,000 by default.

mod aggregate;
mod ask;
mod case;
mod gather;
mod group;
mod own;
mod plain;
mod query;
mod random;
#[cfg(feature = "upstream")]
mod upstream;
mod write;

use std::env;
use std::process::ExitCode;

use case::Case;
use random::Random;
use vortex_bits::Level;

/// The argument at this position of the command line.
fn number(place: usize, otherwise: u64) -> Result<u64, String> {
    match env::args().nth(place) {
        Some(word) => word.parse().map_err(|_| format!("{word} is no number")),
        None => Ok(otherwise),
    }
}

fn compare(case: &Case, random: &mut Random) -> Result<u64, String> {
    let calls = ask::compare(case)?
        + write::compare(case)?
        + gather::compare(case, random)?
        + aggregate::compare(case, random)?
        + group::compare(case, random)?
        + query::compare(case, random)?
        + own::compare(case, random)?;
    #[cfg(feature = "upstream")]
    let calls = calls + upstream::compare(case)?;
    Ok(calls)
}

fn run() -> Result<(), String> {
    let wanted = number(1, 2_000_000)?;
    let seed = number(2, 88_172_645_463_325_252)?;
    for level in Level::available() {
        assert!(level.make_current());
        let mut random = Random::new(seed);
        let mut calls = 0;
        let mut cases = 0;
        while calls < wanted {
            let case = Case::new(&mut random, cases);
            calls += compare(&case, &mut random)
                .map_err(|wrong| format!("{level:?}: {wrong}\n{case:?}"))?;
            cases += 1;
        }
        println!("{level:?}: {calls} calls in {cases} cases agree");
    }
    Ok(())
}

fn main() -> ExitCode {
    match run() {
        Ok(()) => ExitCode::SUCCESS,
        Err(wrong) => {
            eprintln!("{wrong}");
            ExitCode::FAILURE
        }
    }
}
