//! The progress of a long run, on standard error.

use std::io::{self, IsTerminal, Write};
use std::time::{Duration, Instant};

/// A run shorter than this reports nothing.
const SHORT: Duration = Duration::from_secs(1);

/// The progress of one pass over a file.
pub struct Progress {
    doing: &'static str,
    size: u64,
    start: Instant,
    /// The time of the last report.
    reported: Option<Instant>,
    is_terminal: bool,
}

impl Progress {
    /// Returns the progress of a pass over a file of `size` bytes that begins now.
    #[must_use]
    pub fn new(doing: &'static str, size: u64) -> Progress {
        let is_terminal = io::stderr().is_terminal();
        Progress {
            doing,
            size,
            start: Instant::now(),
            reported: None,
            is_terminal,
        }
    }

    /// Reports the numbers of rows and bytes that are read, if a report is due. A terminal has one
    /// line that changes five times a second; other outputs get a line every five seconds.
    pub fn report(&mut self, rows: u64, bytes: u64) {
        let pause = Duration::from_millis(if self.is_terminal { 200 } else { 5000 });
        let is_due = self.reported.is_none_or(|last| last.elapsed() >= pause);
        if self.start.elapsed() < SHORT || !is_due {
            return;
        }
        self.reported = Some(Instant::now());
        let line = line(self.doing, rows, (bytes, self.size), self.start.elapsed());
        let (start, end) = if self.is_terminal {
            ("\r\x1b[K", "")
        } else {
            ("", "\n")
        };
        // If standard error is closed, no one reads the line: the error is ignored.
        let _ = write!(io::stderr(), "{start}{line}{end}");
    }
}

impl Drop for Progress {
    /// Clears the line of the terminal.
    fn drop(&mut self) {
        if self.reported.is_some() && self.is_terminal {
            let _ = write!(io::stderr(), "\r\x1b[K");
        }
    }
}

#[allow(
    clippy::cast_precision_loss,
    reason = "a rate needs no more than three digits"
)]
fn line(doing: &str, rows: u64, (bytes, size): (u64, u64), passed: Duration) -> String {
    let share = 100.0 * bytes as f64 / size.max(1) as f64;
    let rate = rows as f64 / passed.as_secs_f64() / 1e6;
    let rows = grouped(rows);
    format!("{doing}: {rows} rows, {share:.0} % of the file, {rate:.2} million rows a second")
}

/// Returns a number with a comma before each group of three digits.
#[must_use]
pub fn grouped(number: u64) -> String {
    let digits = number.to_string();
    let mut grouped = String::new();
    for (place, digit) in digits.chars().enumerate() {
        if place > 0 && (digits.len() - place) % 3 == 0 {
            grouped.push(',');
        }
        grouped.push(digit);
    }
    grouped
}

#[cfg(test)]
mod tests {
    use super::*;

    #[test]
    fn numbers_in_groups() {
        let shown = [0, 999, 1000, 1_234_567].map(grouped);
        assert_eq!(shown, ["0", "999", "1,000", "1,234,567"]);
    }

    #[test]
    fn a_line() {
        assert_eq!(
            line("reading", 3_000_000, (50, 200), Duration::from_secs(2)),
            "reading: 3,000,000 rows, 25 % of the file, 1.50 million rows a second"
        );
    }
}
