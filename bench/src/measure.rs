//! Times side by side: all contenders take turns, and the best round of each counts. Before each
//! turn the contender runs once unmeasured, so that the caches are as it leaves them itself, and
//! not as another one does.

use std::hint::black_box;
use std::time::{Duration, Instant};

/// A row has at least budget / ROUND rounds, and at least one, however long a round takes.
const ROUND: Duration = Duration::from_millis(25);

/// The least time of a contender's turn in a round: the clock is fine enough for it.
const PART: Duration = Duration::from_micros(20);

/// A turn's calls take at least this many times as long as making its sets takes.
const SHARE: u32 = 4;

/// A function that returns a number, the same one as other contenders that do the same work.
pub struct Contender<'a> {
    ask: Box<dyn Fn(usize) -> usize + 'a>,
    answers: usize,
    makes: bool,
}

impl<'a> Contender<'a> {
    /// A function that makes one call.
    pub fn of(answer: impl Fn() -> usize + 'a) -> Self {
        Contender::of_each(1, answer)
    }

    /// A function that makes so many calls at once: its time is that of one of them.
    pub fn of_each(answers: usize, answer: impl Fn() -> usize + 'a) -> Self {
        let ask = move |times| (0..times).fold(0, |_, _| black_box(answer()));
        Contender {
            ask: Box::new(ask),
            answers,
            makes: false,
        }
    }

    /// A function that makes its sets, and then the given number of calls. The time of making the
    /// sets isn't counted: it is measured with 0 calls, and subtracted.
    pub fn in_rounds(ask: impl Fn(usize) -> usize + 'a) -> Self {
        Contender {
            ask: Box::new(move |times| black_box(ask(times))),
            answers: 1,
            makes: true,
        }
    }

    /// The result of one run.
    pub fn answer(&self) -> usize {
        (self.ask)(1)
    }

    /// The time of so many runs.
    fn time(&self, times: usize) -> Duration {
        let start = Instant::now();
        black_box((self.ask)(times));
        start.elapsed()
    }

    fn making(&self) -> Duration {
        if self.makes {
            self.time(0)
        } else {
            Duration::ZERO
        }
    }

    /// The number of runs in a turn. A run before these warms the caches.
    fn times_in_a_round(&self) -> usize {
        self.time(1);
        let made = self.making().min(self.making());
        let mut times = 1;
        while self.time(times) < PART + (SHARE + 1) * made {
            times *= 2;
        }
        times
    }
}

/// The nanoseconds of one call of each contender, from rounds that take this long in all.
pub fn best(contenders: &[Contender], budget: Duration) -> Vec<f64> {
    let times: Vec<usize> = contenders.iter().map(|c| c.times_in_a_round()).collect();
    let mut makings = vec![Duration::MAX; contenders.len()];
    let mut best = vec![Duration::MAX; contenders.len()];
    let rounds = (budget.as_millis() / ROUND.as_millis()).max(1);
    let start = Instant::now();
    let mut round = 0;
    while round < rounds || start.elapsed() < budget {
        for (k, contender) in contenders.iter().enumerate() {
            makings[k] = makings[k].min(contender.making());
            contender.time(1);
            best[k] = best[k].min(contender.time(times[k]));
        }
        round += 1;
    }
    let nanoseconds = |k: usize| {
        let asked = best[k].saturating_sub(makings[k]);
        asked.as_nanos() as f64 / (times[k] * contenders[k].answers) as f64
    };
    (0..contenders.len()).map(nanoseconds).collect()
}
