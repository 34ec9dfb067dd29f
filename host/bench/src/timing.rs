//! Taking times.

use std::time::{Duration, Instant};

/// The least time of a measurement, and how many there are of each server.
const AT_LEAST: Duration = Duration::from_millis(200);
const TIMES: usize = 7;

/// How many there are of each server where a round takes seconds.
const LONG_TIMES: usize = 3;

/// How long one server is timed before it is the other's turn, so that both
/// meet the same disturbances.
const TURN: Duration = Duration::from_millis(10);

/// What was done, and how long it took.
#[derive(Default)]
pub struct Round {
    requests: usize,
    time: Duration,
}

impl Round {
    /// Times an act that makes so many requests.
    pub fn timed(requests: usize, act: impl FnOnce()) -> Round {
        let start = Instant::now();
        act();
        Round { requests, time: start.elapsed() }
    }

    /// Adds rounds until a turn is over.
    fn add_turn(&mut self, round: &mut impl FnMut() -> Round) {
        let end = self.time + TURN;
        while self.time < end {
            let next = round();
            self.requests += next.requests;
            self.time += next.time;
        }
    }

    /// Requests a second.
    fn rate(&self) -> f64 {
        self.requests as f64 / self.time.as_secs_f64()
    }
}

/// Requests a second of both servers, and how many times as fast the proved
/// one is: each the median of the measurements. The least and the most of those
/// ratios say how far they can be trusted.
pub struct Rates {
    pub proved: f64,
    pub other: f64,
    pub ratio: f64,
    pub least: f64,
    pub most: f64,
}

impl Rates {
    fn medians(rates: &[[f64; 2]]) -> Rates {
        let ratios = sorted(rates.iter().map(|[proved, other]| proved / other));
        Rates {
            proved: median(&sorted(rates.iter().map(|[proved, _]| *proved))),
            other: median(&sorted(rates.iter().map(|[_, other]| *other))),
            ratio: median(&ratios),
            least: ratios[0],
            most: ratios[ratios.len() - 1],
        }
    }

    /// Microseconds that a request takes.
    pub fn micros(&self) -> [f64; 2] {
        [self.proved, self.other].map(|rate| 1e6 / rate)
    }
}

/// One task for both servers.
pub struct Contest {
    proved: Box<dyn FnMut() -> Round>,
    other: Box<dyn FnMut() -> Round>,
}

impl Contest {
    pub fn new(
        proved: impl FnMut() -> Round + 'static,
        other: impl FnMut() -> Round + 'static,
    ) -> Self {
        Contest { proved: Box::new(proved), other: Box::new(other) }
    }

    /// Times the two in turn, after a round of each that only warms up.
    fn measure(&mut self) -> [f64; 2] {
        let (mut ours, mut theirs) = (Round::default(), Round::default());
        (self.proved)();
        (self.other)();
        while ours.time < AT_LEAST || theirs.time < AT_LEAST {
            ours.add_turn(&mut self.proved);
            theirs.add_turn(&mut self.other);
        }
        [ours.rate(), theirs.rate()]
    }
}

/// Measures all of them once, then all again, and so on: what disturbs the
/// machine for a while disturbs them alike.
pub fn measure<const N: usize>(mut contests: [Contest; N]) -> [Rates; N] {
    let mut rates = [[[0.0; 2]; TIMES]; N];
    for time in 0..TIMES {
        for (contest, rates) in contests.iter_mut().zip(&mut rates) {
            rates[time] = contest.measure();
        }
    }
    rates.map(|rates| Rates::medians(&rates))
}

/// Measures a task whose rounds are long: one of each server in turn. They need
/// no warming up.
pub fn measure_long(mut contest: Contest) -> Rates {
    let rates = [(); LONG_TIMES].map(|()| [(contest.proved)().rate(), (contest.other)().rate()]);
    Rates::medians(&rates)
}

fn sorted(numbers: impl Iterator<Item = f64>) -> Vec<f64> {
    let mut numbers: Vec<f64> = numbers.collect();
    numbers.sort_by(f64::total_cmp);
    numbers
}

fn median(sorted: &[f64]) -> f64 {
    sorted[sorted.len() / 2]
}
