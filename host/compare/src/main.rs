//! Compares the proved server with the second implementation on random
//! openings and requests. A run repeats with its seed.

mod answer;
mod damage;
mod garbage;
mod hall;
mod lent;
mod lines;
mod masks;
mod pair;
mod rng;
mod run;
mod sizes;
mod tally;
mod texts;
mod watchdog;
mod watched;
mod words;

use std::env;
use std::process::ExitCode;
use std::time::{Duration, SystemTime, UNIX_EPOCH};

use run::{Failure, Run};

const USAGE: &str = "usage: compare [--seed N] [--requests N] [--seconds N]";

struct Options {
    seed: u64,
    requests: usize,
    seconds: u64,
}

impl Options {
    fn parse(mut words: impl Iterator<Item = String>) -> Option<Options> {
        let mut options = Options { seed: clock(), requests: 1_000_000, seconds: 60 };
        while let Some(word) = words.next() {
            let number = words.next()?.parse().ok()?;
            match word.as_str() {
                "--seed" => options.seed = number,
                "--requests" => options.requests = usize::try_from(number).ok()?,
                "--seconds" => options.seconds = number,
                _ => return None,
            }
        }
        Some(options)
    }
}

fn clock() -> u64 {
    let since = SystemTime::now().duration_since(UNIX_EPOCH);
    since.map_or(0, |time| time.as_nanos() as u64)
}

fn main() -> ExitCode {
    let Some(options) = Options::parse(env::args().skip(1)) else {
        eprintln!("{USAGE}");
        return ExitCode::from(2);
    };
    if let Err(different) = sizes::compare() {
        println!("{different}");
        return ExitCode::FAILURE;
    }
    println!("seed {}", options.seed);
    let mut run = Run::new(options.seed);
    let ended = run.run(options.requests, Duration::from_secs(options.seconds));
    println!("cases {}\n{}", run.cases(), run.tally());
    match ended {
        Ok(in_time) => {
            if !in_time {
                println!("ended by the time limit");
            }
            println!("agree");
            ExitCode::SUCCESS
        }
        Err(failure) => {
            print_failure(options.seed, &failure);
            ExitCode::FAILURE
        }
    }
}

fn print_failure(seed: u64, Failure { case, difference }: &Failure) {
    println!("seed {seed}, case {case}\nasked {}\n{}", difference.asked, difference.found);
}
