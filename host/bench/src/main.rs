//! Measures the proved server and the second implementation, or an earlier build
//! of the proved one, side by side.

mod growth;
mod halls;
mod long_day;
mod program;
mod rng;
mod subject;
mod svg;
mod tasks;
mod timing;

use std::process::ExitCode;
use std::{env, fs};

use growth::{Cost, Growth};
use halls::Hall;
use program::Programs;
use subject::OTHER;
use timing::{measure, measure_long, Contest, Rates};

const USAGE: &str = "usage: bench [--serve FILE] [--long-day | [--growth] [--svg FILE]]";

#[derive(Default)]
struct Options {
    /// Where the plot is written to.
    svg: Option<String>,
    /// The proved program, if it is not where it is built.
    serve: Option<String>,
    /// Whether the long day is all that is measured.
    only_long_day: bool,
    /// Whether the growths are all that is measured.
    only_growths: bool,
}

impl Options {
    fn parse(mut words: impl Iterator<Item = String>) -> Option<Options> {
        let mut options = Options::default();
        while let Some(word) = words.next() {
            match word.as_str() {
                "--svg" => options.svg = Some(words.next()?),
                "--serve" => options.serve = Some(words.next()?),
                "--long-day" => options.only_long_day = true,
                "--growth" => options.only_growths = true,
                _ => return None,
            }
        }
        Some(options).filter(Options::consistent)
    }

    /// The long day alone has no growths, and a plot shows nothing else.
    fn consistent(&self) -> bool {
        !(self.only_long_day && (self.only_growths || self.svg.is_some()))
    }
}

fn main() -> ExitCode {
    let Some(options) = Options::parse(env::args().skip(1)) else {
        eprintln!("{USAGE}");
        return ExitCode::from(2);
    };
    subject::check_sizes();
    if options.only_long_day {
        print_long_day(options.serve.as_deref());
        return ExitCode::SUCCESS;
    }
    if !options.only_growths {
        print_halls();
        print_long_day(options.serve.as_deref());
    }
    let growths = print_growths();
    match options.svg.map(|file| fs::write(file, svg::plot(&growths))) {
        Some(Err(error)) => {
            eprintln!("bench: {error}");
            ExitCode::FAILURE
        }
        _ => ExitCode::SUCCESS,
    }
}

fn print_halls() {
    let example = Hall::example();
    print_rows("The example: 3 users, 4 policy lines, 6 fields", &example, &example);
    let title = "A full hall: 32 users, 64 policy lines, 256 fields";
    print_rows(title, &Hall::full(), &Hall::with_room());
}

/// Prints a hall's rows; new fields are pushed in a hall that has room.
fn print_rows(title: &str, hall: &Hall, with_room: &Hall) {
    tasks::check(hall);
    tasks::check(with_room);
    let rows = [
        ("LOGIN", tasks::login(hall)),
        ("LOGOUT", tasks::logout(hall)),
        ("GET", tasks::get(hall)),
        ("PUSH to a held field", tasks::held_push(hall)),
        ("PUSH of a new field", tasks::new_push(with_room)),
        ("a recorded day", tasks::day(hall)),
        ("save", tasks::save(hall)),
        ("opening", tasks::opening(hall)),
    ];
    print_head(title);
    print_measured(rows);
    println!();
}

/// Prints the rows of the long day, which is run through the library and, where
/// the programs are found, through them; an earlier build is a library alone.
fn print_long_day(serve: Option<&str>) {
    let hall = Hall::long_day();
    tasks::check(&hall);
    print_head("A long day: 32 users, 64 policy lines, 192 fields that become 256");
    print_measured([
        ("GET", tasks::get(&hall)),
        ("PUSH to a held field", tasks::held_push(&hall)),
        ("PUSH of a new field", tasks::new_push(&hall)),
        ("opening", tasks::opening(&hall)),
    ]);
    print_row("the day", &measure_long(tasks::day(&hall)));
    if !cfg!(feature = "former") {
        print_programs(serve, &hall);
    }
    println!();
}

fn print_programs(serve: Option<&str>, hall: &Hall) {
    let contest = Programs::find(serve)
        .and_then(|programs| programs.contest(hall).map_err(|error| error.to_string()));
    match contest {
        Ok(contest) => print_row("the day, through the programs", &measure_long(contest)),
        Err(missing) => println!("\nThe day was not run through the programs: {missing}"),
    }
}

fn print_head(title: &str) {
    println!("## {title}\n\n| | proved/s | {OTHER}/s | ratio | least to most |");
    println!("|---|---:|---:|---:|---|");
}

fn print_measured<const N: usize>(rows: [(&str, Contest); N]) {
    let names = rows.each_ref().map(|(name, _)| *name);
    for (name, rates) in names.iter().zip(measure(rows.map(|(_, contest)| contest))) {
        print_row(name, &rates);
    }
}

fn print_row(name: &str, Rates { proved, other, ratio, least, most }: &Rates) {
    println!("| {name} | {proved:.0} | {other:.0} | {ratio:.2} | {least:.2} to {most:.2} |");
}

/// Measures and prints one growth after the other.
fn print_growths() -> Vec<Growth> {
    let growths = [growth::by_fields, growth::by_policy, growth::by_others_policy];
    growths.into_iter().map(|measured| measured()).inspect(print_growth).collect()
}

fn print_growth(Growth { size, at, costs }: &Growth) {
    println!("## Microseconds by {size}, {at}\n");
    println!(
        "| {size} | bytes of a copy | GET proved | GET {OTHER} | PUSH proved | PUSH {OTHER} |"
    );
    println!("|---:|---:|---:|---:|---:|---:|");
    for Cost { size, copy, get, push } in costs {
        let [get, push] = [get, push].map(|[proved, other]| format!("{proved:.2} | {other:.2}"));
        println!("| {size} | {copy} | {get} | {push} |");
    }
    println!();
}
