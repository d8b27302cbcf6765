//! Times engines side by side in one process: in each round every engine does the same work once, in turn, each round
//! beginning with the next engine. Times are medians over the rounds, ratios the medians of the rounds' ratios. Prints
//! markdown tables.
#![deny(warnings)]
#![forbid(unsafe_code)]

mod engines;
mod work;
mod works;

use cases::network;
use engines::{Sizes, Timed, Which, NOW};
use std::hint::black_box;
use std::process::ExitCode;
use std::time::Instant;
use work::Work;

const USAGE: &str =
    "bench [rounds] [--long] [--before-cells N] [--before-answer W]; the last two where it was built with `before`";

/// What is asked for: how many rounds, whether works that take minutes, and the older library's sizes.
struct Options {
    rounds: usize,
    long: bool,
    before: Sizes,
}

fn options(mut words: impl Iterator<Item = String>) -> Option<Options> {
    let mut options = Options { rounds: 15, long: false, before: NOW };
    while let Some(word) = words.next() {
        match &word[..] {
            "--long" => options.long = true,
            "--before-cells" if cfg!(feature = "before") => options.before.cells = words.next()?.parse().ok()?,
            "--before-answer" if cfg!(feature = "before") => options.before.answer = words.next()?.parse().ok()?,
            rounds => options.rounds = rounds.parse::<usize>().ok()?.max(1),
        }
    }
    Some(options)
}

/// A column of a table: the times of an engine, or the ratio of one's to another's.
enum Column {
    Time(usize),
    Ratio(usize, usize),
}

/// The columns for so many engines, each with its head.
fn columns(engines: usize) -> Vec<(&'static str, Column)> {
    use Column::{Ratio, Time};
    match engines {
        1 => vec![("second engine", Time(0))],
        2 => vec![("proved engine", Time(0)), ("second engine", Time(1)), ("ratio", Ratio(0, 1))],
        _ => vec![
            ("before", Time(0)),
            ("now", Time(1)),
            ("now / before", Ratio(1, 0)),
            ("second engine", Time(2)),
            ("now / second engine", Ratio(1, 2)),
        ],
    }
}

fn median(mut numbers: Vec<f64>) -> f64 {
    numbers.sort_by(f64::total_cmp);
    numbers[numbers.len() / 2]
}

/// A time in words, three digits of it.
fn words(nanos: f64) -> String {
    let (number, unit) = match nanos {
        n if n < 1e3 => (n, "ns"),
        n if n < 1e6 => (n / 1e3, "µs"),
        n => (n / 1e6, "ms"),
    };
    let digits = if number < 10.0 { 2 } else { usize::from(number < 100.0) };
    format!("{number:.digits$} {unit}")
}

impl Column {
    /// The column's entry in the row of a work: from the times of all engines in each round, for calls that each did
    /// so many events, or 1. `-` where an engine did not do the work.
    fn entry(&self, times: &[Vec<f64>], events: usize) -> String {
        let each = |time: f64| words(time / events as f64);
        let done = |of: usize| !times[of].is_empty();
        match *self {
            Column::Time(of) if done(of) => {
                let least = times[of].iter().copied().fold(f64::MAX, f64::min);
                format!("{} (least {})", each(median(times[of].clone())), each(least))
            }
            Column::Ratio(of, to) if done(of) && done(to) => {
                let ratios = times[of].iter().zip(&times[to]).map(|(of, to)| of / to);
                format!("{:.2}", median(ratios.collect()))
            }
            _ => "-".into(),
        }
    }
}

/// A table with a row for each work; `each` is whether times are those of one event.
fn print_table(first: &str, works: &[Work], each: bool, engines: &[Timed], rounds: usize) {
    let columns = columns(engines.len());
    let heads: Vec<&str> = columns.iter().map(|(head, _)| *head).collect();
    println!("\n| {first} | {} |", heads.join(" | "));
    println!("|---|{}", "---:|".repeat(columns.len()));
    for work in works {
        let name = if each && work.events == 0 { "0 (the whole call)" } else { &work.name };
        let events = if each { work.events.max(1) } else { 1 };
        let times = work.measure(engines, rounds);
        let entries: Vec<String> = columns.iter().map(|(_, column)| column.entry(&times, events)).collect();
        println!("| {name} | {} |", entries.join(" | "));
    }
}

/// What reading, or copying, a network takes, for comparison.
fn machine(rounds: usize) {
    let cells = network::fresh();
    let mut copy = cells.clone();
    let time = |work: &mut dyn FnMut()| {
        let start = Instant::now();
        (0..1_000).for_each(|_| work());
        start.elapsed().as_nanos() as f64 / 1e3
    };
    let mut read = || {
        black_box(black_box(&cells).iter().fold(0, |all, cell| all ^ cell));
    };
    let reading = median((0..rounds).map(|_| time(&mut read)).collect());
    let mut write = || black_box(&mut copy).copy_from_slice(black_box(&cells));
    let copying = median((0..rounds).map(|_| time(&mut write)).collect());
    let (reading, copying) = (words(reading), words(copying));
    let (thousands, rest) = (cells.len() / 1_000, cells.len() % 1_000);
    println!("Reading {thousands},{rest:03} cells takes this machine {reading}, copying them {copying}.");
}

/// The machine's load, where it can be read.
fn load() -> String {
    let text = std::fs::read_to_string("/proc/loadavg").unwrap_or_default();
    text.split(' ').next().map_or("unknown".into(), String::from)
}

fn main() -> ExitCode {
    let Some(Options { rounds, long, before }) = options(std::env::args().skip(1)) else {
        eprintln!("{USAGE}");
        return ExitCode::from(2);
    };
    let engines = &engines::all(before);
    if let Some(Timed { engine, sizes, .. }) = engines.iter().find(|timed| !timed.has_its_sizes()) {
        eprintln!("{}: it does not have {sizes}.", engine.name());
        eprintln!("Sizes of the older library are given by --before-cells N and --before-answer W.");
        return ExitCode::from(2);
    }
    let cores = std::thread::available_parallelism().map_or(0, usize::from);
    let load_before = load();
    println!("Medians of {rounds} rounds, engines in turn in one process, without the time that others had the core;");
    println!("a ratio is the median of the rounds' ratios.");
    if before != NOW {
        println!("Before: {before}. What that engine left is not compared.");
    }
    if engines.iter().any(|timed| timed.which == Which::Older) {
        println!("`-` stands at what the older library does not know: a kind of node, or the reading of texts.");
    }
    println!("`-` stands for the second engine where it would need too much memory (a text without its ends).");
    if long {
        println!("The line of 1 MB of names is of one round.");
    }
    print_table("work", &works::all(long), false, engines, rounds);
    let growth = "distance-to, a run of so many events: time an event";
    print_table(growth, &works::growth(), true, engines, rounds);
    println!();
    machine(rounds);
    println!("{cores} cores; load {load_before} before, {} after (1 is this program).", load());
    ExitCode::SUCCESS
}
