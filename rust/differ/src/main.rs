//! `differ [--seed S] [--cases N [--few]] [--mutants M]`: compares engines and prints what was met.
#![deny(warnings)]
#![forbid(unsafe_code)]

use differ::{catch_mutants, catch_text_mutants, compare_all, compare_every_text, compare_systematic, compare_texts};
use differ::{Engine, Reader, Report, Second, TextReport};
use mutants::Mutant;
use std::process::ExitCode;
use std::time::Instant;

/// Fewer random cases than this need `--few`.
const LEAST: u64 = 50_000;

struct Options {
    seed: u64,
    cases: u64,
    /// Fewer than LEAST cases will do, and not every label needs to be met.
    few: bool,
    /// Cases within which each mutant must be caught; 0 leaves the mutants out.
    mutants: u64,
}

fn options() -> Result<Options, String> {
    let mut options = Options { seed: 1, cases: 60_000, few: false, mutants: 40_000 };
    let mut words = std::env::args().skip(1);
    while let Some(word) = words.next() {
        let mut number = || {
            let number = words.next().and_then(|number| number.replace('_', "").parse().ok());
            number.ok_or(format!("{word} needs a number"))
        };
        match word.as_str() {
            "--seed" => options.seed = number()?,
            "--cases" => options.cases = number()?,
            "--mutants" => options.mutants = number()?,
            "--few" => options.few = true,
            _ => return Err(format!("unknown option {word}")),
        }
    }
    match options.few || options.cases >= LEAST {
        true => Ok(options),
        false => Err(format!("fewer than {LEAST} cases need --few")),
    }
}

fn print_counts(report: &Report) {
    println!("  by case of 01's table (label: refusal x times):");
    for (label, numbers) in &report.labels {
        let numbers: Vec<String> = numbers.iter().map(|(number, times)| format!("{number} x {times}")).collect();
        println!("    {label}: {}", numbers.join(", "));
    }
    println!("  answers (number, event and what is wrong: times):");
    for (label, times) in &report.answered {
        println!("    {label}: {times}");
    }
    println!("  returned: {:?}", report.returned);
    println!(
        "  {} labels, {} labels of answers, {} cases, {} events, {} pairs of orders, {} times two runs in one call",
        report.labels.len(),
        report.answered.len(),
        report.cases,
        report.events,
        report.pairs_of_orders,
        report.in_one_call
    );
}

/// Prints how a stage ended.
fn end(passed: bool) -> bool {
    println!("stage {}", if passed { "passed" } else { "failed" });
    passed
}

/// One comparison; whether it found no difference, and met all that it should.
fn stage(
    engines: &[&dyn Engine],
    what: &str,
    compare: impl Fn() -> Report,
    gaps: impl Fn(&Report) -> Vec<String>,
) -> bool {
    let start = Instant::now();
    let names: Vec<String> = engines.iter().map(|engine| engine.name()).collect();
    println!("{}: {what}", names.join(" against "));
    let report = compare();
    print_counts(&report);
    if engines.len() < 2 {
        println!("  without CUDDYSTOVE_LIB nothing was compared; one engine was held to what is known of each case");
    }
    println!("  {:.1} s", start.elapsed().as_secs_f32());
    // A comparison that stopped at a difference has not met all.
    let wrong = report.difference.as_ref().map_or_else(|| gaps(&report), |difference| vec![difference.clone()]);
    for what in &wrong {
        println!("{what}");
    }
    end(wrong.is_empty())
}

/// One comparison of readers of texts; whether it found no difference, and met all that it should.
fn text_stage(
    readers: &[&dyn Reader],
    what: &str,
    compare: impl Fn() -> TextReport,
    gaps: impl Fn(&TextReport) -> Vec<String>,
) -> bool {
    let start = Instant::now();
    let names: Vec<String> = readers.iter().map(|reader| reader.name()).collect();
    println!("{}: {what}", names.join(" against "));
    let report = compare();
    for (label, numbers) in &report.labels {
        let numbers: Vec<String> = numbers.iter().map(|(number, times)| format!("{number} x {times}")).collect();
        println!("    {label}: {}", numbers.join(", "));
    }
    println!("  returned: {:?}", report.returned);
    if readers.len() < 2 {
        println!("  without CUDDYSTOVE_LIB nothing was compared; one reader was held to what is known of each text");
    }
    println!("  {} labels, {} texts, {:.1} s", report.labels.len(), report.cases, start.elapsed().as_secs_f32());
    let wrong = report.difference.as_ref().map_or_else(|| gaps(&report), |difference| vec![difference.clone()]);
    for what in &wrong {
        println!("{what}");
    }
    end(wrong.is_empty())
}

/// Each mutant with the number of cases after which it was caught, if it was.
type Caught = Vec<(Mutant, Option<u64>)>;

/// Every mutant must be caught.
fn mutants(what: &str, within: &str, catch: impl Fn() -> Result<Caught, String>) -> bool {
    std::panic::set_hook(Box::new(|_| {}));
    let start = Instant::now();
    let all = match catch() {
        Ok(all) => all,
        Err(wrong) => {
            println!("mutants: {wrong}");
            return end(false);
        }
    };
    let mut caught = vec![];
    let mut missed = vec![];
    for (mutant, at) in all {
        match at {
            Some(cases) => caught.push((cases, mutant.name())),
            None => missed.push(mutant.name()),
        }
    }
    caught.sort();
    println!(
        "{what}: {} caught within {within}, {} missed, {:.1} s",
        caught.len(),
        missed.len(),
        start.elapsed().as_secs_f32()
    );
    for (cases, name) in caught.iter().rev().take(12) {
        println!("  caught after {cases} cases: {name}");
    }
    for name in &missed {
        println!("  missed: {name}");
    }
    end(missed.is_empty())
}

fn main() -> ExitCode {
    let options = match options() {
        Ok(options) => options,
        Err(what) => {
            eprintln!("{what}\ndiffer [--seed S] [--cases N [--few]] [--mutants M]");
            return ExitCode::from(2);
        }
    };
    #[cfg(feature = "proved")]
    let engines: &[&dyn Engine] = &[&differ::Proved, &Second];
    #[cfg(not(feature = "proved"))]
    let engines: &[&dyn Engine] = &[&Second];
    let Options { seed, cases, few, mutants: within } = options;
    let what = format!("seed {seed}, {cases} cases");
    let gaps = |report: &Report| if few { vec![] } else { report.gaps() };
    let mut passed = stage(engines, "systematic cases", || compare_systematic(engines), Report::systematic_gaps);
    passed &= stage(engines, &what, || compare_all(engines, seed, cases), gaps);
    #[cfg(feature = "proved")]
    let readers: &[&dyn Reader] = &[&differ::Proved, &Second];
    #[cfg(not(feature = "proved"))]
    let readers: &[&dyn Reader] = &[&Second];
    let gaps = |report: &TextReport| if few { vec![] } else { report.random_gaps() };
    passed &= text_stage(readers, "systematic texts", || compare_every_text(readers), TextReport::systematic_gaps);
    passed &= text_stage(readers, &format!("{what}, texts"), || compare_texts(readers, seed, cases), gaps);
    if within > 0 {
        let cases = format!("{within} cases and two long runs");
        passed &= mutants("mutants", &cases, || catch_mutants(&Second, seed, within));
        let texts = format!("{within} texts and the few systematic ones");
        passed &= mutants("mutants of the reader", &texts, || catch_text_mutants(&Second, seed, within));
    }
    if passed {
        ExitCode::SUCCESS
    } else {
        ExitCode::FAILURE
    }
}
