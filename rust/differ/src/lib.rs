//! Two engines of document 01 ("01") side by side: the same cases, every buffer compared whole.
#![deny(warnings)]
#![forbid(unsafe_code)]

mod lent;
mod report;
mod show;
mod texts;

pub use report::Report;
pub use texts::{catch_text_mutants, compare_every_text, compare_texts, Reader, TextReport};

use cases::table::split;
use cases::{Call, Case};
use lent::Lent;
use mutants::Mutant;
use std::collections::BTreeMap;
use std::panic::{catch_unwind, AssertUnwindSafe};

/// What a call returned: a number and a place.
pub type Returned = (u32, usize);

/// An engine: 01's four calls.
pub trait Engine {
    fn name(&self) -> String;
    fn check(&self, program: &[u8]) -> Returned;
    fn fresh(&self, network: &mut [i32]) -> Returned;
    fn event(&self, program: &[u8], network: &mut [i32], list: &[u8], answers: &mut [i32]) -> Returned;
    fn run(&self, program: &[u8], network: &mut [i32], list: &[u8], answers: &mut [i32]) -> Returned;
    /// The engine's call for two runs, if it has one.
    fn both(&self) -> Option<&dyn Both> {
        None
    }
}

/// Two runs in one call.
pub trait Both {
    fn run_both(
        &self,
        program: &[u8],
        networks: [&mut [i32]; 2],
        lists: [&[u8]; 2],
        answers: [&mut [i32]; 2],
    ) -> [Returned; 2];
}

/// The second engine.
pub struct Second;

impl Engine for Second {
    fn name(&self) -> String {
        "second engine".into()
    }
    fn check(&self, program: &[u8]) -> Returned {
        second::check(program)
    }
    fn fresh(&self, network: &mut [i32]) -> Returned {
        second::fresh(network)
    }
    fn event(&self, program: &[u8], network: &mut [i32], list: &[u8], answers: &mut [i32]) -> Returned {
        second::event(program, network, list, answers)
    }
    fn run(&self, program: &[u8], network: &mut [i32], list: &[u8], answers: &mut [i32]) -> Returned {
        second::run(program, network, list, answers)
    }
}

impl Engine for Mutant {
    fn name(&self) -> String {
        format!("mutant '{}'", Mutant::name(*self))
    }
    fn check(&self, program: &[u8]) -> Returned {
        Mutant::check(*self, program)
    }
    fn fresh(&self, network: &mut [i32]) -> Returned {
        Mutant::fresh(*self, network)
    }
    fn event(&self, program: &[u8], network: &mut [i32], list: &[u8], answers: &mut [i32]) -> Returned {
        Mutant::event(*self, program, network, list, answers)
    }
    fn run(&self, program: &[u8], network: &mut [i32], list: &[u8], answers: &mut [i32]) -> Returned {
        Mutant::run(*self, program, network, list, answers)
    }
}

/// The proved engine, through its C functions.
#[cfg(feature = "proved")]
pub struct Proved;

#[cfg(feature = "proved")]
impl Engine for Proved {
    fn name(&self) -> String {
        "proved engine".into()
    }
    fn check(&self, program: &[u8]) -> Returned {
        cuddystove::plain::check(program)
    }
    fn fresh(&self, network: &mut [i32]) -> Returned {
        cuddystove::plain::fresh(network)
    }
    fn event(&self, program: &[u8], network: &mut [i32], list: &[u8], answers: &mut [i32]) -> Returned {
        cuddystove::plain::event(program, network, list, answers)
    }
    fn run(&self, program: &[u8], network: &mut [i32], list: &[u8], answers: &mut [i32]) -> Returned {
        cuddystove::plain::run(program, network, list, answers)
    }
    fn both(&self) -> Option<&dyn Both> {
        Some(self)
    }
}

#[cfg(feature = "proved")]
impl Both for Proved {
    fn run_both(
        &self,
        program: &[u8],
        networks: [&mut [i32]; 2],
        lists: [&[u8]; 2],
        answers: [&mut [i32]; 2],
    ) -> [Returned; 2] {
        cuddystove::plain::run_both(program, networks, lists, answers)
    }
}

/// What a call returned and left.
#[derive(Clone, Debug, PartialEq, Eq)]
pub struct Outcome {
    pub returned: Returned,
    pub network: Vec<i32>,
    pub answers: Vec<i32>,
}

/// What an answer space of this length holds before a call.
fn unanswered(length: usize) -> Vec<i32> {
    (0..length).map(|at| -1_000 - at as i32).collect()
}

/// What one run is lent besides its program.
struct Loan<'a> {
    network: Lent<'a, i32>,
    list: Lent<'a, u8>,
    answers: Lent<'a, i32>,
}

impl<'a> Loan<'a> {
    fn new(case: &'a Case, list: &'a [u8], answers: &'a [i32]) -> Loan<'a> {
        Loan {
            network: Lent::new("network", &case.network),
            list: Lent::new("list", list),
            answers: Lent::new("answer space", answers),
        }
    }

    /// What a call left of it; an error where it changed what it may not.
    fn outcome(self, returned: Returned) -> Result<Outcome, String> {
        self.list.unchanged()?;
        Ok(Outcome { returned, network: self.network.back()?, answers: self.answers.back()? })
    }
}

fn caught<T>(call: impl FnOnce() -> T) -> Result<T, String> {
    catch_unwind(AssertUnwindSafe(call)).map_err(|_| "it panicked".into())
}

/// Does a case's call on an engine; `list` is the case's or its reordering.
fn perform(engine: &dyn Engine, case: &Case, list: &[u8]) -> Result<Outcome, String> {
    let answers = unanswered(case.space);
    let program = Lent::new("program", &case.program);
    let mut loan = Loan::new(case, list, &answers);
    let returned = caught(|| {
        let (program, network) = (program.lend(), loan.network.lend_mut());
        let (list, answers) = (loan.list.lend(), loan.answers.lend_mut());
        match case.call {
            Call::Check => engine.check(program),
            Call::Fresh => engine.fresh(network),
            Call::Event => engine.event(program, network, list, answers),
            Call::Run | Call::Orders => engine.run(program, network, list, answers),
        }
    })?;
    program.unchanged()?;
    loan.outcome(returned)
}

/// Does two runs in one call: they must do what the same runs did apart.
fn perform_both(engine: &dyn Both, case: &Case, lists: [&[u8]; 2], apart: [&Outcome; 2]) -> Result<(), String> {
    let answers = unanswered(case.space);
    let program = Lent::new("program", &case.program);
    let [mut one, mut two] = lists.map(|list| Loan::new(case, list, &answers));
    let [returned1, returned2] = caught(|| {
        engine.run_both(
            program.lend(),
            [one.network.lend_mut(), two.network.lend_mut()],
            [one.list.lend(), two.list.lend()],
            [one.answers.lend_mut(), two.answers.lend_mut()],
        )
    })?;
    program.unchanged()?;
    let outcomes = [("first", one.outcome(returned1)?, apart[0]), ("second", two.outcome(returned2)?, apart[1])];
    for (which, both, apart) in outcomes {
        if both != *apart {
            let names = [format!("the {which} of two runs in one call"), "the same run alone".into()];
            return Err(show::unlike(names, &both, apart));
        }
    }
    Ok(())
}

/// What holds of every outcome, whatever the engine: the expected number and place, and which buffers stay.
fn examine(case: &Case, list: &[u8], outcome: &Outcome) -> Result<(), String> {
    let (number, place) = outcome.returned;
    if let Some((expected, expected_place)) = case.expected {
        if number != expected || expected_place.is_some_and(|expected| place != expected) {
            return Err(format!("returned {number} {place}, expected {expected} {expected_place:?}"));
        }
    }
    let pairs = if number == 0 { 2 * split(list).len() } else { 0 };
    if outcome.answers.iter().zip(unanswered(case.space)).skip(pairs).any(|(now, before)| *now != before) {
        return Err("answer space beyond the pairs, or of a refused call, was touched".into());
    }
    if number != 0 && outcome.network != case.network {
        return Err(format!("refusal {number} changed the network"));
    }
    Ok(())
}

/// Demand 3 on one engine.
fn same_in_any_order(case: &Case, first: &Outcome, second: &Outcome) -> Result<(), String> {
    let copies = |list: &[u8], outcome: &Outcome| {
        let mut seen: BTreeMap<Vec<u8>, Vec<(i32, i32)>> = BTreeMap::new();
        for (event, pair) in split(list).into_iter().zip(outcome.answers.chunks(2)) {
            seen.entry(event.to_vec()).or_default().push((pair[0], pair[1]));
        }
        seen
    };
    if first.returned != (0, 0) || second.returned != (0, 0) {
        return Err(format!("demand 3: returned {:?} and {:?}", first.returned, second.returned));
    }
    if first.network != second.network {
        return Err("demand 3: the networks differ".into());
    }
    let (one, two) = (copies(&case.list, first), copies(&case.reordered, second));
    match one.iter().find(|(event, answers)| two.get(*event) != Some(answers)) {
        Some((event, answers)) => {
            Err(format!("demand 3: copies of {event:02x?} answered {answers:?} and {:?}", two.get(event)))
        }
        None => Ok(()),
    }
}

/// Runs both engines on cases `0..count` of a seed, up to the first difference.
pub fn compare(a: &dyn Engine, b: &dyn Engine, seed: u64, count: u64) -> Report {
    compare_all(&[a, b], seed, count)
}

/// The same for any engines; one alone is held against what each case expects, and against itself in other orders.
pub fn compare_all(engines: &[&dyn Engine], seed: u64, count: u64) -> Report {
    let mut report = Report::default();
    for index in 0..count {
        let case = cases::nth(seed, index);
        report.cases += 1;
        if let Err(difference) = compare_one(engines, &case, &mut report) {
            report.difference = Some(in_words(engines, difference, &case, &format!("seed {seed}, case {index}")));
            break;
        }
    }
    report
}

/// A difference with its case, and with a smaller case that shows it too.
fn in_words(engines: &[&dyn Engine], difference: String, case: &Case, name: &str) -> String {
    let whole = show::difference(&difference, name, case);
    let small = shrunk(engines, case);
    match compare_one(engines, &small, &mut Report::default()) {
        Err(difference) if small.list != case.list || small.network != case.network => {
            format!("{whole}\nshrunk: {}", show::difference(&difference, name, &small))
        }
        _ => whole,
    }
}

/// Does a case on one engine: its list, and for demand 3 the reordering too; runs also two in one call.
fn outcomes(engine: &dyn Engine, case: &Case) -> Result<Vec<Outcome>, String> {
    let lists: &[&[u8]] = if case.call == Call::Orders { &[&case.list, &case.reordered] } else { &[&case.list] };
    let named = |what: String| format!("{}: {what}", engine.name());
    let outcomes: Result<Vec<Outcome>, String> = lists.iter().map(|list| perform(engine, case, list)).collect();
    let outcomes = outcomes.map_err(named)?;
    if let (Call::Run | Call::Orders, Some(both)) = (case.call, engine.both()) {
        // A single list goes beside an empty one, which has its own end; on either side.
        let (other, by) = match outcomes.get(1) {
            Some(outcome) => (outcome.clone(), &case.reordered[..]),
            None => (perform(engine, case, &[]).map_err(named)?, &[][..]),
        };
        let (mut lists, mut apart) = ([&case.list[..], by], [&outcomes[0], &other]);
        if case.list.len() % 2 == 1 {
            lists.reverse();
            apart.reverse();
        }
        perform_both(both, case, lists, apart).map_err(named)?;
    }
    Ok(outcomes)
}

/// What one engine did, against all that is known without another one.
fn right(case: &Case, outcomes: &[Outcome]) -> Result<(), String> {
    examine(case, &case.list, &outcomes[0])?;
    if let [first, second] = outcomes {
        examine(case, &case.reordered, second)?;
        same_in_any_order(case, first, second)?;
    }
    Ok(())
}

/// Runs engines on one case; they must agree, and be right as far as that is known.
pub fn compare_one(engines: &[&dyn Engine], case: &Case, report: &mut Report) -> Result<(), String> {
    let first = outcomes(engines[0], case)?;
    for engine in &engines[1..] {
        alike([engines[0], *engine], &first, &outcomes(*engine, case)?)?;
    }
    right(case, &first).map_err(|what| format!("{} (and all others): {what}", engines[0].name()))?;
    report.count(case, &first);
    if matches!(case.call, Call::Run | Call::Orders) {
        report.in_one_call += engines.iter().filter(|engine| engine.both().is_some()).count() as u64;
    }
    Ok(())
}

/// A case on which engines differ, with as few events and network cells as still make them differ.
fn shrunk(engines: &[&dyn Engine], case: &Case) -> Case {
    let differs = |case: &Case| compare_one(engines, case, &mut Report::default()).is_err();
    // What was expected holds for the whole case only; of two orders one run may do.
    let start =
        |call: Call, list: &[u8]| Case { call, list: list.to_vec(), reordered: vec![], expected: None, ..case.clone() };
    let starts = match case.call {
        Call::Check | Call::Fresh => vec![],
        Call::Event | Call::Run => vec![start(case.call, &case.list)],
        Call::Orders => vec![start(Call::Run, &case.list), start(Call::Run, &case.reordered)],
    };
    match starts.into_iter().find(differs) {
        Some(small) => fewer_cells(fewer_events(small, &differs), &differs),
        None => case.clone(),
    }
}

/// A case in which what can be as when fresh is so.
fn fewer_cells(mut small: Case, differs: &dyn Fn(&Case) -> bool) -> Case {
    let fresh = cases::network::fresh();
    if small.network.len() != fresh.len() {
        return small;
    }
    for (block, fresh) in fresh.chunks(16).enumerate() {
        let mut tried = small.clone();
        tried.network[16 * block..16 * block + fresh.len()].copy_from_slice(fresh);
        if tried.network != small.network && differs(&tried) {
            small = tried;
        }
    }
    small
}

/// A run without the events that it can do without; ever smaller pieces are left out, down to a thousandth of the list.
fn fewer_events(mut small: Case, differs: &dyn Fn(&Case) -> bool) -> Case {
    if small.call != Call::Run {
        return small;
    }
    let mut events: Vec<Vec<u8>> = split(&small.list).into_iter().map(<[u8]>::to_vec).collect();
    let mut piece = events.len();
    while piece > events.len() / 1_000 {
        let mut end = events.len();
        while end > 0 {
            let start = end.saturating_sub(piece);
            let kept = [&events[..start], &events[end..]].concat();
            let tried = Case { list: kept.concat(), ..small.clone() };
            if differs(&tried) {
                small = tried;
                events = kept;
            }
            end = start;
        }
        piece /= 2;
    }
    small
}

/// Runs engines on all systematic cases, up to the first difference.
pub fn compare_systematic(engines: &[&dyn Engine]) -> Report {
    let mut report = Report::default();
    cases::systematic::all(&mut |case| {
        if report.difference.is_some() {
            return;
        }
        report.cases += 1;
        if let Err(difference) = compare_one(engines, &case, &mut report) {
            report.difference =
                Some(in_words(engines, difference, &case, &format!("systematic case {}", report.cases)));
        }
    });
    report
}

fn alike(engines: [&dyn Engine; 2], first: &[Outcome], second: &[Outcome]) -> Result<(), String> {
    match first.iter().zip(second).find(|(one, two)| one != two) {
        Some((one, two)) => Err(show::unlike(engines.map(|engine| engine.name()), one, two)),
        None => Ok(()),
    }
}

/// Compares every mutant with an engine on random cases, and after the first thousand of them, which catch most, on the
/// long runs; fewer cases come without these. Each mutant with the number of cases after which it was caught, if it was. An
/// error if the engine itself did not do a case.
pub fn catch_mutants(engine: &dyn Engine, seed: u64, count: u64) -> Result<Vec<(Mutant, Option<u64>)>, String> {
    let mut mutants: Vec<(Mutant, Option<u64>)> = mutants::all().map(|mutant| (mutant, None)).collect();
    let random = |from: u64, to: u64| (from..to).map(|index| cases::nth(seed, index));
    let first = count.min(1_000);
    let long = (count > first).then(cases::systematic::long_runs).into_iter().flatten();
    for (number, case) in random(0, first).chain(long).chain(random(first, count)).enumerate() {
        if mutants.iter().all(|(_, caught)| caught.is_some()) {
            break;
        }
        let right = outcomes(engine, &case).map_err(|what| format!("after {number} cases of seed {seed}: {what}"))?;
        for (mutant, caught) in mutants.iter_mut().filter(|(_, caught)| caught.is_none()) {
            let same = outcomes(mutant, &case).is_ok_and(|now| alike([engine, mutant], &right, &now).is_ok());
            *caught = (!same).then_some(number as u64);
        }
    }
    Ok(mutants)
}
