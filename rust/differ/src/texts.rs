//! Readers of 02's L4 side by side: the same texts, what each call returned and all of the space for the table.

use crate::lent::Lent;
use crate::{caught, Engine, Returned, Second};
use cases::every_text;
use cases::texts::{self, Meant, TextCase};
use mutants::Mutant;
use std::collections::BTreeMap;

/// An engine that reads texts.
pub trait Reader: Engine {
    fn read_text(&self, text: &[u8], table: &mut [u8]) -> Returned;
}

impl Reader for Second {
    fn read_text(&self, text: &[u8], table: &mut [u8]) -> Returned {
        second::read_text(text, table)
    }
}

#[cfg(feature = "proved")]
impl Reader for crate::Proved {
    fn read_text(&self, text: &[u8], table: &mut [u8]) -> Returned {
        cuddystove::plain::read_text(text, table)
    }
}

impl Reader for Mutant {
    fn read_text(&self, text: &[u8], table: &mut [u8]) -> Returned {
        Mutant::read_text(*self, text, table)
    }
}

/// What a call returned and left.
#[derive(Clone, Debug, PartialEq, Eq)]
struct Read {
    returned: Returned,
    table: Vec<u8>,
}

/// What texts were read and what came of them.
#[derive(Default)]
pub struct TextReport {
    pub cases: u64,
    /// How often each number was returned.
    pub returned: BTreeMap<u32, u64>,
    /// By label, how often each number was returned.
    pub labels: BTreeMap<&'static str, BTreeMap<u32, u64>>,
    pub difference: Option<String>,
}

impl TextReport {
    fn count(&mut self, case: &TextCase, (number, _): Returned) {
        self.cases += 1;
        *self.returned.entry(number).or_default() += 1;
        *self.labels.entry(case.label).or_default().entry(number).or_default() += 1;
    }

    /// Labels that were not met, and labels that brought another refusal than their own.
    pub fn gaps(&self, due: &[&'static str]) -> Vec<String> {
        let missing = due.iter().filter(|label| !self.labels.contains_key(*label));
        let mut gaps: Vec<String> = missing.map(|label| format!("label '{label}' was not met")).collect();
        for (label, numbers) in &self.labels {
            if let Some(own) = label.split(' ').next().and_then(|word| word.parse::<u32>().ok()) {
                let others = numbers.keys().filter(|number| **number != own);
                gaps.extend(others.map(|number| format!("label '{label}' returned {number}")));
            }
        }
        gaps
    }

    /// What random cases should have met: each label, and each number that a text can bring.
    pub fn random_gaps(&self) -> Vec<String> {
        let numbers = [0, 1, 2, 3, 7, 9, 10, 13, 19, 20];
        let missing = numbers.iter().filter(|number| !self.returned.contains_key(number));
        let missing = missing.map(|number| format!("number '{number}' was not met"));
        self.gaps(&texts::LABELS).into_iter().chain(missing).collect()
    }

    pub fn systematic_gaps(&self) -> Vec<String> {
        self.gaps(&every_text::LABELS)
    }
}

/// What the space for a table holds before a call.
fn unwritten(length: usize) -> Vec<u8> {
    (0..length).map(|at| (at as u8).wrapping_mul(0x35) ^ 0x5a).collect()
}

fn read(reader: &dyn Reader, case: &TextCase) -> Result<Read, String> {
    let before = unwritten(case.space);
    let text = Lent::new("text", &case.text);
    let mut table = Lent::new("table", &before);
    let returned = caught(|| reader.read_text(text.lend(), table.lend_mut()))?;
    text.unchanged()?;
    Ok(Read { returned, table: table.back()? })
}

/// What holds of every reading, whatever the reader: what is known of the text, what may be written, and that what is
/// written is a table that the engine's own check accepts.
fn examine(reader: &dyn Reader, case: &TextCase, read: &Read) -> Result<(), String> {
    let (number, place) = read.returned;
    let before = unwritten(case.space);
    let written = if number == 0 { place } else { 0 };
    if written > case.space || read.table[written..] != before[written..] {
        return Err("more was written than the table".into());
    }
    if number == 0 && reader.check(&read.table[..place]) != (0, 0) {
        return Err("what was written is no program".into());
    }
    if number == 19 && place > case.text.len() || matches!(number, 13 | 20) && place != 0 {
        return Err(format!("{place} is no place for {number}"));
    }
    let expected = match &case.meant {
        Meant::Table(table) => match reader.check(table) {
            (0, _) if table.len() > case.space => (13, 0),
            (0, _) => (0, table.len()),
            refused => refused,
        },
        Meant::Returned(number, place) => (*number, *place),
        Meant::Begins if number == 19 => (19, case.text.len()),
        Meant::Begins | Meant::Unknown => read.returned,
    };
    if read.returned != expected {
        return Err(format!("returned {:?}, expected {expected:?}", read.returned));
    }
    match &case.meant {
        Meant::Table(table) if number == 0 && read.table[..place] != table[..] => {
            Err("the table is another one".into())
        }
        _ => Ok(()),
    }
}

/// What one reader makes of a text, against what it makes of texts that differ by a little: of one outside the
/// grammar, its beginnings up to the place and with one byte more; of any other, the same with blanks around it.
fn relatives(reader: &dyn Reader, case: &TextCase, returned: Returned) -> Result<(), String> {
    let read = |text: Vec<u8>| read(reader, &TextCase { text, ..case.clone() });
    let (number, place) = returned;
    if number != 19 {
        let other = read([b" \n", &case.text[..], b"\r"].concat())?.returned;
        return if other == returned { Ok(()) } else { Err(format!("with blanks around it returned {other:?}")) };
    }
    let shared = read(case.text[..place].to_vec())?.returned;
    if shared.0 == 19 && shared.1 != place {
        return Err(format!("of the {place} bytes that are shared returned {shared:?}"));
    }
    let more =
        case.text.get(..place + 1).map_or(Ok(returned), |more| Ok::<_, String>(read(more.to_vec())?.returned))?;
    match more == returned {
        true => Ok(()),
        false => Err(format!("of one byte more than the {place} that are shared returned {more:?}")),
    }
}

fn compare_one(readers: &[&dyn Reader], case: &TextCase) -> Result<Returned, String> {
    let first = read(readers[0], case).map_err(|what| format!("{}: {what}", readers[0].name()))?;
    for reader in &readers[1..] {
        let names = [readers[0].name(), reader.name()];
        let other = read(*reader, case).map_err(|what| format!("{}: {what}", reader.name()))?;
        if first.returned != other.returned {
            return Err(format!(
                "{} and {} returned {:?} and {:?}",
                names[0], names[1], first.returned, other.returned
            ));
        }
        if let Some(at) = (0..case.space).find(|at| first.table[*at] != other.table[*at]) {
            let bytes = [first.table[at], other.table[at]];
            return Err(format!("{} and {} left {bytes:?} in byte {at} of the space", names[0], names[1]));
        }
    }
    examine(readers[0], case, &first).map_err(|what| format!("{} (and all others): {what}", readers[0].name()))?;
    Ok(first.returned)
}

/// A shorter text that shows a difference too: ever smaller pieces are left out.
fn shrunk(readers: &[&dyn Reader], case: &TextCase) -> TextCase {
    let mut small = TextCase { meant: Meant::Unknown, ..case.clone() };
    if compare_one(readers, &small).is_ok() {
        return case.clone();
    }
    let mut piece = small.text.len();
    while piece > 0 {
        let mut end = small.text.len();
        while end > 0 {
            let start = end.saturating_sub(piece);
            let text = [&small.text[..start], &small.text[end..]].concat();
            let tried = TextCase { text, ..small.clone() };
            if compare_one(readers, &tried).is_err() {
                small = tried;
            }
            end = start.min(small.text.len());
        }
        piece /= 2;
    }
    small
}

fn in_words(readers: &[&dyn Reader], difference: &str, case: &TextCase, name: &str) -> String {
    let shown = |what: &str, case: &TextCase| {
        let text = String::from_utf8_lossy(&case.text);
        format!("{what}\n  {name}: \"{}\", space {}\n  text: {text:?}", case.label, case.space)
    };
    let small = shrunk(readers, case);
    match compare_one(readers, &small) {
        Err(other) if small.text != case.text => {
            format!("{}\nshrunk: {}", shown(difference, case), shown(&other, &small))
        }
        _ => shown(difference, case),
    }
}

/// Runs readers on cases `0..count` of a seed, up to the first difference; one alone is held against what each case
/// expects.
pub fn compare_texts(readers: &[&dyn Reader], seed: u64, count: u64) -> TextReport {
    let mut report = TextReport::default();
    for index in 0..count {
        let case = texts::nth(seed, index);
        let named = |what: String| format!("{}: {what}", readers[0].name());
        let related = |returned: Returned| relatives(readers[0], &case, returned).map(|()| returned).map_err(named);
        match compare_one(readers, &case).and_then(related) {
            Ok(returned) => report.count(&case, returned),
            Err(what) => {
                report.difference = Some(in_words(readers, &what, &case, &format!("seed {seed}, text {index}")));
                break;
            }
        }
    }
    report
}

/// Runs readers on all systematic texts, up to the first difference.
pub fn compare_every_text(readers: &[&dyn Reader]) -> TextReport {
    let mut report = TextReport::default();
    every_text::all(&mut |case| {
        if report.difference.is_some() {
            return;
        }
        match compare_one(readers, &case) {
            Ok(returned) => report.count(&case, returned),
            Err(what) => {
                report.difference = Some(in_words(readers, &what, &case, &format!("text {}", report.cases)));
            }
        }
    });
    report
}

/// Compares every mutant of the reader with a reader on random texts, and after the first thousand of them on the few
/// systematic ones; fewer come without these. Each mutant with the number of texts after which it was caught, if it
/// was. An error if the reader itself did not do a text.
pub fn catch_text_mutants(reader: &dyn Reader, seed: u64, count: u64) -> Result<Vec<(Mutant, Option<u64>)>, String> {
    let mut mutants: Vec<(Mutant, Option<u64>)> = mutants::of_texts().map(|mutant| (mutant, None)).collect();
    let mut number = 0;
    let mut wrong = Ok(());
    let mut hold = |case: TextCase| {
        if mutants.iter().all(|(_, caught)| caught.is_some()) {
            return;
        }
        let right = match read(reader, &case) {
            Ok(right) => right,
            Err(what) => {
                wrong = Err(format!("after {number} texts of seed {seed}: {what}"));
                return;
            }
        };
        for (mutant, caught) in mutants.iter_mut().filter(|(_, caught)| caught.is_none()) {
            let same = read(mutant, &case).is_ok_and(|now| now == right);
            *caught = (!same).then_some(number);
        }
        number += 1;
    };
    let first = count.min(1_000);
    (0..first).for_each(|index| hold(texts::nth(seed, index)));
    if count > first {
        every_text::few(&mut hold);
    }
    (first..count).for_each(|index| hold(texts::nth(seed, index)));
    wrong.map(|()| mutants)
}
