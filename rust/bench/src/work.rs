//! Pieces of work, and the time that engines take for them.

use crate::engines::{Sizes, Timed, Which};
use std::fs::File;
use std::hint::black_box;
use std::os::unix::fs::FileExt;
use std::str::from_utf8;
use std::sync::LazyLock;
use std::time::Instant;

/// One piece of work. `times` times each list is given to one call; the time is that of one call.
pub struct Work {
    pub name: String,
    /// The program's table, or the text that is read.
    pub program: Vec<u8>,
    pub lists: Vec<Vec<u8>>,
    pub call: Call,
    pub times: usize,
    /// What the calls must return.
    pub number: u32,
    /// How many events one call does.
    pub events: usize,
    /// What is run on a fresh network before the first call, without being timed.
    pub start: Option<Start>,
    /// How much is asked of the engines and of who waits.
    pub effort: Effort,
}

/// How often a work is done, and by whom.
#[derive(Clone, Copy, PartialEq)]
pub enum Effort {
    /// In every round, by every engine.
    Usual,
    /// In every round, but not by the second engine, which would need too much memory.
    NotSecond,
    /// In one round, and only where it is asked for: it takes minutes.
    Long,
}

/// A program and events that bring a fresh network into use. Every engine does them itself, so that each has a network of
/// its own layout.
pub struct Start {
    pub program: Vec<u8>,
    pub list: Vec<Vec<u8>>,
}

#[derive(Clone, Copy)]
pub enum Call {
    Check,
    Fresh,
    Event,
    Run,
    ReadText,
}

/// The bytes for a table.
const ROOM: usize = 4_096;

/// What a work's calls returned and left.
#[derive(PartialEq)]
struct Left {
    returned: Vec<(u32, usize)>,
    network: Vec<i32>,
    space: Vec<i32>,
    table: Vec<u8>,
}

/// For how many nanoseconds this program has waited for a core that others had; 0 where the system does not say.
fn waited() -> i64 {
    static COUNTS: LazyLock<Option<File>> = LazyLock::new(|| File::open("/proc/thread-self/schedstat").ok());
    let mut text = [0; 64];
    let length = COUNTS.as_ref().and_then(|file| file.read_at(&mut text, 0).ok()).unwrap_or(0);
    let mut words = text[..length].split(|byte| *byte == b' ');
    words.nth(1).and_then(|nanos| from_utf8(nanos).ok()?.parse().ok()).unwrap_or(0)
}

/// A clock in nanoseconds that stands still while this program waits for a core.
fn clock() -> i64 {
    static ORIGIN: LazyLock<Instant> = LazyLock::new(Instant::now);
    loop {
        let before = waited();
        let elapsed = ORIGIN.elapsed().as_nanos() as i64;
        // Unless it waited just then.
        if waited() == before {
            return elapsed - before;
        }
    }
}

impl Work {
    fn call(&self, timed: &Timed, list: &[u8], left: &mut Left) -> (u32, usize) {
        let Left { network, space, table, .. } = left;
        match self.call {
            Call::Check => timed.engine.check(&self.program),
            Call::Fresh => timed.engine.fresh(network),
            Call::Event => timed.engine.event(&self.program, network, list, space),
            Call::Run => timed.engine.run(&self.program, network, list, space),
            Call::ReadText => timed.reader.expect("it is asked for no other").read_text(&self.program, table),
        }
    }

    /// Whether an engine can be given the work.
    fn is_for(&self, timed: &Timed) -> bool {
        match self.call {
            Call::ReadText => {
                timed.reader.is_some() && (timed.which != Which::Second || self.effort != Effort::NotSecond)
            }
            _ => timed.knows(&self.program),
        }
    }

    /// An engine's own network before the first call.
    fn network(&self, timed: &Timed) -> Vec<i32> {
        let mut network = vec![0; timed.sizes.cells];
        assert_eq!(timed.engine.fresh(&mut network), (0, 0));
        if let Some(Start { program, list }) = &self.start {
            let mut space = vec![0; timed.sizes.answer * list.len()];
            let returned = timed.engine.run(program, &mut network, &list.concat(), &mut space);
            assert_eq!(returned, (0, 0), "{}: the start of {}", timed.engine.name(), self.name);
            let done = space.chunks(timed.sizes.answer).all(|answer| answer[0] == 0);
            assert!(done, "{}: an event of the start of {} was refused", timed.engine.name(), self.name);
        }
        network
    }

    /// The time of a call in nanoseconds, and what was left.
    fn time(&self, timed: &Timed) -> (f64, Left) {
        // Not of zeros, which would be given memory only when the calls write.
        let space = vec![1; timed.sizes.answer * self.events];
        let mut left = Left { returned: vec![], network: self.network(timed), space, table: vec![1; ROOM] };
        let mut returned = vec![(0, 0); self.lists.len()];
        let start = clock();
        for _ in 0..self.times {
            for (list, returned) in self.lists.iter().zip(&mut returned) {
                *returned = black_box(self.call(timed, black_box(list), &mut left));
            }
        }
        let nanos = clock() - start;
        left.returned = returned;
        let calls = self.times * self.lists.len();
        (nanos as f64 / calls as f64, left)
    }

    /// What each engine took in each round, in nanoseconds; nothing for one that is not given the work. Engines of the same
    /// sizes must do the same.
    pub fn measure(&self, engines: &[Timed], rounds: usize) -> Vec<Vec<f64>> {
        let mut times = vec![vec![]; engines.len()];
        // Asked once, as a check in a round would warm the older engine only.
        let known: Vec<bool> = engines.iter().map(|timed| self.is_for(timed)).collect();
        let rounds = if self.effort == Effort::Long { 1 } else { rounds };
        for round in 0..rounds {
            let mut lefts: Vec<(Sizes, Left)> = vec![];
            for which in order(round, engines.len()).filter(|which| known[*which]) {
                let timed = &engines[which];
                let (time, left) = self.time(timed);
                times[which].push(time);
                let (engine, name) = (timed.engine.name(), &self.name);
                assert!(left.returned.iter().all(|(number, _)| *number == self.number), "{engine}: {name}");
                let other = lefts.iter().find(|(sizes, _)| *sizes == timed.sizes);
                assert!(other.is_none_or(|(_, other)| *other == left), "{engine} differs: {name}");
                lefts.push((timed.sizes, left));
            }
        }
        times
    }
}

/// The engines in a round's order: each round begins with the next one, and every other time that all have begun they
/// follow each other backwards, so that none comes more often than another after a third.
fn order(round: usize, count: usize) -> impl Iterator<Item = usize> {
    let forward = move |turn| (round + turn) % count;
    let backward = round / count % 2 == 1;
    (0..count).map(move |turn| if backward { count - 1 - forward(turn) } else { forward(turn) })
}
