//! A run: the cases of all parts in pieces, which threads share out and which are gathered in order, so that the log is
//! the same for any number of threads.

use crate::draws;
use crate::load_run::Files;
use crate::loads;
use crate::maps;
use crate::mutation_run;
use crate::random::Random;
use crate::style_tally;
use crate::tally::Tally;
use crate::tokens;
use std::collections::BTreeMap;
use std::sync::atomic::{AtomicUsize, Ordering};
use std::sync::{mpsc, Arc};
use std::thread;
use std::time::{Duration, Instant};

/// Differing cases that are printed, of each part.
const SHOWN: usize = 10;
/// Of a thread: the original calls itself for imports, and ours holds styles on the stack.
const STACK: usize = 64 << 20;
/// A differing case is cut down in so many tries at most.
const TRIES: usize = 5_000;

/// How a case differs, said only if it is printed.
type Difference = Box<dyn FnOnce() -> String + Send>;

/// The cases of one part.
#[derive(Default)]
pub struct Part<T> {
    pub cases: u64,
    /// Those where the original has an answer that is compared.
    pub compared: u64,
    pub differences: u64,
    shown: Vec<Difference>,
    pub tally: T,
    pub files: Files,
}

impl<T: Tally> Part<T> {
    pub fn differs(&mut self, text: impl FnOnce() -> String + Send + 'static) {
        self.differences += 1;
        if self.shown.len() < SHOWN {
            self.shown.push(Box::new(text));
        }
    }

    /// Takes over what another piece found.
    fn merge(&mut self, name: &str, mut other: Part<T>) {
        self.cases += other.cases;
        self.compared += other.compared;
        for (n, text) in (self.differences + 1..=SHOWN as u64).zip(other.shown) {
            println!("{name}, difference {n}: {}", text());
        }
        self.differences += other.differences;
        self.tally.merge(&mut other.tally);
    }
}

#[derive(Default)]
pub struct Run {
    pub tokens: Part<tokens::Counts>,
    pub loads: Part<loads::Counts>,
    pub maps: Part<maps::Tally>,
    pub styles: Part<style_tally::Tally>,
    pub draws: Part<draws::Tally>,
    pub mutation: mutation_run::Tally,
}

/// Cases, those compared with the original, and differences.
#[derive(Clone, Copy, Default, PartialEq)]
struct Sums([u64; 3]);

impl Run {
    fn sums(&self) -> Sums {
        fn of<T>(part: &Part<T>) -> [u64; 3] {
            [part.cases, part.compared, part.differences]
        }
        let parts = [of(&self.tokens), of(&self.loads), of(&self.maps), of(&self.styles), of(&self.draws)];
        Sums(std::array::from_fn(|k| parts.iter().map(|part| part[k]).sum()))
    }

    fn merge(&mut self, other: Run) {
        let Run { tokens, loads, maps, styles, draws, mut mutation } = other;
        self.tokens.merge("tokens", tokens);
        self.loads.merge("loads", loads);
        self.maps.merge("maps", maps);
        self.styles.merge("styles", styles);
        self.draws.merge("draws", draws);
        self.mutation.merge(&mut mutation);
    }

    /// Prints what came up in the parts that were run; false if something never did.
    fn print(&mut self, parts: &[&str]) -> bool {
        let mut all_met = true;
        for part in parts {
            all_met &= match *part {
                "tokens" => self.tokens.tally.print(part),
                "loads" => self.loads.tally.print(part),
                "maps" => self.maps.tally.print(part),
                "styles" => self.styles.tally.print(part),
                "draws" => self.draws.tally.print(part),
                _ => self.mutation.print(part),
            };
        }
        all_met
    }

    /// Prints the summary; false if anything is wrong.
    fn verdict(&mut self, parts: &[&str], spent: Duration) -> bool {
        println!("what came up, and how often");
        let all_met = self.print(parts);
        if !all_met {
            println!("what is marked NEVER never came up");
        }
        let with_ours = cfg!(feature = "rattle");
        if !with_ours {
            println!("built without our libraries: only the models were compared");
        }
        let Sums([cases, compared, differences]) = self.sums();
        let good = all_met && with_ours && differences == 0;
        println!(
            "{compared} cases with an answer of the original, {} with the model alone, {differences} differences, {:.0} s",
            cases - compared,
            spent.as_secs_f64()
        );
        println!("differential: {}", if good { "ok" } else { "FAILED" });
        good
    }
}

type Work = dyn Fn(&mut Run) + Send + Sync;

/// The pieces of a run, by stages.
pub struct Plan {
    pub seed: u64,
    pieces: Vec<(&'static str, Box<Work>)>,
}

impl Plan {
    pub fn new(seed: u64) -> Plan {
        Plan { seed, pieces: Vec::new() }
    }

    /// One piece of a stage.
    pub fn one(&mut self, stage: &'static str, work: impl Fn(&mut Run) + Send + Sync + 'static) {
        self.pieces.push((stage, Box::new(work)));
    }

    /// A stage in pieces of so many numbers below `count`; each number has its own random ones.
    pub fn many(
        &mut self,
        stage: &'static str,
        count: u64,
        size: u64,
        work: impl Fn(&mut Run, &mut Random, u64) + Send + Sync + 'static,
    ) {
        let (seed, work) = (self.seed, Arc::new(work));
        for from in (0..count).step_by(size as usize) {
            let work = Arc::clone(&work);
            let to = count.min(from + size);
            self.one(stage, move |run| {
                (from..to).for_each(|index| work(run, &mut Random::of(seed, stage, index), index));
            });
        }
    }

    /// Runs all pieces and prints each stage and then what came up in these parts; false if anything is wrong.
    pub fn run(self, parts: &[&str], threads: usize) -> bool {
        eprintln!("{threads} threads");
        let start = Instant::now();
        let mut run = Run::default();
        let mut stage = Stage::default();
        in_order(&self.pieces, threads, |k, piece, spent| {
            let name = self.pieces[k].0;
            if stage.name != name {
                stage.end(&run);
                stage = Stage { name, before: run.sums(), spent: Duration::ZERO };
            }
            run.merge(piece);
            stage.spent += spent;
        });
        stage.end(&run);
        run.verdict(parts, start.elapsed())
    }
}

/// A stage while its pieces are gathered.
#[derive(Default)]
struct Stage {
    name: &'static str,
    before: Sums,
    spent: Duration,
}

impl Stage {
    fn end(&self, run: &Run) {
        if self.name.is_empty() {
            return;
        }
        let (Sums(now), Sums(before)) = (run.sums(), self.before);
        let [cases, compared, differences] = std::array::from_fn(|k| now[k] - before[k]);
        println!("{}: {cases} cases, {compared} with an answer of the original, {differences} differences", self.name);
        // apart from the log, which is the same each time
        eprintln!("{}: {:.1} s of one core", self.name, self.spent.as_secs_f64());
    }
}

/// Lets the threads work off all pieces and hands each to `done` in order, with the time it took.
fn in_order(pieces: &[(&str, Box<Work>)], threads: usize, mut done: impl FnMut(usize, Run, Duration)) {
    let next = AtomicUsize::new(0);
    thread::scope(|scope| {
        let (sender, receiver) = mpsc::channel();
        for _ in 0..threads {
            let (next, sender) = (&next, sender.clone());
            let work = move || loop {
                let k = next.fetch_add(1, Ordering::Relaxed);
                let Some((_, work)) = pieces.get(k) else { return };
                let start = Instant::now();
                let mut run = Run::default();
                work(&mut run);
                // fails only where the other end has panicked
                let _ = sender.send((k, run, start.elapsed()));
            };
            thread::Builder::new().stack_size(STACK).spawn_scoped(scope, work).expect("a thread");
        }
        drop(sender);
        let mut waiting = BTreeMap::new();
        let mut k = 0;
        for (place, run, spent) in receiver {
            waiting.insert(place, (run, spent));
            while let Some((run, spent)) = waiting.remove(&k) {
                done(k, run, spent);
                k += 1;
            }
        }
        // a thread that panics leaves a piece out, and the scope panics then
    });
}

/// How many threads are asked for by THREADS, else as many as there are cores.
pub fn threads() -> usize {
    match std::env::var("THREADS") {
        Ok(number) => number.parse().expect("THREADS is no number"),
        Err(_) => thread::available_parallelism().map_or(1, usize::from),
    }
}

/// So many tries to cut a case down.
pub struct Tries(std::cell::Cell<usize>);

impl Tries {
    pub fn new() -> Tries {
        Tries(std::cell::Cell::new(TRIES))
    }

    /// Whether there is one left; it is used up.
    pub fn take(&self) -> bool {
        self.0.replace(self.0.get().saturating_sub(1)) > 0
    }
}

/// The text with characters left out, as long as it still differs.
pub fn shrunk(text: &str, differs: &impl Fn(&str) -> bool) -> String {
    let mut chars: Vec<char> = text.chars().collect();
    let mut length = chars.len() / 2;
    while length > 0 {
        let mut at = 0;
        while at + length <= chars.len() {
            let mut fewer = chars.clone();
            fewer.drain(at..at + length);
            if differs(&fewer.iter().collect::<String>()) {
                chars = fewer;
            } else {
                at += length;
            }
        }
        length /= 2;
    }
    chars.into_iter().collect()
}
