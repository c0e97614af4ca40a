//! Counts of what came up in a run; each must have come up.

use std::sync::Arc;

/// Counts of one sort under their names, which copies share.
#[derive(Clone)]
pub struct Line {
    title: Arc<str>,
    names: Arc<[String]>,
    counts: Vec<u64>,
}

impl Line {
    pub fn new<N: ToString>(title: &str, names: impl IntoIterator<Item = N>) -> Line {
        let names: Arc<[String]> = names.into_iter().map(|name| name.to_string()).collect();
        Line { title: title.into(), counts: vec![0; names.len()], names }
    }

    pub fn met(&mut self, k: usize) {
        self.counts[k] += 1;
    }

    pub fn met_if(&mut self, k: usize, met: bool) {
        self.counts[k] += u64::from(met);
    }

    pub fn met_often(&mut self, k: usize, times: u64) {
        self.counts[k] += times;
    }

    /// A count by its name.
    pub fn named(&mut self, name: &str) {
        let k = self.names.iter().position(|n| n == name);
        self.met(k.unwrap_or_else(|| panic!("{}: no count has the name {name}", self.title)));
    }

    fn add(&mut self, other: &Line) {
        assert_eq!(self.names.len(), other.names.len(), "{}", self.title);
        self.counts.iter_mut().zip(&other.counts).for_each(|(n, more)| *n += more);
    }
}

/// Several lines, always in the same order.
pub trait Tally {
    fn lines(&mut self) -> Vec<&mut Line>;

    fn merge(&mut self, other: &mut Self) {
        self.lines().into_iter().zip(other.lines()).for_each(|(line, more)| line.add(more));
    }

    /// Prints `what  count` for each; false if one is 0.
    fn print(&mut self, about: &str) -> bool {
        let mut all_met = true;
        for line in self.lines() {
            for (name, &n) in line.names.iter().zip(&line.counts) {
                let never = if n == 0 { "  NEVER" } else { "" };
                println!("{:<60} {n:>10}{never}", format!("{about}: {}: {name}", line.title));
                all_met &= n > 0;
            }
        }
        all_met
    }
}
