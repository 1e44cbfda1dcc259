//! Counts of what was reached.

use crate::kinds::{By, Event, Kind};

pub struct Reached {
    /// For each kind its cases.
    counts: Vec<Vec<u64>>,
    /// Single steps after which all was compared.
    pub steps: u64,
    /// Steps compared again within runs.
    pub run_steps: u64,
}

impl Reached {
    pub fn new() -> Self {
        Self {
            counts: Kind::all().map(|kind| vec![0; kind.count()]).collect(),
            steps: 0,
            run_steps: 0,
        }
    }

    pub fn note<const N: usize>(&mut self, kind: Kind, case: [usize; N]) {
        self.counts[kind as usize][kind.number(&case)] += 1;
    }

    pub fn note_if<const N: usize>(&mut self, condition: bool, kind: Kind, case: [usize; N]) {
        if condition {
            self.note(kind, case);
        }
    }

    fn count(&self, event: Event) -> u64 {
        self.counts[event.0 as usize][event.1]
    }

    /// What was reached.
    pub fn events(&self) -> impl Iterator<Item = Event> + '_ {
        let of_kind = |kind: Kind| (0..kind.count()).map(move |number| (kind, number));
        let all = Kind::all().flat_map(of_kind);
        all.filter(|&event| self.count(event) > 0)
    }

    /// In words, what was not reached of what these can reach.
    pub fn missing(&self, by: &[By]) -> Vec<String> {
        let events = Kind::all().flat_map(|kind| kind.events(by));
        let missing = events.filter(|&event| self.count(event) == 0);
        missing.map(|(kind, number)| kind.told(number)).collect()
    }

    /// For each kind of what these can reach, how often, and how many of its cases.
    pub fn print(&self, by: &[By]) {
        for kind in Kind::all() {
            let counts: Vec<_> = kind.events(by).map(|event| self.count(event)).collect();
            let reached = counts.iter().filter(|count| **count > 0).count();
            let (total, of) = (counts.iter().sum::<u64>(), counts.len());
            if of > 0 {
                println!("{total:>12}  {reached:>3} of {of:>3}  {}", kind.name());
            }
        }
    }
}
