//! Sessions with the model's text, as one file.
//!
//! Record after record, with nothing before, between or behind: the session's
//! length, two bytes, low first; the session; the text's length, two bytes, low
//! first; the text.
//!
//! The sessions reach every event that a session can, and each wrong behaviour of
//! the model that a session can show gives one of them another text.

use crate::chance::Chance;
use crate::files;
use crate::goals::{self, Goal};
use crate::reached::Reached;
use std::collections::HashSet;

/// So many sessions that meet a goal are looked at, and so many in all.
const ENOUGH: usize = 40;
const MOST: usize = 20_000;

/// Of sessions that meet the first goal, the one that meets the most for its
/// bytes, and if it can be another one that it is planned for too.
fn best(chance: &mut Chance, goals: &[Goal]) -> Option<Vec<u8>> {
    let (other, plan) = goals::paired(chance, goals);
    let wanted: HashSet<_> = goals.iter().copied().collect();
    let mut found = vec![];
    for _ in 0..MOST {
        let session = goals[0].toward(chance, plan);
        let events = goals::events_of(&session);
        if goals[0].is_met(&session, &events) {
            let new = events.intersection(&wanted).count();
            let worth = new * 1_000_000 / (session.len() + 1);
            found.push(((other.is_met(&session, &events), worth), session));
        }
        if found.len() == ENOUGH {
            break;
        }
    }
    let best = found.into_iter().max_by_key(|found| found.0);
    best.map(|found| found.1)
}

/// Sessions that meet every goal together, and the goals for which none is found.
fn directed(chance: &mut Chance) -> (Vec<Vec<u8>>, Vec<Goal>) {
    let (mut sessions, mut missed) = (vec![], vec![]);
    let mut goals = goals::all();
    while !goals.is_empty() {
        match best(chance, &goals) {
            Some(session) => {
                let events = goals::events_of(&session);
                goals.retain(|goal| !goal.is_met(&session, &events));
                sessions.push(session);
            }
            None => missed.push(goals.remove(0)),
        }
    }
    (sessions, missed)
}

pub struct Recorded {
    pub file: Vec<u8>,
    pub sessions: usize,
    pub reached: Reached,
    /// In words, what no session was found for.
    pub missed: Vec<String>,
}

/// So many sessions, or as many as it takes.
pub fn record(chance: &mut Chance, count: usize) -> Recorded {
    let (mut sessions, missed) = directed(chance);
    while sessions.len() < count {
        let most = chance.pick(&[60, 60, 300]);
        sessions.push(files::session(chance, most));
    }
    let mut reached = Reached::new();
    let mut file = vec![];
    for session in &sessions {
        files::note_session(&mut reached, session);
        for part in [session, &model::session(session)] {
            file.extend((part.len() as u16).to_le_bytes());
            file.extend(part);
        }
    }
    Recorded {
        file,
        sessions: sessions.len(),
        reached,
        missed: missed.iter().map(|goal| goal.told()).collect(),
    }
}
