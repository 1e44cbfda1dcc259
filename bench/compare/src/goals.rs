//! What the recorded sessions are to reach, and the journeys there.

use crate::chance::Chance;
use crate::files;
use crate::journey::{self, Leave, Odd, Plan};
use crate::kinds::{By, Kind, BARRED, SESSIONS, WRONG};
use crate::reached::Reached;
use crate::zones;
use model::fuses::{ALL, EC_EN, ISS};
use model::mutate;
use std::collections::HashSet;
use std::ops::RangeInclusive;

#[derive(Clone, Copy, PartialEq, Eq, Hash)]
pub enum Goal {
    Event(Kind, usize),
    /// With this wrong behaviour the model's text is another.
    Wrong(u32),
}

/// The wrong behaviours of calls that no session makes.
const OF_OTHER_CALLS: [u32; 12] = [31, 32, 34, 37, 42, 44, 56, 57, 61, 67, 68, 69];

/// The wrong behaviours of the reason, which no session asks for either.
const OF_THE_REASON: RangeInclusive<u32> = 77..=109;

/// The wrong behaviours that the pin never tells within 4,096 steps.
const UNSEEN: [u32; 13] = [
    4, 9, 19, 39, 74, // seen at the earliest when a high address is come to again
    7, 17, 59, 73, // a match that nothing asks for
    22, 64, 65, // E1 that is set by the arrival too, or without SV for the erase
    60, // where the card pulls the wire down, no compare can succeed
];

/// The kinds that take long sessions. They come first, as what is reached by the
/// way need not be looked for.
const LONG: [Kind; 7] = [
    Kind::Key,
    Kind::Fuse,
    Kind::Beside,
    Kind::CutIn,
    Kind::RstHigh,
    Kind::Count,
    Kind::EraseEc,
];

pub fn all() -> Vec<Goal> {
    let rank = |kind: Kind| LONG.iter().position(|&long| long == kind);
    let mut kinds: Vec<_> = Kind::all().collect();
    kinds.sort_by_key(|&kind| rank(kind).unwrap_or(LONG.len()));
    let events = kinds.iter().flat_map(|kind| kind.events(SESSIONS));
    let events = events.map(|(kind, number)| Goal::Event(kind, number));
    let wrong = (1..).take(mutate::WRONG.len());
    let unshown = |number: &u32| {
        OF_OTHER_CALLS.contains(number) || OF_THE_REASON.contains(number) || UNSEEN.contains(number)
    };
    let shown = wrong.filter(|number| !unshown(number));
    events.chain(shown.map(Goal::Wrong)).collect()
}

pub fn events_of(session: &[u8]) -> HashSet<Goal> {
    let mut reached = Reached::new();
    files::note_session(&mut reached, session);
    let events = reached.events();
    events
        .map(|(kind, number)| Goal::Event(kind, number))
        .collect()
}

impl Goal {
    pub fn told(self) -> String {
        match self {
            Goal::Event(kind, number) => kind.told(number),
            Goal::Wrong(number) => format!("shown: {}", mutate::WRONG[number as usize - 1]),
        }
    }

    /// Whether a session with those events meets it.
    pub fn is_met(self, session: &[u8], events: &HashSet<Goal>) -> bool {
        match self {
            Goal::Event(..) => events.contains(&self),
            Goal::Wrong(number) => {
                let right = model::session(session);
                mutate::choose(number);
                let wrong = model::session(session);
                mutate::choose(0);
                right != wrong
            }
        }
    }

    /// A session that could meet it, by a plan if it takes a journey.
    pub fn toward(self, chance: &mut Chance, plan: Plan) -> Vec<u8> {
        let by = match self {
            Goal::Event(kind, number) => kind.by(number),
            Goal::Wrong(_) if plan == Plan::default() => By::Tries,
            Goal::Wrong(_) => By::Journeys,
        };
        let case = match by {
            By::Files => return files::any_session(chance),
            By::Steps => journey::brief(chance),
            By::Tries => journey::tries(chance),
            _ => journey::journey(chance, plan),
        };
        files::session_of(&case)
    }

    /// What a journey to it is like.
    fn plan(self, chance: &mut Chance) -> Plan {
        let (kind, number) = match self {
            Goal::Event(kind, number) => (kind, number),
            Goal::Wrong(number) => return plan_to_show(number),
        };
        match (kind, &kind.case(number)[..]) {
            (Kind::Key, &[bit, WRONG]) => with_key(Odd::Wrong(bit)),
            (Kind::Key, &[bit, BARRED]) => with_key(Odd::FusHigh(bit)),
            (Kind::Count, &[place, _, key, _, ec_en, sv]) => in_ec(chance, place, key, ec_en, sv),
            (Kind::EraseEc, &[place, _, sv, e1, ec_en]) => in_ec(chance, place, e1, ec_en, sv),
            (Kind::RstHigh, &[zone, ..]) => Plan {
                fuses: (0, 0),
                ..open_to(any_address(chance, zone), Leave::WithRst)
            },
            (Kind::Fuse, &[fuse, fuses, sv, _]) => Plan {
                fuses: (ALL, fuses as u8),
                open: Some(sv == 1),
                ..open_to(any_address(chance, [11, 13, 15][fuse]), Leave::WithRst)
            },
            (Kind::BlownAt, &[at]) => {
                let last = [1408, 1415, 1423, 1481, 1504, 1511, 1519][at];
                open_to(last, Leave::WithRst)
            }
            (Kind::Beside, &[at]) => open_to([1407, 1424, 1480, 1482, 1503][at], Leave::WithRst),
            (Kind::CutIn, &[2, _]) => Plan {
                fuses: (EC_EN, 0),
                key: Some(Odd::Nothing),
                ..open_to(1232, Leave::WithoutVcc)
            },
            (Kind::CutIn, &[what, _]) => {
                let last = [1360, 1360, 1232, 1392, 1392, 1408, 1481, 1504][what];
                open_to(last, Leave::WithoutVcc)
            }
            _ => Plan::default(),
        }
    }
}

/// What a journey that shows a wrong behaviour is like, where few do.
fn plan_to_show(number: u32) -> Plan {
    let to_ec = |ec_en: u8, open: bool, stop: u16| Plan {
        fuses: (EC_EN, EC_EN * ec_en),
        open: Some(open),
        key: Some(Odd::Nothing),
        stop: Some(stop),
        last: Some((1360, Leave::WithRst)),
    };
    match number {
        8 | 21 | 48 => to_ec(1, true, 1232),
        10 => to_ec(0, true, 1240),
        52 => to_ec(0, false, 1232),
        20 | 29 => open_to(1503, Leave::WithRst),
        50 | 63 | 66 => open_to(1504, Leave::WithRst),
        49 => Plan {
            stop: Some(1504),
            ..open_to(1505, Leave::WithRst)
        },
        _ => Plan::default(),
    }
}

/// The first goal's plan with that of the first other one with which it goes
/// together.
pub fn paired(chance: &mut Chance, goals: &[Goal]) -> (Goal, Plan) {
    let first = goals[0].plan(chance);
    for &goal in &goals[1..] {
        let other = goal.plan(chance);
        match first.and(other) {
            Some(both) if both != first && both != other => return (goal, both),
            _ => {}
        }
    }
    (goals[0], first)
}

/// An address of a zone or area: its first, one inside or its last.
fn address(chance: &mut Chance, zone: usize, place: usize) -> u16 {
    let (first, last) = zones::ends(zone);
    match place {
        0 => first,
        1 => chance.within(first.into(), last.into()) as u16,
        _ => last,
    }
}

fn any_address(chance: &mut Chance, zone: usize) -> u16 {
    let place = chance.below(3);
    address(chance, zone, place)
}

/// An open card with no fuse blown, to a last stop.
fn open_to(last: u16, leave: Leave) -> Plan {
    Plan {
        fuses: (ALL, ALL),
        open: Some(true),
        last: Some((last, leave)),
        ..Plan::default()
    }
}

/// To the end of the key, of which one bit is odd.
fn with_key(odd: Odd) -> Plan {
    let level_1 = matches!(odd, Odd::FusHigh(_));
    Plan {
        fuses: if level_1 { (ISS, ISS) } else { (0, 0) },
        key: Some(odd),
        stop: Some(1232),
        ..Plan::default()
    }
}

fn in_ec(chance: &mut Chance, place: usize, key: usize, ec_en: usize, sv: usize) -> Plan {
    Plan {
        fuses: (EC_EN, EC_EN * ec_en as u8),
        open: Some(sv == 1),
        key: (key == 1).then_some(Odd::Nothing),
        stop: Some(address(chance, zones::EC, place)),
        last: None,
    }
}
