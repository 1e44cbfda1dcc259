//! Sessions from a fresh card to the places where the rules have something to
//! say.

use crate::chance::Chance;
use crate::reader::Reader;
use crate::waveform::{any_memory, any_step, Case, EDGES};
use crate::words::of_model;
use crate::zones;
use model::lines::{CLK, FUS, IO, PGM, RST, VCC};
use model::{Card, LAST_ADDRESS, MOST_STEPS};

/// What is odd about bits that are shown.
#[derive(Clone, Copy, PartialEq)]
pub enum Odd {
    Nothing,
    Wrong(usize),
    FusHigh(usize),
    /// A write before the bit.
    Written(usize),
}

impl Odd {
    fn any(chance: &mut Chance, bits: usize) -> Self {
        match chance.below(6) {
            0 => Odd::Wrong(chance.below(bits)),
            1 => Odd::FusHigh(chance.below(bits)),
            2 => Odd::Written(chance.below(bits)),
            _ => Odd::Nothing,
        }
    }
}

/// How a journey's last stop is left, but for a clock.
#[derive(Clone, Copy, PartialEq)]
pub enum Leave {
    WithRst,
    WithoutVcc,
}

/// What a journey is to be like; the rest is left to chance.
#[derive(Clone, Copy, Default, PartialEq)]
pub struct Plan {
    /// Which fuses matter, and those of them that are unblown.
    pub fuses: (u8, u8),
    pub open: Option<bool>,
    pub key: Option<Odd>,
    pub stop: Option<u16>,
    pub last: Option<(u16, Leave)>,
}

/// The wish of one or the other, nothing if they differ.
fn both<T: PartialEq>(one: Option<T>, other: Option<T>) -> Option<Option<T>> {
    match (one, other) {
        (Some(one), Some(other)) if one != other => None,
        (one, other) => Some(one.or(other)),
    }
}

impl Plan {
    /// A journey that is like both, if there is one.
    pub fn and(self, other: Plan) -> Option<Plan> {
        let ((mask, value), (mask_2, value_2)) = (self.fuses, other.fuses);
        if (value ^ value_2) & mask & mask_2 != 0 {
            return None;
        }
        Some(Plan {
            fuses: (mask | mask_2, value | value_2),
            open: both(self.open, other.open)?,
            key: both(self.key, other.key)?,
            stop: both(self.stop, other.stop)?,
            last: both(self.last, other.last)?,
        })
        .filter(|plan| match (plan.stop, plan.last) {
            (Some(stop), Some((last, _))) => stop < last,
            _ => true,
        })
    }
}

/// A reader at a fresh card that has a try left.
fn reader(chance: &mut Chance, fuses: u8) -> Reader<'_> {
    let mut memory = any_memory(chance);
    memory[12] |= 1 << chance.below(8);
    let fus = chance.one_in(2);
    Reader {
        chance,
        card: Card::new(memory, fuses),
        fus,
        steps: vec![],
        most: MOST_STEPS,
        way: LAST_ADDRESS,
    }
}

/// The card that a journey started with, and the steps.
fn case_of(card: Card, steps: Vec<u8>) -> Case {
    Case {
        memory: card.memory.to_vec(),
        fuses: card.fuses,
        start: of_model(card.volatile),
        steps,
    }
}

impl Reader<'_> {
    /// Both levels, in any order.
    fn both(&mut self) -> [bool; 2] {
        let first = self.chance.one_in(2);
        [first, !first]
    }

    fn set_fus(&mut self, fus: bool) {
        self.fus = fus;
        self.set(FUS, fus);
    }

    fn show(&mut self, value: u32, bits: usize, odd: Odd) {
        for bit in 0..bits {
            let right = value >> (bits - 1 - bit) & 1 == 1;
            if odd == Odd::Written(bit) {
                self.program(false);
            }
            self.set(FUS, self.fus || odd == Odd::FusHigh(bit));
            self.set(IO, right != (odd == Odd::Wrong(bit)));
            self.set(CLK, true);
            self.set(CLK, false);
        }
        self.settle();
    }

    /// Programs with the lines as they are, up to CLK's fall.
    fn start_programming(&mut self, d: bool) {
        self.set(PGM, true);
        self.set(IO, d);
        self.set(CLK, true);
    }

    /// Moves the lines that do nothing by themselves.
    fn fidget(&mut self) {
        match self.chance.below(4) {
            0 => self.set(PGM, true),
            1 => {
                self.set(CLK, true);
                self.set(IO, false);
            }
            2 => self.put(self.lines()),
            _ => self.set(IO, false),
        }
        self.settle();
    }

    /// Writes and erases with FUS low and high.
    fn stay(&mut self) {
        for fus in self.both() {
            self.set_fus(fus);
            for d in self.both() {
                self.program(d);
            }
            if self.chance.one_in(4) {
                self.fidget();
            }
        }
    }

    /// A clock, and some of the same or all, with RST high.
    fn stay_in_reset(&mut self) {
        self.set(RST, true);
        self.set(CLK, true);
        self.set(CLK, false);
        let all = !self.chance.one_in(4);
        for fus in self.both() {
            self.set_fus(fus);
            for d in self.both() {
                if all || self.chance.one_in(4) {
                    self.start_programming(d);
                    self.set(PGM, false);
                    self.set(CLK, false);
                    self.set(IO, true);
                }
            }
        }
        self.settle();
    }

    /// VCC falls in programming.
    fn cut(&mut self) {
        let [rst, fus, d, pgm] = [(); 4].map(|()| self.chance.one_in(2));
        self.set(RST, rst);
        self.set_fus(fus);
        self.start_programming(d);
        self.set(PGM, pgm);
        self.set(VCC, false);
        self.settle();
    }

    /// Goes on to an address, showing the code and the key where they are passed.
    fn travel(&mut self, address: u16, key: Odd) {
        let at = self.card.volatile.address;
        if at <= 80 && 96 <= address && !self.chance.one_in(4) {
            self.go_to(80);
            let odd = Odd::any(self.chance, 16);
            self.show(self.code().into(), 16, odd);
        }
        if at <= 1200 && 1232 <= address {
            self.fus &= self.chance.one_in(8);
            self.go_to(1200);
            self.show(self.key(), 32, key);
        }
        self.go_to(address);
    }

    /// Goes from stop to stop, as far as there are steps enough to come to the
    /// last.
    fn lap(&mut self, mut stops: Vec<u16>, last: u16, key: Odd) {
        stops.retain(|&stop| stop < last);
        stops.sort_unstable();
        for stop in stops {
            let way = 2 * usize::from(last - self.card.volatile.address) + 560;
            if self.steps.len() + way < self.most {
                self.travel(stop, key);
                self.stay();
            }
        }
        self.travel(last, key);
    }

    fn leave(&mut self, how: Option<Leave>) {
        match how {
            Some(Leave::WithRst) => self.stay_in_reset(),
            Some(Leave::WithoutVcc) => self.cut(),
            None => {
                self.stay();
                self.walk(1);
            }
        }
    }
}

/// An address with a rule of its own, an end of a zone or area, or one inside.
fn any_stop(chance: &mut Chance, zones: usize) -> u16 {
    let (first, last) = zones::ends(chance.below(zones));
    match chance.below(4) {
        0 => first,
        1 => last,
        2 => chance.pick(&EDGES),
        _ => chance.within(first.into(), last.into()) as u16,
    }
}

/// The last stop of a lap, and how it is left.
fn end(chance: &mut Chance, plan: Plan, low: bool) -> (u16, Option<Leave>) {
    if let Some((last, leave)) = plan.last {
        return (last, Some(leave));
    }
    let last = match plan.stop {
        Some(stop) => chance.within(stop.into(), LAST_ADDRESS.into()) as u16,
        None if low => chance.within(96, 190) as u16,
        None => any_stop(chance, 16),
    };
    let leave = chance.pick(&[None, Some(Leave::WithRst), Some(Leave::WithoutVcc)]);
    (last, leave)
}

/// Once over all zones, or several times over the low ones; at the end the low
/// ones again, to see what came of it.
pub fn journey(chance: &mut Chance, plan: Plan) -> Case {
    let low = plan == Plan::default() && chance.one_in(2);
    let laps = if low { chance.within(1, 6) } else { 1 };
    let zones = if low { 6 } else { 16 };
    let key = plan.key.unwrap_or_else(|| Odd::any(chance, 32));
    let open = plan.open.unwrap_or_else(|| chance.one_in(2));
    let fuses = chance.byte() & 7 & !plan.fuses.0 | plan.fuses.1;
    let mut reader = reader(chance, fuses);
    let card = reader.card;
    reader.settle();
    if open {
        reader.opened();
    }
    for _ in 0..laps {
        let count = reader.chance.below(30);
        let stops = (0..count).map(|_| any_stop(reader.chance, zones));
        let stops = stops.chain(plan.stop).collect();
        let (last, leave) = end(reader.chance, plan, low);
        reader.lap(stops, last, key);
        reader.leave(leave);
    }
    reader.fus = !reader.chance.one_in(4);
    let rest = reader.chance.pick(&[0, 100, 190, 190]);
    reader.walk(rest);
    case_of(card, reader.steps)
}

/// The code, shown again and again, and programming at the tries.
pub fn tries(chance: &mut Chance) -> Case {
    let fuses = chance.byte() & 7;
    let mut reader = reader(chance, fuses);
    let card = reader.card;
    for _ in 0..reader.chance.within(1, 16) {
        reader.set(VCC, false);
        reader.fus = reader.chance.one_in(2);
        let bits = reader.chance.pick(&[16, 16, 16, 15]);
        reader.go_to(96 - bits as u16);
        let odd = Odd::any(reader.chance, bits);
        reader.show(reader.code().into(), bits, odd);
        let n = reader.chance.pick(&[0, 0, 0, 1, 7, 8]);
        reader.walk(n);
        for _ in 0..reader.chance.within(1, 9) {
            let d = reader.chance.one_in(8);
            reader.program(d);
            reader.walk(1);
        }
    }
    case_of(card, reader.steps)
}

/// A few steps, and one that is most often refused.
pub fn brief(chance: &mut Chance) -> Case {
    let fuses = chance.byte() & 7;
    let mut reader = reader(chance, fuses);
    let card = reader.card;
    for (line, odds) in [(RST, 2), (IO, 2), (FUS, 2), (CLK, 8), (PGM, 8)] {
        let high = reader.chance.one_in(odds);
        reader.set(line, high);
    }
    for (line, high) in [(VCC, true), (PGM, true), (CLK, true), (PGM, false)] {
        if !reader.chance.one_in(3) {
            reader.set(line, high);
        }
    }
    for _ in 0..reader.chance.below(6) {
        let step = any_step(reader.chance, reader.lines());
        reader.put(step);
    }
    let lines = reader.lines();
    let chance = &mut *reader.chance;
    let step = match chance.below(5) {
        0 => chance.byte(),
        1 => lines ^ 1 << chance.below(6) ^ 1 << chance.below(6),
        2 => lines ^ 63 >> chance.below(4),
        3 => lines ^ (chance.within(1, 3) as u8) << 6,
        _ => lines ^ 1 << chance.below(6),
    };
    reader.put(step);
    case_of(card, reader.steps)
}
