//! What a step does, in the kinds that are counted.

use crate::kinds::{Kind, BARRED, LATE, RIGHT, WRONG};
use crate::reached::Reached;
use crate::zones::{ends, zone_of, AZ, BLOCK, EC, EZ, MFZ, SC, SCAC};
use model::lines::{CLK, FUS, IO, PGM, RST, VCC};
use model::{fuses, Volatile};
use zhavdurgon::Volatile as Words;

/// A card before or after a step.
#[derive(Clone, Copy)]
pub struct Side<'a> {
    pub memory: &'a [u8],
    pub fuses: u8,
    pub volatile: Volatile,
}

impl Side<'_> {
    fn high(self, line: u8) -> bool {
        self.volatile.lines & line != 0
    }

    fn unblown(self, fuse: u8) -> bool {
        self.fuses & fuse != 0
    }

    fn level_1(self) -> bool {
        self.high(FUS) && self.unblown(fuses::ISS)
    }

    fn zone(self) -> usize {
        zone_of(self.volatile.address)
    }

    /// Whether the address is its zone's first, one inside, or the last.
    fn place(self) -> usize {
        let (first, last) = ends(self.zone());
        match self.volatile.address {
            address if address == first => 0,
            address if address == last => 2,
            _ => 1,
        }
    }

    fn bit(self) -> bool {
        let address = usize::from(self.volatile.address);
        self.memory[address / 8] & 128 >> (address % 8) != 0
    }

    fn word_has_zero(self) -> bool {
        let word = usize::from(self.volatile.address) / 16 * 2;
        self.memory[word..word + 2] != [255, 255]
    }

    fn every_flag(self) -> bool {
        let Volatile { sv, p1, r1, e1, .. } = self.volatile;
        sv && p1 && r1 && e1 && self.volatile.matched
    }

    /// The memory and the fuses after CLK's fall, were the lines these.
    fn programmed(self, lines: u8) -> (Vec<u8>, u8) {
        let mut memory = self.memory.to_vec();
        let mut volatile = self.volatile;
        volatile.lines = lines & !PGM;
        let result = model::step(&mut memory, self.fuses, volatile, volatile.lines & !CLK);
        (memory, result.fuses)
    }
}

/// An accepted step.
pub fn step(reached: &mut Reached, before: Side, after: Side) {
    let (b, a) = (before.volatile, after.volatile);
    let line = b.lines ^ a.lines;
    let rises = a.lines & line != 0;
    let powered = before.high(VCC);
    match line {
        0 => reached.note(
            Kind::Same,
            [usize::from(powered) + usize::from(b.programming)],
        ),
        VCC if rises => reached.note(Kind::PowerUp, []),
        VCC => cut(reached, before),
        _ => {
            let index = line.trailing_zeros() as usize - 1;
            reached.note(Kind::Edge, [index, rises.into(), powered.into()]);
            if powered {
                edge(reached, before, line, rises);
            } else {
                followed(reached, before, line, rises);
            }
        }
    }
    pin(reached, after);
}

/// An edge but for VCC's, with VCC.
fn edge(reached: &mut Reached, before: Side, line: u8, rises: bool) {
    let b = before.volatile;
    still(reached, before, line, rises);
    match line {
        CLK if rises => {
            let levels = [IO, RST, PGM].map(|line| usize::from(before.high(line)));
            reached.note(Kind::Latched, levels);
        }
        CLK if b.programming => programmed(reached, before),
        CLK => {
            let rst = before.high(RST);
            reached.note(Kind::Fallen, [rst.into(), b.latch.into()]);
            if !rst {
                compared(reached, before);
                arrived(reached, before);
            }
        }
        RST if !rises => {
            let held = [b.address > 0, b.sv, b.p1, b.r1, b.e1, b.matched];
            note_each(reached, Kind::Reset, &held);
        }
        IO => reached.note_if(
            before.high(CLK),
            Kind::LatchHeld,
            [rises.into(), b.latch.into()],
        ),
        _ => {}
    }
}

fn note_each(reached: &mut Reached, kind: Kind, held: &[bool]) {
    for (index, &holds) in held.iter().enumerate() {
        reached.note_if(holds, kind, [index]);
    }
}

fn cut(reached: &mut Reached, before: Side) {
    let b = before.volatile;
    let lost = [b.address > 0, b.sv, b.p1, b.r1, b.e1, b.matched, b.latch];
    note_each(reached, Kind::Cut, &lost);
    if !b.programming {
        return;
    }
    let (memory, fuses) = before.programmed(b.lines);
    let what = match before.fuses & !fuses {
        fuses::MF => 5,
        fuses::EC_EN => 6,
        fuses::ISS => 7,
        _ if memory == before.memory => return,
        _ if before.zone() == BLOCK => 3 + usize::from(b.latch),
        _ if before.zone() == EC && b.latch && !before.level_1() => 2,
        _ => b.latch.into(),
    };
    reached.note(Kind::CutIn, [what, before.high(PGM).into()]);
}

/// What 4, 5 and 6 would refuse with VCC.
fn followed(reached: &mut Reached, before: Side, line: u8, rises: bool) {
    let held = [
        line == CLK && !rises && before.high(PGM),
        line == RST && !rises && before.high(CLK),
        line == PGM && rises && before.high(CLK),
    ];
    note_each(reached, Kind::Followed, &held);
}

/// The edges that do nothing more, with all that they could touch.
fn still(reached: &mut Reached, before: Side, line: u8, rises: bool) {
    if !before.every_flag() {
        return;
    }
    let clk = before.high(CLK);
    let index = match (line, rises) {
        (RST, true) => 0,
        (PGM, _) if !clk => 1 + usize::from(rises),
        (IO, _) if !clk => 3 + usize::from(rises),
        (FUS, _) => 5 + usize::from(rises),
        (IO, _) => 7 + usize::from(rises),
        (CLK, false) if before.high(RST) && !before.volatile.programming => 9,
        _ => return,
    };
    reached.note(Kind::Still, [index]);
}

fn compared(reached: &mut Reached, before: Side) {
    let b = before.volatile;
    let (kind, bits, first, barred) = match before.zone() {
        SC => (Kind::Code, Kind::CodeBit, 80, b.sv),
        EZ => (Kind::Key, Kind::KeyBit, 1200, before.level_1()),
        _ => return,
    };
    let place = usize::from(b.address - first);
    let so_far = place == 0 || b.matched;
    let came = match (so_far, b.latch == before.bit()) {
        (true, true) if barred => BARRED,
        _ if barred => return,
        (true, true) => RIGHT,
        (true, false) => WRONG,
        (false, true) => LATE,
        (false, false) => return,
    };
    reached.note(kind, [place, came]);
    reached.note_if(
        so_far && !barred,
        bits,
        [before.bit().into(), b.latch.into()],
    );
}

/// The address to which CLK's fall leads, with the flags before it; match is the
/// one just compared.
fn arrived(reached: &mut Reached, before: Side) {
    let b = before.volatile;
    let (sv, level) = (b.sv.into(), before.level_1().into());
    let bit = |address: usize| usize::from(before.memory[address / 8] >> (7 - address % 8) & 1);
    match b.address {
        1519 => {
            let nothing = !(b.sv || b.p1 || b.r1 || b.e1);
            note_each(reached, Kind::Wrap, &[nothing, b.sv, b.p1, b.r1, b.e1]);
        }
        103 => reached.note(Kind::At104, [b.matched.into()]),
        1359 => reached.note(Kind::At1360, [b.matched.into(), b.e1.into()]),
        1518 => reached.note(Kind::At1519, [b.e1.into()]),
        175 => reached.note(Kind::At176, [bit(176), b.p1.into(), level, sv]),
        176 => reached.note(Kind::At177, [bit(177), b.r1.into(), level, sv]),
        1231 => {
            let right = b.matched && b.latch == before.bit() && !before.level_1();
            let unblown = before.unblown(fuses::EC_EN);
            reached.note(Kind::At1232, [right.into(), unblown.into(), sv]);
        }
        _ => {}
    }
}

/// CLK falls in programming.
fn programmed(reached: &mut Reached, before: Side) {
    let zone = before.zone();
    if before.high(RST) {
        barred_by_rst(reached, before);
        fuse(reached, before);
    } else if zone == BLOCK {
        block(reached, before);
    } else if zone > BLOCK {
        not_blown(reached, before);
    } else if before.volatile.latch {
        erased(reached, before);
    } else {
        written(reached, before);
    }
}

fn written(reached: &mut Reached, before: Side) {
    let b = before.volatile;
    let (zone, place, bit) = (before.zone(), before.place(), before.bit());
    let (level, sv) = (before.level_1().into(), b.sv.into());
    let (matched, unblown) = (b.matched.into(), before.unblown(fuses::EC_EN).into());
    if zone == SCAC && b.address < 104 && !b.sv {
        let at = usize::from(b.address - 96);
        reached.note(Kind::Try, [at, bit.into(), matched, level]);
    }
    if zone == EC && !b.e1 {
        let case = [place, bit.into(), matched, level, unblown, sv];
        reached.note(Kind::Count, case);
    }
    if !bit {
        return;
    }
    reached.note(Kind::Write, [zone, place, level, sv]);
    match zone {
        AZ => reached.note(Kind::WriteAz, [place, level, sv, b.p1.into()]),
        MFZ => {
            let unblown = before.unblown(fuses::MF).into();
            reached.note(Kind::Mfz, [0, place, level, sv, unblown]);
        }
        _ => {}
    }
    let lasts = b.sv && (before.level_1() || b.p1);
    reached.note_if(b.address == 176 && b.p1 && lasts, Kind::On176, [0]);
    reached.note_if(b.address == 177 && b.r1 && lasts, Kind::On177, [0]);
}

fn erased(reached: &mut Reached, before: Side) {
    let b = before.volatile;
    let (zone, place) = (before.zone(), before.place());
    let (level, sv) = (before.level_1().into(), b.sv.into());
    let zone_has_zero = before.memory[22..150].iter().any(|&byte| byte != 255);
    if !before.word_has_zero() || zone == EC && !zone_has_zero {
        return;
    }
    reached.note(Kind::Erase, [zone, place, level, sv]);
    match zone {
        EC => {
            let unblown = before.unblown(fuses::EC_EN).into();
            reached.note(Kind::EraseEc, [place, level, sv, b.e1.into(), unblown]);
        }
        MFZ => {
            let unblown = before.unblown(fuses::MF).into();
            reached.note(Kind::Mfz, [1, place, level, sv, unblown]);
        }
        _ => {}
    }
    let turns = b.sv && before.level_1() && !before.bit();
    reached.note_if(b.address == 176 && !b.p1 && turns, Kind::On176, [1]);
    reached.note_if(b.address == 177 && !b.r1 && turns, Kind::On177, [1]);
}

fn barred_by_rst(reached: &mut Reached, before: Side) {
    let b = before.volatile;
    if before.zone() <= BLOCK && before.programmed(b.lines & !RST).0 != before.memory {
        let case = [before.zone(), b.latch.into(), before.level_1().into()];
        reached.note(Kind::RstHigh, case);
    }
}

fn block(reached: &mut Reached, before: Side) {
    let b = before.volatile;
    let value = if b.latch { 255 } else { 0 };
    let level_by = match (before.high(FUS), before.unblown(fuses::ISS)) {
        (true, true) => 0,
        (false, true) => 1,
        (true, false) => 2,
        (false, false) => return,
    };
    if before.memory[2..170].iter().any(|&byte| byte != value) {
        let case = [before.place(), b.latch.into(), level_by, b.sv.into()];
        reached.note(Kind::Block, case);
    }
}

/// The fuse of the address.
fn fuse_at(address: u16) -> Option<usize> {
    match address {
        1408..=1423 => Some(0),
        1481 => Some(1),
        1504..=1519 => Some(2),
        _ => None,
    }
}

fn all_there(side: Side) -> bool {
    side.fuses == fuses::ALL && side.volatile.sv && side.high(FUS)
}

/// CLK falls in programming with RST high.
fn fuse(reached: &mut Reached, before: Side) {
    let b = before.volatile;
    let Some(fuse) = fuse_at(b.address) else {
        let beside = [1407, 1424, 1480, 1482, 1503];
        let at = beside.iter().position(|&address| address == b.address);
        if let (Some(at), true, false) = (at, all_there(before), b.latch) {
            reached.note(Kind::Beside, [at]);
        }
        return;
    };
    if b.latch {
        reached.note_if(all_there(before), Kind::NotBlown, [fuse, 0]);
        return;
    }
    let case = [
        fuse,
        before.fuses.into(),
        b.sv.into(),
        before.high(FUS).into(),
    ];
    reached.note(Kind::Fuse, case);
    if before.programmed(b.lines).1 != before.fuses {
        let at = match b.address {
            1408..=1423 => before.place(),
            1481 => 3,
            _ => 4 + before.place(),
        };
        reached.note(Kind::BlownAt, [at]);
    }
}

fn not_blown(reached: &mut Reached, before: Side) {
    if let (Some(fuse), false) = (fuse_at(before.volatile.address), before.volatile.latch) {
        reached.note_if(all_there(before), Kind::NotBlown, [fuse, 1]);
    }
}

/// What the pin says after a step, by the state there.
fn pin(reached: &mut Reached, after: Side) {
    let a = after.volatile;
    let (zone, level, sv) = (after.zone(), after.level_1().into(), a.sv.into());
    let silent = [
        !after.high(VCC),
        after.high(RST),
        after.high(PGM),
        a.programming,
    ];
    if zone >= BLOCK {
        reached.note_if(
            !silent.contains(&true),
            Kind::Outside,
            [zone - BLOCK, level, sv],
        );
        return;
    }
    let (place, bit) = (after.place(), after.bit());
    if !silent.contains(&true) {
        reached.note(Kind::Read, [zone, place, level, sv, bit.into()]);
        let case = [place, sv, a.r1.into(), bit.into()];
        reached.note_if(zone == AZ, Kind::ReadAz, case);
        return;
    }
    let reasons = silent.iter().filter(|reason| **reason).count();
    if reasons == 1 && !bit && !matches!(zone, SC | AZ | EZ) {
        note_each(reached, Kind::Released, &silent);
    }
}

/// A step refused by 1 to 7.
pub fn refused(reached: &mut Reached, before: Volatile, step: u8, number: u8) {
    let high = |line: u8| usize::from(before.lines & line != 0);
    let change = before.lines ^ step;
    let rises = usize::from(step & change != 0);
    let differ = (change & 63).count_ones() as usize;
    let latch = before.latch.into();
    match number {
        1 => {
            let case = [high(VCC), usize::from(step >> 6) - 1, differ.min(2)];
            reached.note(Kind::Refused1, case);
        }
        2 if differ > 2 => reached.note(Kind::Refused2More, [differ - 3, high(VCC)]),
        2 => {
            let last = change.ilog2() as usize;
            let first = change.trailing_zeros() as usize;
            let state = high(VCC) + usize::from(before.programming);
            reached.note(Kind::Refused2, [last * (last - 1) / 2 + first, state]);
        }
        3 if change == RST => reached.note(Kind::Refused3Rst, [rises, high(PGM)]),
        3 => reached.note(Kind::Refused3Fus, [rises, high(PGM)]),
        4 => reached.note(Kind::Refused4, [high(RST), latch]),
        5 => reached.note(Kind::Refused5, [latch]),
        6 => reached.note(Kind::Refused6, [before.programming.into(), high(RST)]),
        _ => reached.note(Kind::Refused7, [high(CLK) + 2 * high(PGM) - 1]),
    }
}

/// Of a state refused by 9: the clause, if it is the only one.
pub fn made_up(reached: &mut Reached, v: Words) {
    let a = v.address;
    let high = |line: u8| v.lines & u32::from(line) != 0;
    let has = |flag: u32| v.flags & flag != 0;
    let (vcc, clk, programming) = (high(VCC), high(CLK), has(Words::PROGRAMMING));
    let clauses = [
        v.lines > 63,
        a > 1519,
        !vcc && (a != 0 || v.flags != 0),
        has(Words::LATCH) && !clk,
        programming && !clk,
        vcc && clk && high(PGM) && !programming,
        has(Words::MATCH) && !matches!(a, 81..=103 | 1201..=1359),
        has(Words::E1) && !matches!(a, 1232..=1519),
        v.flags > 127,
    ];
    if clauses.iter().filter(|broken| **broken).count() == 1 {
        note_each(reached, Kind::MadeUp, &clauses);
    }
}

/// The reason of a state, or the number by which it is refused.
pub fn reason(reached: &mut Reached, v: Words, told: Result<u8, u8>) {
    match told {
        Ok(number) => {
            let pgm = v.lines & u32::from(PGM) != 0;
            reached.note(Kind::Reason, [number.into(), pgm.into()]);
        }
        Err(number) => {
            let order = [10, 14, 9];
            let index = order.iter().position(|&refusal| refusal == number);
            reached.note(Kind::ReasonRefused, [index.expect("one of the three")]);
        }
    }
}
