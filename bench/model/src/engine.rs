//! What a step does: the edges, the compare, programming and the pin.
//!
//! The state is packed in a few bytes and passed by value, so that a run keeps
//! it in registers. It has passed the state check before it gets here.

use crate::card::BYTES;
use crate::fuses::{EC_EN, ISS, MF};
use crate::lines::{self, CLK, FUS, IO, PGM, RST, VCC};
use crate::volatile::{Volatile, LAST_ADDRESS};
use crate::zones::{condition, is_plain, rights_at};
use crate::{refusal, wrong};

const SV: u8 = condition::SV;
const R1: u8 = condition::R1;
const P1: u8 = 8;
const E1: u8 = 16;
const MATCH: u8 = 32;
const LATCH: u8 = 64;
const PROGRAMMING: u8 = 128;

type Memory = [u8; BYTES];

/// The volatile half and the fuse byte.
#[derive(Clone, Copy)]
pub(crate) struct State {
    lines: u8,
    flags: u8,
    fuses: u8,
    address: u16,
}

/// The stored bit, 0 or 1; 1 where there is no memory.
#[inline(always)]
fn stored(memory: &Memory, address: u16) -> u8 {
    match memory.get(usize::from(address >> 3)) {
        Some(byte) => byte >> (7 - (address & 7)) & 1,
        None => 1,
    }
}

impl State {
    pub(crate) fn pack(volatile: Volatile, fuses: u8) -> Self {
        let Volatile {
            lines,
            address,
            sv,
            p1,
            r1,
            e1,
            matched,
            latch,
            programming,
        } = volatile;
        let flags = (u8::from(sv) * SV)
            | (u8::from(p1) * P1)
            | (u8::from(r1) * R1)
            | (u8::from(e1) * E1)
            | (u8::from(matched) * MATCH)
            | (u8::from(latch) * LATCH)
            | (u8::from(programming) * PROGRAMMING);
        Self {
            lines,
            flags,
            fuses,
            address,
        }
    }

    pub(crate) fn unpack(self) -> (Volatile, u8) {
        let volatile = Volatile {
            lines: self.lines,
            address: self.address,
            sv: self.has(SV),
            p1: self.has(P1),
            r1: self.has(R1),
            e1: self.has(E1),
            matched: self.has(MATCH),
            latch: self.has(LATCH),
            programming: self.has(PROGRAMMING),
        };
        (volatile, self.fuses)
    }

    #[inline(always)]
    fn has(self, flag: u8) -> bool {
        self.flags & flag != 0
    }

    #[inline(always)]
    fn high(self, line: u8) -> bool {
        self.lines & line != 0
    }

    #[inline(always)]
    fn unblown(self, fuse: u8) -> bool {
        self.fuses & fuse != 0
    }

    /// Security level 1; else it is level 2.
    #[inline(always)]
    fn level_1(self) -> bool {
        self.high(FUS) && (self.unblown(ISS) || wrong(72))
    }

    /// Carries out a step, or refuses it with a number.
    #[inline(always)]
    pub(crate) fn advance(&mut self, memory: &mut Memory, step: u8) -> Result<(), u8> {
        let change = step ^ self.lines;
        let rises = step & change != 0;
        if wrong(11) && self.has(PROGRAMMING) && step <= lines::ALL && change & (RST | FUS) != 0 {
            return Err(refusal::CHANGE_IN_PROGRAMMING);
        }
        match change {
            CLK if !self.high(VCC) => {}
            CLK if rises => self.clk_rises(memory),
            CLK => self.clk_falls(memory)?,
            0 | IO => {}
            PGM => {
                if rises && self.high(VCC) && self.high(CLK) && !wrong(40) {
                    return Err(refusal::PGM_RISES_UNDER_CLK);
                }
            }
            _ => *self = self.rare_change(memory, step)?,
        }
        self.lines = step;
        Ok(())
    }

    #[inline(always)]
    fn clk_rises(&mut self, memory: &Memory) {
        if self.high(IO) && !(wrong(60) && self.pin(memory) == 0) {
            self.flags |= LATCH;
        }
        if self.high(PGM) {
            self.flags |= PROGRAMMING;
        }
    }

    #[inline(always)]
    fn clk_falls(&mut self, memory: &mut Memory) -> Result<(), u8> {
        if self.has(PROGRAMMING) {
            if self.high(PGM) {
                return Err(refusal::CLK_FALLS_UNDER_PGM);
            }
            *self = self.program(memory);
            self.flags &= !PROGRAMMING;
            if wrong(6) {
                *self = self.count(memory);
            }
        } else if !self.high(RST) || wrong(29) {
            if is_plain(self.address) && !wrong(58) {
                self.address += 1;
            } else {
                *self = self.count(memory);
            }
        }
        if !wrong(13) {
            self.flags &= !LATCH;
        }
        Ok(())
    }

    /// A change of RST, FUS or VCC, or one of several lines.
    #[inline(never)]
    fn rare_change(mut self, memory: &mut Memory, step: u8) -> Result<Self, u8> {
        let change = step ^ self.lines;
        let rises = step & change != 0;
        match change {
            RST | FUS if self.has(PROGRAMMING) => return Err(refusal::CHANGE_IN_PROGRAMMING),
            RST if !rises && self.high(VCC) => {
                if self.high(CLK) && !wrong(51) {
                    return Err(refusal::RST_FALLS_UNDER_CLK);
                }
                self.address = 0;
                self.flags &= if wrong(4) { !MATCH } else { !(MATCH | E1) };
                if wrong(3) {
                    self.flags &= !(SV | P1 | R1);
                }
            }
            RST if wrong(63) && self.high(VCC) => {
                self.address = 0;
                self.flags &= !(MATCH | E1);
            }
            RST | FUS => {}
            VCC if rises => {
                if self.lines & (CLK | PGM) != 0 && !wrong(41) {
                    return Err(refusal::VCC_RISES);
                }
            }
            VCC => {
                if wrong(23) && self.has(PROGRAMMING) {
                    self = self.program(memory);
                }
                self.flags &= if wrong(43) { SV } else { 0 };
                self.address = 0;
            }
            _ if step > lines::ALL => return Err(refusal::STEP_BYTE),
            _ => return Err(refusal::LINES_DIFFER),
        }
        Ok(self)
    }

    /// The card's answer on I/O: 0, or 1 when the line is released.
    #[inline(always)]
    pub(crate) fn pin(self, memory: &Memory) -> u8 {
        let silent = self.lines & (VCC | RST | PGM) != VCC;
        if silent || self.has(PROGRAMMING) && !wrong(25) {
            1
        } else if wrong(14) && self.address >= 1392 {
            0
        } else if self.may_read() {
            stored(memory, self.address)
        } else {
            1
        }
    }

    /// Whether the address may be read.
    #[inline(always)]
    fn may_read(self) -> bool {
        let any = rights_at(self.address).read;
        let mut holds = condition::ALWAYS | self.flags & (SV | R1);
        if wrong(53) {
            holds &= !SV;
        }
        any & holds != 0
            || any & condition::L1_SV != 0 && self.has(SV) && (self.level_1() || wrong(24))
    }

    /// Compares at the address, then moves on by one.
    #[inline(never)]
    fn count(mut self, memory: &Memory) -> Self {
        self.compare(memory);
        self.address = match self.address {
            LAST_ADDRESS if wrong(12) => LAST_ADDRESS,
            LAST_ADDRESS => 0,
            address => address + 1,
        };
        self.arrive(memory);
        self
    }

    /// Compares the latched bit with the stored one, where the code or key is.
    fn compare(&mut self, memory: &Memory) {
        let address = if wrong(58) {
            self.address + 1
        } else {
            self.address
        };
        let (first, may_match) = match address {
            80..=95 => (address == 80, !self.has(SV) || wrong(17)),
            1200..=1231 => {
                let may_match = !self.level_1() || wrong(18);
                (address == 1200, may_match && (self.has(SV) || !wrong(65)))
            }
            _ => return,
        };
        let held =
            self.has(MATCH) || first || wrong(5) && matches!(address, 81 | 1201) || wrong(45);
        let equal = self.has(LATCH) == (stored(memory, self.address) == 1);
        if held && equal && may_match {
            self.flags |= MATCH;
        } else {
            self.flags &= !MATCH;
        }
    }

    /// What arriving at the address does.
    fn arrive(&mut self, memory: &Memory) {
        match self.address {
            0 => self.flags &= !(E1 | MATCH),
            104 if wrong(7) || wrong(47) => {}
            1360 if wrong(73) => {}
            104 | 1360 => self.flags &= !MATCH,
            176 if stored(memory, 176) == 1 => self.flags |= P1,
            177 if wrong(76) && stored(memory, 176) == 0 => {}
            177 if stored(memory, 177) == 1 || wrong(76) => self.flags |= R1,
            1232 if self.has(MATCH) && (!self.unblown(EC_EN) || wrong(48)) => self.flags |= E1,
            _ => {}
        }
    }

    /// The operation that takes effect when CLK falls in programming.
    #[inline(never)]
    fn program(mut self, memory: &mut Memory) -> Self {
        let erases = self.has(LATCH);
        if wrong(62) && matches!(self.address, 80..=95 | 1200..=1231) {
            self.flags &= !MATCH;
        }
        if self.high(RST) {
            return if erases && !wrong(50) {
                self
            } else {
                self.blow()
            };
        }
        match self.address {
            0..=1391 if erases => self.erase(memory),
            0..=1391 => self.write(memory),
            1392..=1407 => self.block(memory, erases),
            _ if wrong(49) && !erases => self.blow(),
            _ => self,
        }
    }

    /// The conditions that hold for a write or an erase.
    fn conditions(self) -> u8 {
        let mut holds = condition::ALWAYS;
        if self.has(SV) {
            holds |= condition::SV;
            if self.has(P1) || wrong(27) {
                holds |= condition::SV_P1;
            }
            if self.level_1() {
                holds |= condition::L1_SV;
                if self.unblown(MF) || wrong(28) {
                    holds |= condition::L1_SV_MF;
                }
            }
        }
        holds
    }

    /// Sets one bit to 0; a validating write sets SV or E1.
    fn write(mut self, memory: &mut Memory) -> Self {
        if rights_at(self.address).write & self.conditions() == 0 {
            return self;
        }
        let byte = &mut memory[usize::from(self.address >> 3)];
        let bit = 0x80 >> (self.address & 7);
        let turned = *byte & bit != 0;
        *byte &= !bit;
        if wrong(16) && self.address == 176 {
            self.flags &= !P1;
        }
        if !self.has(MATCH) {
            return self;
        }
        match self.address {
            96..=103 if turned || wrong(2) => {
                self.flags |= SV;
                if wrong(1) {
                    memory[12..14].fill(255);
                }
                if wrong(59) {
                    self.flags &= !MATCH;
                }
            }
            104 if turned && wrong(47) => self.flags |= SV,
            1232..=1359 if turned => {
                let counted = (self.unblown(EC_EN) || wrong(22)) && (self.has(SV) || !wrong(64));
                if counted && (!self.level_1() || wrong(21)) {
                    self.flags |= E1;
                }
            }
            _ => {}
        }
        self
    }

    /// Sets the word to 1, or in level 2 at the erase counter the whole
    /// application zone.
    fn erase(mut self, memory: &mut Memory) -> Self {
        if matches!(self.address, 1232..=1359) && !self.level_1() {
            let here = self.unblown(EC_EN) || self.address == 1232 || wrong(10);
            if here && self.has(E1) && (self.has(SV) || wrong(52)) {
                let first = if wrong(8) { 23 } else { 22 };
                let end = if wrong(74) { 149 } else { 150 };
                memory[first..end].fill(255);
                if wrong(54) {
                    let word = usize::from(self.address >> 4) * 2;
                    memory[word..word + 2].fill(255);
                }
            }
            return self;
        }
        let mut holds = self.conditions();
        if wrong(38) && self.address >= 1360 && !self.has(SV) {
            holds = 0;
        }
        if rights_at(self.address).erase & holds != 0 {
            let word = usize::from(self.address >> 4) * 2;
            let bytes = if wrong(26) { 1 } else { 2 };
            memory[word..word + bytes].fill(255);
            if wrong(15) && self.address == 176 {
                self.flags |= P1;
            }
        }
        self
    }

    /// Writes or erases bits 16 to 1359.
    fn block(self, memory: &mut Memory, erases: bool) -> Self {
        if self.has(SV) && (self.level_1() || wrong(46)) {
            let end = if wrong(9) {
                168
            } else if wrong(39) {
                172
            } else {
                170
            };
            let first = if wrong(75) { 0 } else { 2 };
            memory[first..end].fill(if erases { 255 } else { 0 });
        }
        self
    }

    /// Blows the fuse at the address.
    fn blow(mut self) -> Self {
        if self.unblown(ISS) {
            let sv = self.has(SV) && (self.high(FUS) || !wrong(66));
            match self.address {
                1408..=1423 if sv => self.fuses &= !MF,
                1481 if self.high(FUS) && (sv || !wrong(19)) => self.fuses &= !EC_EN,
                1504..=1519 if sv => self.fuses &= !ISS,
                1503 if sv && wrong(20) => self.fuses &= !ISS,
                _ => {}
            }
        }
        self
    }
}
