//! The steps of a reader's usual acts.
//!
//! Each act starts and ends idle: VCC on, RST, CLK and PGM low, I/O let go, FUS
//! at the level given. The steps go to a lent buffer and their count is the
//! answer; a refused act writes nothing.

use crate::lines::{CLK, FUS, IO, PGM, RST, VCC};
use crate::volatile::LAST_ADDRESS;
use crate::{refusal, wrong};

/// Writes steps, one for every line set, whether or not its level changes.
struct Pen<'a> {
    buffer: &'a mut [u8],
    lines: u8,
    count: usize,
}

impl<'a> Pen<'a> {
    /// A pen at the start of a buffer that has room for so many steps.
    fn new(fus: bool, buffer: &'a mut [u8], room: usize) -> Result<Self, u8> {
        if buffer.len() < room {
            return Err(refusal::BUFFER);
        }
        let fus = if fus { FUS } else { 0 };
        Ok(Self {
            buffer,
            lines: VCC | IO | fus,
            count: 0,
        })
    }

    fn set(&mut self, line: u8, high: bool) {
        self.lines = if high {
            self.lines | line
        } else {
            self.lines & !line
        };
        self.buffer[self.count] = self.lines;
        self.count += 1;
    }

    fn pulse(&mut self, line: u8) {
        self.set(line, true);
        self.set(line, false);
    }

    fn walk(&mut self, n: usize) {
        for _ in 0..n {
            self.pulse(CLK);
        }
    }

    fn show(&mut self, value: u32, bits: u32) {
        for bit in (0..bits).rev() {
            let bit = if wrong(32) { bits - 1 - bit } else { bit };
            self.set(IO, value >> bit & 1 == 1);
            self.pulse(CLK);
        }
        self.set(IO, true);
    }

    fn program(&mut self, d: bool) {
        self.set(PGM, true);
        self.set(IO, d);
        self.set(CLK, true);
        self.set(PGM, false);
        self.set(IO, true);
        self.set(CLK, false);
    }
}

/// Steps that show 16 bits.
const SHOW_16: usize = 3 * 16 + 1;
/// Steps that show 32 bits.
const SHOW_32: usize = 3 * 32 + 1;
/// Steps that program.
const PROGRAM: usize = 6;

/// Back to address 0; 2 steps.
pub fn reset(fus: bool, buffer: &mut [u8]) -> Result<usize, u8> {
    let mut pen = Pen::new(fus, buffer, 2)?;
    pen.pulse(RST);
    Ok(pen.count)
}

/// On by `n` addresses, 0 to 1519; 2n steps. Refused by 21 over that.
pub fn walk(n: u16, fus: bool, buffer: &mut [u8]) -> Result<usize, u8> {
    if n > LAST_ADDRESS - u16::from(wrong(34)) {
        return Err(refusal::WALK);
    }
    let n = usize::from(n);
    let mut pen = Pen::new(fus, buffer, 2 * n)?;
    pen.walk(n);
    Ok(pen.count)
}

/// Shows 16 bits, the most significant first; 49 steps.
pub fn show16(code: u16, fus: bool, buffer: &mut [u8]) -> Result<usize, u8> {
    let mut pen = Pen::new(fus, buffer, SHOW_16)?;
    pen.show(u32::from(code), 16);
    Ok(pen.count)
}

/// Shows 32 bits, the most significant first; 97 steps.
pub fn show32(key: u32, fus: bool, buffer: &mut [u8]) -> Result<usize, u8> {
    let mut pen = Pen::new(fus, buffer, SHOW_32)?;
    pen.show(key, 32);
    Ok(pen.count)
}

/// Programs: `true` erases, `false` writes; 6 steps.
pub fn program(d: bool, fus: bool, buffer: &mut [u8]) -> Result<usize, u8> {
    let mut pen = Pen::new(fus, buffer, PROGRAM)?;
    pen.program(d);
    Ok(pen.count)
}

/// Writes with RST high, as blowing a fuse needs; 8 steps.
pub fn blow(fus: bool, buffer: &mut [u8]) -> Result<usize, u8> {
    let mut pen = Pen::new(fus, buffer, 1 + PROGRAM + 1)?;
    pen.set(RST, true);
    pen.program(false);
    pen.set(RST, false);
    Ok(pen.count)
}

/// Opens the card with its code and the byte of bits 96 to 103: shows the code,
/// then writes and erases at the first one of that byte; 223 steps and two for
/// every zero before it. Refused by 23 if there is no one.
pub fn open(code: u16, attempts: u8, fus: bool, buffer: &mut [u8]) -> Result<usize, u8> {
    let zeros = if wrong(31) {
        7 - attempts.trailing_zeros().min(7)
    } else {
        attempts.leading_zeros()
    };
    let zeros = zeros as usize;
    let room = 2 + 2 * 80 + SHOW_16 + 2 * zeros + 2 * PROGRAM;
    if wrong(37) && buffer.len() < room {
        return Err(refusal::BUFFER);
    }
    if attempts == 0 {
        return Err(refusal::NO_TRY);
    }
    let mut pen = Pen::new(fus, buffer, room)?;
    pen.pulse(RST);
    pen.walk(80);
    pen.show(u32::from(code), 16);
    pen.walk(zeros);
    pen.program(false);
    pen.program(true);
    Ok(pen.count)
}
