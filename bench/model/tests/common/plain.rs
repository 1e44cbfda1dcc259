//! The rules once more, slowly: a bit is a bool, a right is a question, and
//! every rule is written out where it applies.

#![allow(clippy::manual_range_patterns)]

use model::Volatile;

#[derive(Clone, PartialEq, Eq, Debug)]
pub struct Plain {
    pub bits: Vec<bool>,
    pub fuses: u8,
    pub v: Volatile,
}

struct Lines {
    vcc: bool,
    rst: bool,
    clk: bool,
    pgm: bool,
    io: bool,
    fus: bool,
}

fn lines(byte: u8) -> Lines {
    Lines {
        vcc: byte & 1 != 0,
        rst: byte & 2 != 0,
        clk: byte & 4 != 0,
        pgm: byte & 8 != 0,
        io: byte & 16 != 0,
        fus: byte & 32 != 0,
    }
}

pub fn sound(v: Volatile) -> bool {
    let Lines { vcc, clk, pgm, .. } = lines(v.lines);
    let something = v.sv || v.p1 || v.r1 || v.e1 || v.matched || v.latch || v.programming;
    let in_code = v.address >= 81 && v.address <= 103;
    let in_key = v.address >= 1201 && v.address <= 1359;
    let made_up = v.lines > 63
        || v.address > 1519
        || !vcc && (something || v.address != 0)
        || v.latch && !clk
        || v.programming && !clk
        || vcc && clk && pgm && !v.programming
        || v.matched && !in_code && !in_key
        || v.e1 && !(v.address >= 1232 && v.address <= 1519);
    !made_up
}

impl Plain {
    pub fn new(memory: &[u8], fuses: u8, v: Volatile) -> Self {
        let bit = |a: usize| memory[a / 8] & [128, 64, 32, 16, 8, 4, 2, 1][a % 8] != 0;
        Self {
            bits: (0..1392).map(bit).collect(),
            fuses,
            v,
        }
    }

    pub fn memory(&self) -> Vec<u8> {
        let byte = |bits: &[bool]| bits.iter().fold(0, |byte, &bit| byte * 2 + u8::from(bit));
        self.bits.chunks(8).map(byte).collect()
    }

    fn mf(&self) -> bool {
        self.fuses % 2 == 1
    }

    fn ec_en(&self) -> bool {
        self.fuses / 2 % 2 == 1
    }

    fn iss(&self) -> bool {
        self.fuses / 4 % 2 == 1
    }

    fn level(&self) -> u8 {
        if lines(self.v.lines).fus && self.iss() {
            1
        } else {
            2
        }
    }

    fn may_read(&self) -> bool {
        match self.v.address {
            0..=15 | 16..=79 => true,
            80..=95 => self.level() == 1 && self.v.sv,
            96..=111 | 112..=175 => true,
            176..=1199 => self.v.sv || self.v.r1,
            1200..=1231 => self.level() == 1 && self.v.sv,
            1232..=1359 | 1360..=1375 | 1376..=1391 => true,
            _ => false,
        }
    }

    fn may_write(&self) -> bool {
        match self.v.address {
            0..=15 => false,
            16..=79 => self.level() == 1 && self.v.sv,
            80..=95 => self.v.sv,
            96..=111 => true,
            112..=175 => self.v.sv,
            176..=1199 if self.level() == 1 => self.v.sv,
            176..=1199 => self.v.sv && self.v.p1,
            1200..=1231 => self.level() == 1 && self.v.sv,
            1232..=1359 => true,
            1360..=1375 => true,
            1376..=1391 => self.level() == 1 && self.v.sv && self.mf(),
            _ => false,
        }
    }

    fn may_erase(&self) -> bool {
        match self.v.address {
            0..=15 => false,
            16..=79 => self.level() == 1 && self.v.sv,
            80..=95 | 96..=111 | 112..=175 => self.v.sv,
            176..=1199 | 1200..=1231 | 1232..=1359 => self.level() == 1 && self.v.sv,
            1360..=1375 => true,
            1376..=1391 => self.level() == 1 && self.v.sv && self.mf(),
            _ => false,
        }
    }

    pub fn pin(&self) -> u8 {
        let l = lines(self.v.lines);
        let shown = l.vcc && !l.rst && !l.pgm && !self.v.programming && self.may_read();
        if shown && !self.bits[usize::from(self.v.address)] {
            0
        } else {
            1
        }
    }

    fn refusal(&self, step: u8) -> u8 {
        let (old, new) = (lines(self.v.lines), lines(step));
        if step > 63 {
            return 1;
        }
        if (step ^ self.v.lines).count_ones() > 1 {
            return 2;
        }
        if old.vcc && self.v.programming && (old.rst != new.rst || old.fus != new.fus) {
            return 3;
        }
        if old.vcc && self.v.programming && old.clk && !new.clk && new.pgm {
            return 4;
        }
        if old.vcc && old.rst && !new.rst && new.clk {
            return 5;
        }
        if old.vcc && !old.pgm && new.pgm && new.clk {
            return 6;
        }
        if !old.vcc && new.vcc && (new.clk || new.pgm) {
            return 7;
        }
        0
    }

    pub fn step(&mut self, step: u8) -> Result<u8, u8> {
        if !sound(self.v) {
            return Err(9);
        }
        let number = self.refusal(step);
        if number != 0 {
            return Err(number);
        }
        let (old, new) = (lines(self.v.lines), lines(step));
        self.v.lines = step;
        if old.vcc && !new.vcc {
            self.v = Volatile {
                lines: step,
                ..Volatile::default()
            };
        }
        if old.vcc && new.vcc {
            if !old.clk && new.clk {
                self.v.latch = new.io;
                self.v.programming = new.pgm;
            }
            if old.clk && !new.clk {
                if self.v.programming {
                    self.operate();
                    self.v.programming = false;
                } else if !new.rst {
                    self.compare();
                    let next = (self.v.address + 1) % 1520;
                    self.arrive(next);
                }
                self.v.latch = false;
            }
            if old.rst && !new.rst {
                self.arrive(0);
            }
        }
        Ok(self.pin())
    }

    fn compare(&mut self) {
        let address = self.v.address;
        let equal = || self.bits[usize::from(address)] == self.v.latch;
        match address {
            80 => self.v.matched = equal() && !self.v.sv,
            81..=95 => self.v.matched = self.v.matched && equal() && !self.v.sv,
            1200 => self.v.matched = equal() && self.level() == 2,
            1201..=1231 => self.v.matched = self.v.matched && equal() && self.level() == 2,
            _ => {}
        }
    }

    fn arrive(&mut self, address: u16) {
        self.v.address = address;
        if address == 0 {
            self.v.e1 = false;
            self.v.matched = false;
        }
        if address == 176 && self.bits[176] {
            self.v.p1 = true;
        }
        if address == 177 && self.bits[177] {
            self.v.r1 = true;
        }
        if address == 104 || address == 1360 {
            self.v.matched = false;
        }
        if address == 1232 && self.v.matched && !self.ec_en() {
            self.v.e1 = true;
        }
    }

    fn operate(&mut self) {
        let l = lines(self.v.lines);
        let address = self.v.address;
        let erases = self.v.latch;
        let at = usize::from(address);
        if !l.rst && !erases && self.may_write() {
            let was_one = self.bits[at];
            self.bits[at] = false;
            if was_one && self.v.matched {
                if (96..=103).contains(&address) {
                    self.v.sv = true;
                }
                if (1232..=1359).contains(&address) && self.ec_en() && self.level() == 2 {
                    self.v.e1 = true;
                }
            }
        } else if !l.rst && erases && self.may_erase() {
            let word = at / 16 * 16;
            for bit in word..word + 16 {
                self.bits[bit] = true;
            }
        } else if !l.rst && erases && (1232..=1359).contains(&address) && self.level() == 2 {
            if self.v.sv && self.v.e1 && (self.ec_en() || address == 1232) {
                for bit in 176..=1199 {
                    self.bits[bit] = true;
                }
            }
        } else if !l.rst && (1392..=1407).contains(&address) && self.level() == 1 && self.v.sv {
            for bit in 16..=1359 {
                self.bits[bit] = erases;
            }
        } else if l.rst && !erases && self.iss() {
            if (1408..=1423).contains(&address) && self.v.sv {
                self.fuses -= self.fuses % 2;
            }
            if address == 1481 && l.fus {
                self.fuses = self.fuses & 4 | self.fuses & 1;
            }
            if (1504..=1519).contains(&address) && self.v.sv {
                self.fuses %= 4;
            }
        }
    }

    /// Whether the operation takes effect, told by an image on which it shows.
    /// A blow shows where the fuse is unblown; neither MF nor EC_EN is asked for
    /// at a fuse, so both may be unblown for it.
    fn works(&self) -> bool {
        let mut card = self.clone();
        card.bits = vec![!self.v.latch; 1392];
        if self.v.address >= 1408 {
            card.fuses |= 3;
        }
        let before = card.clone();
        card.operate();
        card.bits != before.bits || card.fuses != before.fuses
    }

    /// The same card with what the reason of that number misses.
    fn granted(mut self, number: u8) -> Self {
        match number {
            5 => self.v.sv = true,
            6 => self.v.p1 = true,
            7 => self.v.e1 = true,
            8 => self.fuses |= 1,
            9 => self.fuses |= 4,
            _ => self.v.lines |= 32,
        }
        self
    }

    /// The first reason why CLK's fall would change nothing. A thing is asked for
    /// if the operation doesn't take effect without it, all others granted. In
    /// memory the level stays: neither ISS nor FUS is granted there.
    fn reason(&self) -> u8 {
        let address = self.v.address;
        if !self.v.programming {
            return 1;
        }
        if (1424..=1503).contains(&address) && address != 1481 {
            return 2;
        }
        if lines(self.v.lines).rst != (address >= 1408) {
            return 3;
        }
        let things = if address < 1392 { 5..=8 } else { 5..=10 };
        let works_without = |left: u8| {
            let granted = things.clone().filter(|&number| number != left);
            granted.fold(self.clone(), Plain::granted).works()
        };
        if !works_without(0) {
            return 4;
        }
        let missing = |number: &u8| !works_without(*number);
        things.clone().find(missing).unwrap_or(0)
    }
}

/// The reason, after its checks.
pub fn reason(memory: &[u8], fuses: u8, v: Volatile) -> Result<u8, u8> {
    if memory.len() != 174 {
        return Err(10);
    }
    if fuses > 7 {
        return Err(14);
    }
    if !sound(v) {
        return Err(9);
    }
    Ok(Plain::new(memory, fuses, v).reason())
}

pub struct Ran {
    pub memory: Vec<u8>,
    pub fuses: u8,
    pub v: Volatile,
    pub answers: Vec<u8>,
    pub refusal: u8,
}

/// A run with its checks; `room` is the length of the answer buffer.
pub fn run(memory: &[u8], fuses: u8, v: Volatile, steps: &[u8], room: usize) -> Ran {
    let first = if memory.len() != 174 {
        10
    } else if fuses > 7 {
        14
    } else if !sound(v) {
        9
    } else if steps.len() > 4096 {
        18
    } else if room < steps.len() {
        19
    } else {
        0
    };
    if first != 0 {
        return Ran {
            memory: memory.to_vec(),
            fuses,
            v,
            answers: vec![],
            refusal: first,
        };
    }
    let mut card = Plain::new(memory, fuses, v);
    let mut answers = vec![];
    let mut refusal = 0;
    for &step in steps {
        match card.step(step) {
            Ok(answer) => answers.push(answer),
            Err(number) => {
                refusal = number;
                break;
            }
        }
    }
    Ran {
        memory: card.memory(),
        fuses: card.fuses,
        v: card.v,
        answers,
        refusal,
    }
}

/// The parts of a file: memory, fuses and steps; or the number of a refusal.
pub fn parts(bytes: &[u8], buffer: usize, has_steps: bool) -> Result<(&[u8], u8, &[u8]), u8> {
    let count = |at: usize| usize::from(bytes[at]) + 256 * usize::from(bytes[at + 1]);
    if buffer != 174 {
        return Err(10);
    }
    if bytes.len() < 179 {
        return Err(11);
    }
    if count(0) != 174 {
        return Err(12);
    }
    if count(176) != 1 {
        return Err(13);
    }
    if bytes[178] > 7 {
        return Err(14);
    }
    let mut length = 179;
    if has_steps {
        if bytes.len() < 181 {
            return Err(15);
        }
        if count(179) > 4096 {
            return Err(16);
        }
        length = 181 + count(179);
    }
    if bytes.len() != length {
        return Err(17);
    }
    Ok((
        &bytes[2..176],
        bytes[178],
        if has_steps { &bytes[181..] } else { &[] },
    ))
}

/// What the session program prints.
pub fn session(bytes: &[u8]) -> String {
    match parts(bytes, 174, true) {
        Err(number) => format!("bad {number}\n"),
        Ok((memory, fuses, steps)) => {
            let ran = run(memory, fuses, Volatile::default(), steps, steps.len());
            let answers: String = ran.answers.iter().map(u8::to_string).collect();
            let left = ran.memory[12].count_ones();
            let (done, given, refusal) = (ran.answers.len(), steps.len(), ran.refusal);
            format!("done {done} of {given}\nrefused {refusal}\n{answers}\nleft {left}\n")
        }
    }
}

/// A reader's act.
#[derive(Clone, Copy, Debug)]
pub enum Act {
    Reset,
    Walk(u16),
    Show16(u16),
    Show32(u32),
    Program(bool),
    Blow,
    Open(u16, u8),
}

/// The steps of an act, or the number of a refusal.
pub fn make(act: Act, fus: bool, room: usize) -> Result<Vec<u8>, u8> {
    let steps = steps(act, if fus { 32 } else { 0 })?;
    if steps.len() > room {
        Err(22)
    } else {
        Ok(steps)
    }
}

fn steps(act: Act, fus: u8) -> Result<Vec<u8>, u8> {
    let idle = fus + 17;
    Ok(match act {
        Act::Reset => vec![idle + 2, idle],
        Act::Walk(n) if n > 1519 => return Err(21),
        Act::Walk(n) => [idle + 4, idle].repeat(usize::from(n)),
        Act::Show16(code) => show(idle, &format!("{code:016b}")),
        Act::Show32(key) => show(idle, &format!("{key:032b}")),
        Act::Program(true) => {
            vec![idle + 8, idle + 8, idle + 12, idle + 4, idle + 4, idle]
        }
        Act::Program(false) => {
            vec![idle + 8, idle - 8, idle - 4, idle - 12, idle + 4, idle]
        }
        Act::Blow => {
            let mut blow = vec![idle + 2];
            blow.extend(steps(Act::Program(false), fus)?.iter().map(|step| step + 2));
            blow.push(idle);
            blow
        }
        Act::Open(_, 0) => return Err(23),
        Act::Open(code, attempts) => {
            let zeros = format!("{attempts:08b}").find('1').unwrap() as u16;
            let acts = [
                Act::Reset,
                Act::Walk(80),
                Act::Show16(code),
                Act::Walk(zeros),
                Act::Program(false),
                Act::Program(true),
            ];
            let mut open = vec![];
            for act in acts {
                open.extend(steps(act, fus)?);
            }
            open
        }
    })
}

fn show(idle: u8, bits: &str) -> Vec<u8> {
    let mut steps = vec![];
    for bit in bits.bytes() {
        let held = if bit == b'1' { idle } else { idle - 16 };
        steps.extend([held, held + 4, held]);
    }
    steps.push(idle);
    steps
}
