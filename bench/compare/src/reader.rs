//! A reader that knows its card: what it does depends on the card's state.

use crate::chance::Chance;
use crate::waveform::{any_address, any_fuses, any_memory, any_sound, any_step, Case};
use crate::words::of_model;
use model::lines::{CLK, FUS, IO, PGM, RST, VCC};
use model::{fuses, maker, Card, LAST_ADDRESS};

pub struct Reader<'a> {
    pub chance: &'a mut Chance,
    pub card: Card,
    pub fus: bool,
    pub steps: Vec<u8>,
    pub most: usize,
    /// The longest way to an address; a place farther off isn't gone to.
    pub way: u16,
}

impl Reader<'_> {
    fn full(&self) -> bool {
        self.steps.len() >= self.most
    }

    pub fn lines(&self) -> u8 {
        self.card.volatile.lines
    }

    pub fn put(&mut self, step: u8) {
        if !self.full() {
            self.steps.push(step);
            let _ = self.card.step(step);
        }
    }

    pub fn set(&mut self, line: u8, high: bool) {
        let lines = self.lines();
        let step = if high { lines | line } else { lines & !line };
        if step != lines {
            self.put(step);
        }
    }

    /// Brings the card to idle, whatever its lines are.
    pub fn settle(&mut self) {
        self.set(PGM, false);
        self.set(CLK, false);
        self.set(VCC, true);
        self.set(RST, false);
        self.set(IO, true);
        self.set(FUS, self.fus);
    }

    pub fn act(&mut self, make: impl FnOnce(bool, &mut [u8]) -> Result<usize, u8>) {
        self.settle();
        let mut buffer = [0; 4096];
        if let Ok(count) = make(self.fus, &mut buffer) {
            for &step in &buffer[..count] {
                self.put(step);
            }
        }
    }

    pub fn walk(&mut self, n: u16) {
        self.act(|fus, out| maker::walk(n, fus, out));
    }

    pub fn go_to(&mut self, address: u16) {
        self.settle();
        if self.card.volatile.address > address && address <= self.way {
            self.act(maker::reset);
        }
        match address.checked_sub(self.card.volatile.address) {
            Some(way) if way <= self.way => self.walk(way),
            _ => {}
        }
    }

    pub fn program(&mut self, d: bool) {
        self.act(|fus, out| maker::program(d, fus, out));
    }

    pub fn code(&self) -> u16 {
        u16::from_be_bytes([self.card.memory[10], self.card.memory[11]])
    }

    pub fn key(&self) -> u32 {
        let key = &self.card.memory[150..154];
        u32::from_be_bytes([key[0], key[1], key[2], key[3]])
    }

    fn open(&mut self, right: bool) {
        let wrong_bit = if right { 0 } else { 1 << self.chance.below(16) };
        let code = self.code() ^ wrong_bit;
        let attempts = if self.chance.one_in(8) {
            self.chance.byte()
        } else {
            self.card.memory[12]
        };
        self.act(|fus, out| maker::open(code, attempts, fus, out));
    }

    /// Shows the code, walks on and programs at a try, not always where and as
    /// an opening would.
    fn show_code(&mut self) {
        let first = if self.chance.one_in(8) { 81 } else { 80 };
        self.go_to(first);
        let wrong_bit = if self.chance.one_in(4) {
            1 << self.chance.below(16)
        } else {
            0
        };
        let code = self.code() ^ wrong_bit;
        self.act(|fus, out| maker::show16(code, fus, out));
        let n = self.chance.below(10) as u16;
        self.walk(n);
        let erase = self.chance.one_in(6);
        self.program(erase);
        if self.chance.one_in(2) {
            self.program(true);
        }
    }

    /// Shows the key, walks on, writes in EC and erases the zone, not always all
    /// of it.
    fn show_key(&mut self) {
        self.fus = self.chance.one_in(6);
        self.go_to(1200);
        let wrong_bit = if self.chance.one_in(5) {
            1 << self.chance.below(32)
        } else {
            0
        };
        let key = self.key() ^ wrong_bit;
        self.act(|fus, out| maker::show32(key, fus, out));
        let n = self.chance.pick(&[0, 0, 0, 1, 2, 8, 40, 127, 128]);
        if self.chance.one_in(2) {
            self.walk(n);
        }
        if !self.chance.one_in(4) {
            self.program(false);
        }
        if self.chance.one_in(4) {
            self.fus = !self.fus;
        }
        if self.chance.one_in(6) {
            self.walk(1);
        }
        self.program(true);
    }

    /// Opens the card if it isn't, so that what follows has SV.
    pub fn opened(&mut self) {
        if !self.card.volatile.sv {
            let (code, attempts) = (self.code(), self.card.memory[12]);
            self.act(|fus, out| maker::open(code, attempts, fus, out));
        }
    }

    /// All that a zone erase needs, done rightly.
    fn erase_zone(&mut self) {
        self.fus = false;
        self.opened();
        self.go_to(1200);
        let key = self.key();
        self.act(|fus, out| maker::show32(key, fus, out));
        if self.card.fuses & fuses::EC_EN != 0 {
            let counter = &self.card.memory[154..170];
            let first = (0..128).find(|&bit| counter[bit / 8] & 128 >> (bit % 8) != 0);
            self.walk(first.unwrap_or(0) as u16);
            self.program(false);
        }
        self.program(true);
    }

    /// What an issuer does at the end: a block, then a fuse.
    fn issue(&mut self) {
        self.fus = true;
        self.opened();
        let address = 1392 + self.chance.below(16) as u16;
        self.go_to(address);
        let d = self.chance.one_in(2);
        self.program(d);
        let address = self.chance.pick(&[1408, 1423, 1481, 1504, 1519]);
        self.go_to(address);
        self.act(maker::blow);
    }

    fn block(&mut self) {
        self.fus = !self.chance.one_in(5);
        let address = 1391 + self.chance.below(18) as u16;
        self.go_to(address);
        let d = self.chance.one_in(2);
        self.program(d);
    }

    fn blow(&mut self) {
        let first = self.chance.pick(&[1407, 1480, 1503, 1481, 1408, 1504]);
        let address = first + self.chance.pick(&[0, 0, 0, 1, 2, 15]);
        self.go_to(address);
        let erase = self.chance.one_in(8);
        if erase {
            self.set(RST, true);
            self.set(PGM, true);
            self.set(CLK, true);
            self.settle();
        } else {
            self.act(maker::blow);
        }
    }

    /// VCC falls while programming is under way.
    fn cut_in_programming(&mut self) {
        self.settle();
        self.set(PGM, true);
        let d = self.chance.one_in(2);
        self.set(IO, d);
        self.set(CLK, true);
        if self.chance.one_in(2) {
            self.set(PGM, false);
        }
        self.set(VCC, false);
    }

    fn stray(&mut self) {
        for _ in 0..self.chance.within(1, 20) {
            let step = any_step(self.chance, self.lines());
            self.put(step);
        }
    }

    fn do_something(&mut self) {
        match self
            .chance
            .weighted(&[4, 1, 3, 5, 6, 6, 3, 2, 3, 3, 3, 1, 1, 2, 3, 3, 2])
        {
            0 => self.open(true),
            1 => self.open(false),
            2 => self.show_code(),
            3 => self.show_key(),
            4 => {
                let address = any_address(self.chance);
                self.go_to(address);
                let d = self.chance.one_in(2);
                self.program(d);
            }
            5 => {
                let d = self.chance.one_in(2);
                self.program(d);
            }
            6 => {
                self.fus = !self.fus;
                self.settle();
            }
            7 => self.block(),
            8 => self.blow(),
            9 => {
                let n = self.chance.within(1, 64) as u16;
                self.walk(n);
            }
            10 => self.stray(),
            11 => self.cut_in_programming(),
            12 => self.set(VCC, false),
            13 => self.act(maker::reset),
            14 => self.erase_zone(),
            15 => self.issue(),
            _ => {
                for _ in 0..self.chance.within(1, 12) {
                    self.walk(1);
                    let d = self.chance.one_in(6);
                    self.program(d);
                }
            }
        }
    }
}

fn damage(chance: &mut Chance, steps: &mut Vec<u8>) {
    for _ in 0..chance.within(1, 3) {
        if steps.is_empty() {
            return;
        }
        let at = chance.below(steps.len());
        match chance.below(5) {
            0 => steps[at] = chance.byte(),
            1 => {
                steps.remove(at);
            }
            2 => steps.insert(at, steps[at]),
            3 => steps[at] ^= 1 << chance.below(8),
            _ => {
                let end = (at + chance.within(1, 30)).min(steps.len());
                steps.drain(at..end);
            }
        }
    }
}

/// What a reader does with a card, from power up or from any sound state.
pub fn reader(chance: &mut Chance, from_fresh: bool, most: usize) -> Case {
    let memory = any_memory(chance);
    let fuses = any_fuses(chance);
    let mut card = Card::new(memory, fuses);
    if !from_fresh {
        card.volatile = any_sound(chance);
    }
    let start = of_model(card.volatile);
    let fus = chance.one_in(2);
    let acts = chance.within(1, 12);
    let way = if from_fresh { LAST_ADDRESS } else { 110 };
    let mut reader = Reader {
        chance,
        card,
        fus,
        steps: vec![],
        most,
        way,
    };
    for _ in 0..acts {
        reader.do_something();
    }
    let mut steps = reader.steps;
    if chance.one_in(4) {
        damage(chance, &mut steps);
    }
    Case {
        memory: memory.to_vec(),
        fuses,
        start,
        steps,
    }
}
