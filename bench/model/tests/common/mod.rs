//! What the tests share: files, chance, a host that drives a card by the
//! maker's acts, and a plain card to compare with.

#![allow(dead_code)]

pub mod compare;
pub mod plain;

use model::{lines, maker, state_check, Card, Volatile};

/// VCC on, RST, CLK, PGM and FUS low, I/O let go.
pub const IDLE: u8 = lines::VCC | lines::IO;
/// Idle with FUS high.
pub const IDLE_FUS: u8 = IDLE | lines::FUS;

pub fn card_file(memory: &[u8; 174], fuses: u8) -> Vec<u8> {
    let mut bytes = vec![174, 0];
    bytes.extend(memory);
    bytes.extend([1, 0, fuses]);
    bytes
}

pub fn session_file(memory: &[u8; 174], fuses: u8, steps: &[u8]) -> Vec<u8> {
    let mut bytes = card_file(memory, fuses);
    bytes.extend((steps.len() as u16).to_le_bytes());
    bytes.extend(steps);
    bytes
}

/// A small generator of numbers.
pub struct Chance(u64);

impl Chance {
    pub fn new(seed: u64) -> Self {
        Self(seed.wrapping_mul(0x9e37_79b9_7f4a_7c15) | 1)
    }

    pub fn next(&mut self) -> u64 {
        self.0 ^= self.0 << 13;
        self.0 ^= self.0 >> 7;
        self.0 ^= self.0 << 17;
        self.0.wrapping_mul(0x2545_f491_4f6c_dd1d) >> 16
    }

    pub fn below(&mut self, end: usize) -> usize {
        (self.next() % end as u64) as usize
    }

    pub fn one_in(&mut self, n: usize) -> bool {
        self.below(n) == 0
    }

    pub fn byte(&mut self) -> u8 {
        self.next() as u8
    }

    pub fn pick<T: Copy>(&mut self, choices: &[T]) -> T {
        choices[self.below(choices.len())]
    }
}

/// Addresses on both sides of everything that happens at one.
pub const EDGES: [u16; 58] = [
    0, 1, 15, 16, 79, 80, 81, 82, 94, 95, 96, 97, 102, 103, 104, 105, 111, 112, 175, 176, 177, 178,
    179, 191, 192, 1199, 1200, 1201, 1202, 1215, 1216, 1217, 1230, 1231, 1232, 1233, 1247, 1248,
    1358, 1359, 1360, 1361, 1375, 1376, 1391, 1392, 1393, 1407, 1408, 1423, 1424, 1480, 1481, 1482,
    1503, 1504, 1518, 1519,
];

pub fn random_address(chance: &mut Chance) -> u16 {
    if chance.one_in(4) {
        chance.below(1520) as u16
    } else {
        chance.pick(&EDGES)
    }
}

/// A random state, made up or not.
pub fn random_volatile(chance: &mut Chance) -> Volatile {
    let bits = chance.next();
    let bit = |n: u32| bits >> n & 1 == 1;
    Volatile {
        lines: chance.byte() & lines::ALL | if bit(10) { lines::VCC } else { 0 },
        address: random_address(chance),
        sv: bit(0),
        p1: bit(1),
        r1: bit(2),
        e1: bit(3),
        matched: bit(4),
        latch: bit(5),
        programming: bit(6) || bit(7),
    }
}

/// A random state that 9 lets pass.
pub fn random_sound(chance: &mut Chance) -> Volatile {
    loop {
        let mut volatile = random_volatile(chance);
        if volatile.lines & lines::VCC == 0 {
            volatile = Volatile {
                lines: volatile.lines,
                ..Volatile::default()
            };
        }
        if volatile.lines & lines::CLK == 0 {
            volatile.latch = false;
            volatile.programming = false;
        }
        if state_check(volatile) {
            return volatile;
        }
    }
}

pub fn random_memory(chance: &mut Chance) -> [u8; 174] {
    let kind = chance.below(4);
    std::array::from_fn(|_| match kind {
        0 => 0,
        1 => 255,
        _ => chance.byte(),
    })
}

/// A step: mostly a flip of one line, at times none, several or over 63.
pub fn random_step(chance: &mut Chance, lines: u8) -> u8 {
    match chance.below(40) {
        0 => chance.byte(),
        1 => lines,
        2 => lines ^ lines::VCC,
        3 | 4 => lines ^ lines::RST,
        5 | 6 => lines ^ lines::FUS,
        7..=12 => lines ^ lines::PGM,
        13..=20 => lines ^ lines::IO,
        _ => lines ^ lines::CLK,
    }
}

pub fn bit(memory: &[u8], address: u16) -> u8 {
    memory[usize::from(address / 8)] >> (7 - address % 8) & 1
}

pub fn set_bit(memory: &mut [u8], address: u16, value: u8) {
    let mask = 0x80u8 >> (address % 8);
    let byte = &mut memory[usize::from(address / 8)];
    *byte = if value == 1 {
        *byte | mask
    } else {
        *byte & !mask
    };
}

/// A card on an idle host.
pub struct Host {
    pub card: Card,
    pub fus: bool,
}

impl Host {
    /// Powers a fresh card up.
    pub fn new(memory: [u8; 174], fuses: u8, fus: bool) -> Self {
        let mut card = Card::new(memory, fuses);
        let idle = if fus { IDLE_FUS } else { IDLE };
        for step in [lines::IO, idle & !lines::VCC, idle] {
            card.step(step).unwrap();
        }
        Self { card, fus }
    }

    /// An idle card at that address, its flags as given.
    pub fn at(address: u16, fus: bool, memory: [u8; 174], fuses: u8, flags: Volatile) -> Self {
        let mut host = Self::new(memory, fuses, fus);
        let lines = host.card.volatile.lines;
        host.card.volatile = Volatile {
            lines,
            address,
            ..flags
        };
        assert!(state_check(host.card.volatile));
        host
    }

    /// Carries an act out and gives its answers.
    pub fn act(&mut self, make: impl Fn(bool, &mut [u8]) -> Result<usize, u8>) -> Vec<u8> {
        let mut steps = [0; 4096];
        let count = make(self.fus, &mut steps).unwrap();
        let mut answers = vec![9; count];
        let result = self.card.run(&steps[..count], &mut answers);
        assert_eq!((result.done, result.refusal), (count, 0));
        answers
    }

    pub fn walk(&mut self, n: u16) -> Vec<u8> {
        self.act(|fus, steps| maker::walk(n, fus, steps))
    }

    pub fn reset(&mut self) -> Vec<u8> {
        self.act(maker::reset)
    }

    pub fn go(&mut self, address: u16) {
        self.reset();
        self.walk(address);
        assert_eq!(self.card.volatile.address, address);
    }

    pub fn show16(&mut self, code: u16) {
        self.act(|fus, steps| maker::show16(code, fus, steps));
    }

    pub fn show32(&mut self, key: u32) {
        self.act(|fus, steps| maker::show32(key, fus, steps));
    }

    pub fn write(&mut self) -> u8 {
        *self
            .act(|fus, steps| maker::program(false, fus, steps))
            .last()
            .unwrap()
    }

    pub fn erase(&mut self) -> u8 {
        *self
            .act(|fus, steps| maker::program(true, fus, steps))
            .last()
            .unwrap()
    }

    pub fn blow(&mut self) {
        self.act(maker::blow);
    }

    pub fn open(&mut self, code: u16) {
        let attempts = self.card.memory[12];
        self.act(|fus, steps| maker::open(code, attempts, fus, steps));
    }

    pub fn set_fus(&mut self, fus: bool) {
        self.fus = fus;
        self.card.step(if fus { IDLE_FUS } else { IDLE }).unwrap();
    }

    pub fn bit(&self, address: u16) -> u8 {
        bit(&self.card.memory, address)
    }
}
