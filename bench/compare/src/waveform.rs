//! Waveforms: a card to start from and the steps that it is given.

use crate::chance::Chance;
use crate::words::{of_model, Words};
use crate::zones;
use model::fuses::{EC_EN, ISS};
use model::lines::{self, CLK, PGM, VCC};
use model::{Card, Volatile, BYTES, LAST_ADDRESS};

/// A card and the steps that it is given, refused ones among them.
#[derive(Clone)]
pub struct Case {
    pub memory: Vec<u8>,
    pub fuses: u8,
    pub start: Words,
    pub steps: Vec<u8>,
}

/// Addresses with a rule of their own, and those where a zone starts or ends.
pub const EDGES: [u16; 43] = [
    0, 15, 16, 79, 80, 81, 95, 96, 97, 102, 103, 104, 111, 112, 175, 176, 177, 178, 191, 1199,
    1200, 1201, 1231, 1232, 1233, 1247, 1248, 1359, 1360, 1375, 1376, 1391, 1392, 1407, 1408, 1423,
    1424, 1480, 1481, 1482, 1503, 1504, 1519,
];

pub fn any_address(chance: &mut Chance) -> u16 {
    match chance.below(4) {
        0 => chance.below(usize::from(LAST_ADDRESS) + 1) as u16,
        1 => 1200 + chance.below(200) as u16,
        _ => chance.pick(&EDGES),
    }
}

pub fn any_memory(chance: &mut Chance) -> [u8; BYTES] {
    let mut memory = [255; BYTES];
    match chance.below(4) {
        0 => {}
        1 => memory.fill_with(|| chance.byte()),
        2 => memory.fill_with(|| chance.byte() | chance.byte() | chance.byte()),
        _ => memory.fill_with(|| chance.pick(&[0, 255])),
    }
    if chance.one_in(2) {
        for byte in [10, 11, 150, 151, 152, 153] {
            memory[byte] = chance.byte();
        }
    }
    if chance.one_in(2) {
        memory[12] = (255u16 >> chance.below(9)) as u8;
        memory[22] = chance.byte();
    }
    memory
}

pub fn any_fuses(chance: &mut Chance) -> u8 {
    if chance.one_in(2) {
        chance.pick(&[7, 5])
    } else {
        chance.byte() & 7
    }
}

/// Fuses on the brink: in MFZ often MF alone bars, which chance seldom comes to.
fn fuses_at(chance: &mut Chance, address: u16) -> u8 {
    match zones::zone_of(address) {
        zones::MFZ if chance.one_in(2) => chance.pick(&[ISS, ISS | EC_EN]),
        _ => any_fuses(chance),
    }
}

/// A state that 9 lets pass.
pub fn any_sound(chance: &mut Chance) -> Volatile {
    let lines = chance.byte() & lines::ALL | if chance.one_in(10) { 0 } else { VCC };
    if lines & VCC == 0 {
        return Volatile {
            lines,
            ..Volatile::default()
        };
    }
    let address = any_address(chance);
    sound_at(chance, address, lines)
}

/// A state with VCC that 9 lets pass, at that address and with those lines.
fn sound_at(chance: &mut Chance, address: u16, lines: u8) -> Volatile {
    let clk = lines & CLK != 0;
    let mut any = |possible: bool| possible && chance.one_in(2);
    Volatile {
        lines,
        address,
        sv: any(true),
        p1: any(true),
        r1: any(true),
        e1: any(matches!(address, 1232..=1519)),
        matched: any(matches!(address, 81..=103 | 1201..=1359)),
        latch: any(clk),
        programming: clk && lines & PGM != 0 || any(clk),
    }
}

/// A state with a clause of 9 broken, or any words at all.
pub fn made_up(chance: &mut Chance) -> Words {
    let mut volatile = any_sound(chance);
    let broken = chance.below(10);
    match broken {
        2 => {
            volatile.lines &= !VCC;
            if chance.one_in(2) {
                volatile = Volatile {
                    lines: volatile.lines,
                    ..Volatile::default()
                };
                match chance.below(4) {
                    0 => volatile.sv = true,
                    1 => volatile.p1 = true,
                    2 => volatile.r1 = true,
                    _ => volatile.address = any_address(chance),
                }
            }
        }
        3 => {
            volatile.lines &= !CLK;
            volatile.latch = true;
            volatile.programming = false;
        }
        4 => {
            volatile.lines &= !CLK;
            volatile.latch = false;
            volatile.programming = true;
        }
        5 => {
            volatile.lines |= VCC | CLK | PGM;
            volatile.programming = false;
        }
        6 => volatile.matched = true,
        7 => volatile.e1 = true,
        _ => {}
    }
    let mut words = of_model(volatile);
    // A word just over its bound, or far over it: one that wraps round in a
    // narrower type must not pass.
    let over = |chance: &mut Chance, bound: u32| match chance.below(4) {
        0 => bound,
        1 => bound + chance.below(200) as u32,
        2 => (chance.word() & 0xffff_0000 | 0x1_0000) + chance.below(bound as usize) as u32,
        _ => chance.word() | bound.next_power_of_two() | 0x8000_0000,
    };
    match broken {
        0 => words.lines = over(chance, 64) | words.lines & 63,
        1 => words.address = over(chance, 1520),
        8 => words.flags |= 128 << chance.below(25),
        9 => {
            words = Words {
                lines: chance.word() >> chance.below(32),
                address: chance.word() >> chance.below(32),
                flags: chance.word() >> chance.below(32),
            };
        }
        _ => {}
    }
    words
}

/// A step from those lines: mostly one line turned over, sometimes damaged.
pub fn any_step(chance: &mut Chance, lines: u8) -> u8 {
    match chance.below(40) {
        0 => {
            let any = chance.byte();
            chance.pick(&[any, any, lines ^ 63, lines ^ 192])
        }
        1 => lines,
        2 => lines ^ 1 << chance.below(6) ^ 1 << chance.below(6),
        3 => lines ^ 64 << chance.below(2) ^ 1 << chance.below(6),
        _ => {
            let vcc = if lines & VCC == 0 { 40 } else { 1 };
            lines ^ 1 << chance.weighted(&[vcc, 5, 45, 18, 16, 8])
        }
    }
}

/// Chance steps from any sound state.
pub fn chance_steps(chance: &mut Chance) -> Case {
    let memory = any_memory(chance);
    let fuses = any_fuses(chance);
    let mut card = Card::new(memory, fuses);
    card.volatile = any_sound(chance);
    let start = of_model(card.volatile);
    let count = chance.within(1, 60);
    let steps = (0..count).map(|_| {
        let step = any_step(chance, card.volatile.lines);
        let _ = card.step(step);
        step
    });
    Case {
        memory: memory.to_vec(),
        fuses,
        start,
        steps: steps.collect(),
    }
}

/// CLK's fall from any sound state, where most of what a step can do is done, or
/// VCC's.
pub fn brink(chance: &mut Chance) -> Case {
    let zone = chance.weighted(&[1, 1, 4, 12, 1, 2, 8, 8, 1, 4, 2, 2, 1, 2, 1, 2]);
    let (first, last) = zones::ends(zone);
    let address = match chance.below(5) {
        0 => first,
        1 => last,
        2 => chance.pick(&EDGES),
        _ => chance.within(first.into(), last.into()) as u16,
    };
    let line = if chance.one_in(20) { VCC } else { CLK };
    let mut lines = chance.byte() & lines::ALL | VCC | CLK;
    if line == CLK {
        lines &= !PGM;
    }
    let mut start = sound_at(chance, address, lines);
    let compares = matches!(zones::zone_of(address), zones::SC | zones::EZ);
    start.programming |= !compares && chance.one_in(2);
    let mut steps = vec![lines ^ line];
    for _ in 0..chance.below(3) {
        let step = any_step(chance, steps[steps.len() - 1]);
        steps.push(step);
    }
    Case {
        memory: any_memory(chance).to_vec(),
        fuses: fuses_at(chance, address),
        start: of_model(start),
        steps,
    }
}

/// What is refused before any step is looked at: a made-up state, a buffer of
/// another length, a fuse byte over 7, alone or together.
pub fn refused(chance: &mut Chance) -> Case {
    let mut memory = any_memory(chance).to_vec();
    let mut fuses = any_fuses(chance);
    let mut start = of_model(any_sound(chance));
    let which = chance.within(1, 7);
    if which & 1 != 0 {
        start = made_up(chance);
    }
    if which & 2 != 0 {
        let any = chance.byte() | 8;
        fuses = chance.pick(&[8, 9, 15, 16, 128, 255, any]);
    }
    if which & 4 != 0 {
        let length = chance.pick(&[0, 1, 12, 13, 22, 150, 170, 173, 175, 176, 348, 430]);
        memory.resize(length, 165);
    }
    let lines = start.lines as u8;
    let steps = (0..chance.within(1, 3)).map(|_| any_step(chance, lines));
    let steps = steps.collect();
    Case {
        memory,
        fuses,
        start,
        steps,
    }
}

/// About as many steps as a run may have.
pub fn long(chance: &mut Chance) -> Case {
    let memory = any_memory(chance);
    let start = of_model(any_sound(chance));
    let count = chance.pick(&[4095, 4096, 4096, 4097]);
    let steps = if start.lines & 9 == 1 && chance.one_in(2) {
        (0..count)
            .map(|i| start.lines as u8 ^ if i % 2 == 0 { CLK } else { 0 })
            .collect()
    } else {
        vec![start.lines as u8; count]
    };
    Case {
        memory: memory.to_vec(),
        fuses: any_fuses(chance),
        start,
        steps,
    }
}
