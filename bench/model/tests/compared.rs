//! The card agrees with the plain one.

mod common;

use common::compare::{same_act, same_file, same_reason, same_run, same_step};
use common::plain::{sound, Plain};
use common::Chance;
use model::{step, Volatile};

fn all(seed: u64, times: u32, same: fn(&mut Chance) -> bool) {
    let mut chance = Chance::new(seed);
    for time in 0..times {
        assert!(same(&mut chance), "time {time}");
    }
}

#[test]
fn steps() {
    all(1, 400_000, same_step);
}

#[test]
fn runs() {
    all(2, 4_000, same_run);
}

#[test]
fn acts() {
    all(3, 20_000, same_act);
}

#[test]
fn files() {
    all(4, 2_000, same_file);
}

#[test]
fn reasons() {
    all(5, 200_000, same_reason);
}

/// CLK's fall at every address, under all flags, with and without programming.
#[test]
fn every_fall_of_clk() {
    for (memory, fuses) in [([0x00; 174], 7), ([0xFF; 174], 5), ([0x96; 174], 3)] {
        for address in 0..1520 {
            for bits in 0..512u32 {
                let bit = |n: u32| bits >> n & 1 == 1;
                let volatile = Volatile {
                    lines: 5 | if bit(7) { 2 } else { 0 } | if bit(8) { 32 } else { 0 },
                    address,
                    sv: bit(0),
                    p1: bit(1),
                    r1: bit(2),
                    e1: bit(3),
                    matched: bit(4),
                    latch: bit(5),
                    programming: bit(6),
                };
                if !sound(volatile) {
                    continue;
                }
                let next = volatile.lines - 4;
                let mut plain = Plain::new(&memory, fuses, volatile);
                let expected = plain.step(next);
                let mut after = memory;
                let result = step(&mut after, fuses, volatile, next);
                assert_eq!(
                    (result.answer, result.fuses, result.volatile),
                    (expected, plain.fuses, plain.v)
                );
                assert!(after[..] == plain.memory(), "{volatile:?}");
            }
        }
    }
}
