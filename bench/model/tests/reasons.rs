//! Each reason why CLK's fall would change nothing, both sides of each border,
//! and every reason held against what the steps do.

mod common;

use common::{IDLE, IDLE_FUS};
use model::fuses::{EC_EN, ISS, MF};
use model::lines::{CLK, FUS, IO, PGM, RST, VCC};
use model::reason::{
    FUS_LOW, ISS_BLOWN, MF_BLOWN, NEVER, NO_E1, NO_P1, NO_PROGRAMMING, NO_SV, RIGHT, RST_LEVEL,
    STORES_NOTHING,
};
use model::{reason, state_check, step, Volatile};

const L1: u8 = IDLE_FUS + CLK;
const L2: u8 = IDLE + CLK;
const BLOW: u8 = L2 + RST;
const BLOW_FUS: u8 = L1 + RST;

/// A write under way, without any flag.
fn write(lines: u8, address: u16) -> Volatile {
    Volatile {
        lines,
        address,
        programming: true,
        ..Volatile::default()
    }
}

fn erase(lines: u8, address: u16) -> Volatile {
    Volatile {
        latch: true,
        ..write(lines, address)
    }
}

fn sv(volatile: Volatile) -> Volatile {
    Volatile {
        sv: true,
        ..volatile
    }
}

fn p1(volatile: Volatile) -> Volatile {
    Volatile {
        p1: true,
        ..volatile
    }
}

fn e1(volatile: Volatile) -> Volatile {
    Volatile {
        e1: true,
        ..volatile
    }
}

/// The reason, on any image.
fn why(fuses: u8, volatile: Volatile) -> u8 {
    let on = [0x00, 0xFF, 0x5A].map(|byte| reason(&[byte; 174], fuses, volatile).unwrap());
    assert!(on[0] == on[1] && on[0] == on[2], "{volatile:?}");
    on[0]
}

#[test]
fn the_numbers() {
    let all = [
        RIGHT,
        NO_PROGRAMMING,
        STORES_NOTHING,
        RST_LEVEL,
        NEVER,
        NO_SV,
        NO_P1,
        NO_E1,
        MF_BLOWN,
        ISS_BLOWN,
        FUS_LOW,
    ];
    assert_eq!(all, [0, 1, 2, 3, 4, 5, 6, 7, 8, 9, 10]);
}

#[test]
fn one_state_for_each() {
    let no_programming = Volatile {
        programming: false,
        ..sv(write(L1, 100))
    };
    assert_eq!(why(7, no_programming), 1);
    assert_eq!(why(7, Volatile::default()), 1);
    assert_eq!(why(7, sv(write(BLOW_FUS, 1450))), 2);
    assert_eq!(why(7, sv(write(BLOW, 100))), 3);
    assert_eq!(why(7, sv(write(L1, 5))), 4);
    assert_eq!(why(7, write(L2, 150)), 5);
    assert_eq!(why(7, sv(write(L2, 178))), 6);
    assert_eq!(why(7, sv(erase(L2, 1240))), 7);
    assert_eq!(why(6, sv(write(L1, 1380))), 8);
    assert_eq!(why(3, sv(write(BLOW, 1510))), 9);
    assert_eq!(why(7, write(BLOW, 1481)), 10);
    assert_eq!(why(7, sv(write(L1, 1380))), 0);
}

/// The first that holds, where several do.
#[test]
fn the_order() {
    let idle = |address| Volatile {
        lines: IDLE,
        address,
        ..Volatile::default()
    };
    for address in 0..1520 {
        assert_eq!(why(0, idle(address)), 1);
    }
    assert_eq!(why(0, erase(L2, 1450)), 2);
    assert_eq!(why(0, erase(BLOW, 1450)), 2);
    assert_eq!(why(0, erase(BLOW, 5)), 3);
    assert_eq!(why(0, erase(L2, 1410)), 3);
    assert_eq!(why(0, erase(BLOW, 1410)), 4);
    assert_eq!(why(0, erase(L2, 1380)), 4);
    assert_eq!(why(0, write(L2, 178)), 5);
    assert_eq!(why(0, p1(write(L2, 178))), 5);
    assert_eq!(why(0, erase(L2, 1232)), 5);
    assert_eq!(why(0, e1(erase(L2, 1232))), 5);
    assert_eq!(why(ISS, write(L1, 1380)), 5);
    assert_eq!(why(0, write(L2, 1400)), 5);
    assert_eq!(why(0, sv(write(L2, 1400))), 9);
    assert_eq!(why(0, sv(write(L1, 1400))), 9);
    assert_eq!(why(ISS, sv(write(L2, 1400))), 10);
    assert_eq!(why(ISS, sv(write(L1, 1400))), 0);
    assert_eq!(why(0, write(BLOW, 1481)), 9);
    assert_eq!(why(0, write(BLOW_FUS, 1481)), 9);
    assert_eq!(why(0, write(BLOW, 1408)), 5);
}

#[test]
fn the_erase_in_ec() {
    let open = |lines, address| e1(sv(erase(lines, address)));
    for fuses in 0..8 {
        let past = if fuses & EC_EN == 0 { 4 } else { 0 };
        for (address, expected) in [(1232, 0), (1233, past), (1247, past), (1359, past)] {
            assert_eq!(why(fuses, open(L2, address)), expected);
            let level_2 = fuses & ISS == 0;
            let at_high_fus = if level_2 { expected } else { 0 };
            assert_eq!(why(fuses, open(L1, address)), at_high_fus);
            let never = |other| if expected == 4 { 4 } else { other };
            assert_eq!(why(fuses, erase(L2, address)), never(5));
            assert_eq!(why(fuses, sv(erase(L2, address))), never(7));
            assert_eq!(why(fuses, write(L2, address)), 0);
        }
        assert_eq!(why(fuses, sv(erase(L2, 1231))), 4);
        assert_eq!(why(fuses, erase(L2, 1360)), 0);
    }
}

/// What there is at the borders above memory, with RST low and high.
#[test]
fn the_borders_above_memory() {
    let expected = [
        (1391, [(0, 3), (0, 3)]),
        (1392, [(0, 3), (0, 3)]),
        (1407, [(0, 3), (0, 3)]),
        (1408, [(3, 0), (3, 4)]),
        (1423, [(3, 0), (3, 4)]),
        (1424, [(2, 2), (2, 2)]),
        (1480, [(2, 2), (2, 2)]),
        (1481, [(3, 0), (3, 4)]),
        (1482, [(2, 2), (2, 2)]),
        (1503, [(2, 2), (2, 2)]),
        (1504, [(3, 0), (3, 4)]),
        (1519, [(3, 0), (3, 4)]),
    ];
    for (address, [writes, erases]) in expected {
        let both = |operation: fn(u8, u16) -> Volatile| {
            let low = why(7, sv(operation(L1, address)));
            (low, why(7, sv(operation(BLOW_FUS, address))))
        };
        assert_eq!(both(write), writes, "write at {address}");
        assert_eq!(both(erase), erases, "erase at {address}");
    }
}

/// Both sides of each zone's ends, at both levels, without a flag and with SV.
#[test]
fn the_borders_in_memory() {
    // Of a write and of an erase: L1, L1 with SV, L2, L2 with SV.
    let expected = [
        (0, 15, [4, 4, 4, 4], [4, 4, 4, 4]),
        (16, 79, [5, 0, 4, 4], [5, 0, 4, 4]),
        (80, 95, [5, 0, 5, 0], [5, 0, 5, 0]),
        (96, 111, [0, 0, 0, 0], [5, 0, 5, 0]),
        (112, 175, [5, 0, 5, 0], [5, 0, 5, 0]),
        (176, 1199, [5, 0, 5, 6], [5, 0, 4, 4]),
        (1200, 1231, [5, 0, 4, 4], [5, 0, 4, 4]),
        (1232, 1359, [0, 0, 0, 0], [5, 0, 5, 7]),
        (1360, 1375, [0, 0, 0, 0], [0, 0, 0, 0]),
        (1376, 1391, [5, 0, 4, 4], [5, 0, 4, 4]),
        (1392, 1407, [5, 0, 5, 10], [5, 0, 5, 10]),
    ];
    for (first, last, writes, erases) in expected {
        for address in [first, last] {
            let four = |operation: fn(u8, u16) -> Volatile| {
                let (l1, l2) = (operation(L1, address), operation(L2, address));
                [l1, sv(l1), l2, sv(l2)].map(|volatile| why(7, volatile))
            };
            assert_eq!(four(write), writes, "write at {address}");
            assert_eq!(four(erase), erases, "erase at {address}");
        }
    }
}

/// PGM is taken as low already; the wire and the other flags don't matter.
#[test]
fn what_does_not_matter() {
    for address in 0..1520 {
        for operation in [write, erase] {
            for lines in [L1, L2, BLOW, BLOW_FUS] {
                let volatile = operation(lines, address);
                let expected = why(7, volatile);
                let other = |lines| Volatile { lines, ..volatile };
                assert_eq!(why(7, other(lines | PGM)), expected);
                assert_eq!(why(7, other(lines ^ IO)), expected);
                let r1 = Volatile {
                    r1: true,
                    matched: matches!(address, 81..=103 | 1201..=1359),
                    ..volatile
                };
                assert_eq!(why(7, r1), expected);
            }
        }
    }
}

#[test]
fn refusals() {
    let sound = sv(write(L2, 100));
    let made_up = e1(sound);
    let image = [0xFF; 174];
    for length in [0, 173, 175] {
        let image = vec![0xFF; length];
        for fuses in [7, 8, 255] {
            assert_eq!(reason(&image, fuses, sound), Err(10));
            assert_eq!(reason(&image, fuses, made_up), Err(10));
        }
    }
    for fuses in [8, 255] {
        assert_eq!(reason(&image, fuses, sound), Err(14));
        assert_eq!(reason(&image, fuses, made_up), Err(14));
    }
    assert_eq!(reason(&image, 7, made_up), Err(9));
    assert_eq!(reason(&image, 7, sound), Ok(0));
    let over = |lines, address| write(lines, address);
    assert_eq!(reason(&image, 7, over(L2, 1519)), Ok(3));
    assert_eq!(reason(&image, 7, over(L2, 1520)), Err(9));
    assert_eq!(reason(&image, 7, over(L2 | 64, 100)), Err(9));
    assert_eq!(reason(&image, 7, over(IDLE, 100)), Err(9));
    assert_eq!(reason(&image, 7, over(L2 - VCC, 0)), Err(9));
}

/// Each sound state with programming under way: every address, operation, level
/// of RST, FUS and PGM, every fuse byte and flag.
fn each_in_programming(mut test: impl FnMut(u8, Volatile)) {
    for address in 0..1520 {
        for bits in 0..1 << 11 {
            let bit = |n: u32| bits >> n & 1 == 1;
            let line = |n, line| if bit(n) { line } else { 0 };
            let volatile = Volatile {
                lines: VCC | CLK | IO | line(0, RST) | line(1, FUS) | line(2, PGM),
                address,
                sv: bit(3),
                p1: bit(4),
                r1: bit(5),
                e1: bit(6),
                latch: bit(7),
                programming: true,
                ..Volatile::default()
            };
            if state_check(volatile) {
                test((bits >> 8) as u8, volatile);
            }
        }
    }
}

/// Whether PGM lowered, if it is high, and CLK's fall change the image or the
/// fuses.
fn changes(image: [u8; 174], fuses: u8, volatile: Volatile) -> bool {
    let mut after = image;
    let mut at = (fuses, volatile);
    for line in [PGM, CLK] {
        let result = step(&mut after, at.0, at.1, at.1.lines & !line);
        assert!(result.answer.is_ok(), "{volatile:?}");
        at = (result.fuses, result.volatile);
    }
    assert!(!at.1.programming);
    after != image || at.0 != fuses
}

/// Whether it is a blow, by right, of a fuse that is blown already. ISS has no
/// such blow, as it asks for ISS.
fn second_blow(fuses: u8, volatile: Volatile) -> bool {
    let high = |line| volatile.lines & line != 0;
    let again = match volatile.address {
        1408..=1423 => fuses & MF == 0 && volatile.sv,
        1481 => fuses & EC_EN == 0 && high(FUS),
        _ => false,
    };
    again && !volatile.latch && high(RST) && fuses & ISS != 0
}

/// The right is there exactly when the operation is carried out.
#[test]
fn the_right_is_there_when_the_steps_show_it() {
    let mut states = 0u32;
    let mut given = [0u32; 11];
    each_in_programming(|fuses, volatile| {
        let images = [[0x00; 174], [0xFF; 174]];
        let [on_zeros, on_ones] = images.map(|image| {
            let reason = reason(&image, fuses, volatile).unwrap();
            (reason, changes(image, fuses, volatile))
        });
        assert_eq!(on_zeros.0, on_ones.0, "{fuses} {volatile:?}");
        let shown = on_zeros.1 || on_ones.1;
        let carried_out = shown || second_blow(fuses, volatile);
        let reason = on_zeros.0;
        assert_eq!(
            reason == RIGHT,
            carried_out,
            "{reason} {fuses} {volatile:?}"
        );
        states += 1;
        given[usize::from(reason)] += 1;
    });
    assert_eq!(states, (1232 + 2 * 288) * 1024);
    for (number, count) in given.into_iter().enumerate() {
        assert_eq!(count == 0, number == 1, "reason {number}");
    }
}

/// The thing of one of the last six reasons granted alone.
fn granted(number: u8, fuses: u8, volatile: Volatile) -> (u8, Volatile) {
    let high = Volatile {
        lines: volatile.lines | FUS,
        ..volatile
    };
    match number {
        NO_SV => (fuses, sv(volatile)),
        NO_P1 => (fuses, p1(volatile)),
        NO_E1 => (fuses, e1(volatile)),
        MF_BLOWN => (fuses | MF, volatile),
        ISS_BLOWN => (fuses | ISS, volatile),
        _ => (fuses, high),
    }
}

/// A thing granted was missing before, and brings a later reason or the right.
#[test]
fn a_thing_granted_brings_a_later_reason_or_the_right() {
    let image = [0x5A; 174];
    each_in_programming(|fuses, volatile| {
        let before = reason(&image, fuses, volatile).unwrap();
        if before < NO_SV {
            return;
        }
        let (fuses_after, with) = granted(before, fuses, volatile);
        assert_ne!((fuses_after, with), (fuses, volatile));
        let after = reason(&image, fuses_after, with).unwrap();
        let later = after == RIGHT || after > before;
        assert!(later, "{before} then {after}: {fuses} {volatile:?}");
    });
}

/// Without programming CLK's fall changes neither image nor fuses.
#[test]
fn no_programming_changes_nothing() {
    for address in 0..1520 {
        for bits in 0..1 << 10 {
            let bit = |n: u32| bits >> n & 1 == 1;
            let volatile = Volatile {
                lines: bits as u8 & 63,
                address,
                sv: bit(6),
                p1: bit(7),
                e1: bit(8),
                latch: bit(9),
                ..Volatile::default()
            };
            if !state_check(volatile) {
                continue;
            }
            assert_eq!(why(7, volatile), NO_PROGRAMMING, "{volatile:?}");
            for image in [[0x00; 174], [0xFF; 174]] {
                let mut after = image;
                let result = step(&mut after, 7, volatile, volatile.lines & !CLK);
                assert_eq!((after, result.fuses), (image, 7), "{volatile:?}");
            }
        }
    }
}
