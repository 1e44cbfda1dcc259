//! The reason through the safe function, and the version.

use zhavdurgon::line::{CLK, FUS, IO, PGM, RST, VCC};
use zhavdurgon::{reason, refusal, step, version, Reason, Volatile, VERSION};

const HEADER: &str = include_str!("../../../include/zhavdurgon.h");

/// A write under way, PGM low already.
fn write(lines: u8, address: u32, flags: u32) -> Volatile {
    Volatile {
        lines: (VCC | CLK | lines).into(),
        address,
        flags: flags | Volatile::PROGRAMMING,
    }
}

/// A state for each reason, with its fuse byte.
fn states() -> [(u8, Volatile, Reason); 11] {
    const SV: u32 = Volatile::SV;
    let idle = Volatile {
        lines: (VCC | IO).into(),
        ..Volatile::default()
    };
    [
        (7, write(0, 100, 0), Reason::RightIsThere),
        (7, idle, Reason::NoProgramming),
        (7, write(RST | FUS, 1450, SV), Reason::NothingStored),
        (7, write(RST, 100, SV), Reason::WrongRst),
        (7, write(FUS, 5, SV), Reason::NeverAllowed),
        (7, write(0, 150, 0), Reason::SvMissing),
        (7, write(0, 178, SV), Reason::P1Missing),
        (7, write(0, 1240, SV | Volatile::LATCH), Reason::E1Missing),
        (6, write(FUS, 1380, SV), Reason::MfBlown),
        (3, write(RST, 1510, SV), Reason::IssBlown),
        (7, write(RST, 1481, 0), Reason::FusLow),
    ]
}

#[test]
fn the_version_is_the_headers() {
    assert_eq!(version(), VERSION);
    let number = |name: &str| {
        let (_, rest) = HEADER.split_once(&format!("#define {name} ")).unwrap();
        rest.lines().next().unwrap().parse::<u32>().unwrap()
    };
    let [major, minor, patch] = ["MAJOR", "MINOR", "PATCH"].map(|part| {
        let name = format!("ZHAV_VERSION_{part}");
        number(&name)
    });
    assert_eq!(VERSION, major * 10_000 + minor * 100 + patch);
    assert_eq!(
        env!("CARGO_PKG_VERSION"),
        format!("{major}.{minor}.{patch}")
    );
}

#[test]
fn each_reason_in_one_state() {
    for ((number, why), (fuses, state, expected)) in (0..).zip(Reason::ALL).zip(states()) {
        assert_eq!((why, why.number()), (expected, number));
        assert_eq!(reason(&[255; 174], fuses, state), Ok(why), "{state:?}");
        let high = Volatile {
            lines: state.lines | u32::from(PGM),
            ..state
        };
        assert_eq!(reason(&[255; 174], fuses, high), Ok(why), "{high:?}");
    }
}

/// Its words stand in the header beside its number.
#[test]
fn the_words_are_the_headers() {
    let words: Vec<_> = HEADER.split_whitespace().collect();
    let header = words.join(" ");
    for why in Reason::ALL {
        let text = format!(" = {}, /* {why} */", why.number());
        assert!(header.contains(&text), "{text}");
    }
}

#[test]
fn refused_by_10_then_14_then_9() {
    let sound = write(0, 100, 0);
    let made_up = write(0, 100, Volatile::E1);
    for (image, fuses, state, number) in [
        (&[255; 173][..], 8, made_up, refusal::MEMORY),
        (&[255; 175], 7, sound, refusal::MEMORY),
        (&[], 7, sound, refusal::MEMORY),
        (&[255; 174], 8, made_up, refusal::FUSES),
        (&[255; 174], 255, sound, refusal::FUSES),
        (&[255; 174], 7, made_up, refusal::STATE),
    ] {
        assert_eq!(reason(image, fuses, state), Err(number));
    }
}

#[test]
fn asking_changes_no_byte() {
    for (fuses, state, _) in states() {
        for byte in [0x00, 0x5a, 0xff] {
            let image = [byte; 174];
            let _ = reason(&image, fuses, state);
            assert_eq!(image, [byte; 174]);
        }
    }
}

/// Asked before CLK falls it tells what comes, asked afterwards nothing.
#[test]
fn the_write_follows_the_reason() {
    for (lines, changes) in [(0, true), (RST, false)] {
        let mut image = [255; 174];
        let state = write(lines, 100, 0);
        let why = reason(&image, 7, state).unwrap();
        assert_eq!(why == Reason::RightIsThere, changes);
        let after = step(&mut image, 7, state, state.lines as u8 & !CLK);
        assert_eq!(image != [255; 174], changes);
        let asked_late = reason(&image, after.fuses, after.volatile);
        assert_eq!(asked_late, Ok(Reason::NoProgramming));
    }
}
