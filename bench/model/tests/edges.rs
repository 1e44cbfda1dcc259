//! Case S, both sides of each edge, and the rules that are easily got wrong.

mod common;

use common::{bit, session_file, set_bit, Host, IDLE, IDLE_FUS};
use model::{maker, session, state_check, tries_left, Card, Flags, Volatile};

const CODE: u16 = 0xA51C;
const KEY: u32 = 0x9C31_77E2;

/// All ones but for the code and the key.
fn memory() -> [u8; 174] {
    let mut memory = [255; 174];
    memory[10..12].copy_from_slice(&CODE.to_be_bytes());
    memory[150..154].copy_from_slice(&KEY.to_be_bytes());
    memory
}

fn with(set: impl Fn(&mut Volatile)) -> Volatile {
    let mut volatile = Volatile::default();
    set(&mut volatile);
    volatile
}

fn sv() -> Volatile {
    with(|v| v.sv = true)
}

fn matched() -> Volatile {
    with(|v| v.matched = true)
}

#[test]
fn case_s() {
    let mut memory = [255; 174];
    memory[0] = 127;
    let file = session_file(&memory, 7, &[16, 48, 49, 53, 49, 51, 49, 55]);
    let text = "done 7 of 8\nrefused 2\n1100110\nleft 8\n";
    assert_eq!(String::from_utf8(session(&file)).unwrap(), text);
}

#[test]
fn a_session_without_steps_or_refusal() {
    let empty = session(&session_file(&[255; 174], 0, &[]));
    assert_eq!(empty, b"done 0 of 0\nrefused 0\n\nleft 8\n");
    let mut memory = [255; 174];
    memory[12] = 0x10;
    let one = session(&session_file(&memory, 0, &[1]));
    assert_eq!(one, b"done 1 of 1\nrefused 0\n1\nleft 1\n");
    assert_eq!(session(&[]), b"bad 11\n");
}

#[test]
fn the_tries_left_are_those_after_the_run() {
    let mut steps = vec![16, 17];
    let mut buffer = [0; 300];
    let count = maker::walk(96, false, &mut buffer).unwrap();
    steps.extend(&buffer[..count]);
    let count = maker::program(false, false, &mut buffer).unwrap();
    steps.extend(&buffer[..count]);
    let text = String::from_utf8(session(&session_file(&[255; 174], 7, &steps))).unwrap();
    assert!(text.starts_with("done 200 of 200\nrefused 0\n"), "{text}");
    assert!(text.ends_with("\nleft 7\n"), "{text}");
}

#[test]
fn the_last_address() {
    for flags in [with(|v| v.e1 = true), Volatile::default()] {
        let mut host = Host::at(1519, true, memory(), 7, flags);
        host.walk(1);
        assert_eq!(host.card.volatile.address, 0);
        assert!(!host.card.volatile.e1);
        let mut host = Host::at(1518, true, memory(), 7, flags);
        host.walk(1);
        assert_eq!(host.card.volatile.address, 1519);
        assert_eq!(host.card.volatile.e1, flags.e1);
    }
}

#[test]
fn the_right_code_and_a_write() {
    let mut host = Host::at(103, false, memory(), 7, matched());
    assert_eq!(host.write(), 0);
    assert!(host.card.volatile.sv);
    assert_eq!(host.bit(103), 0);

    let mut host = Host::new(memory(), 7, false);
    host.go(80);
    host.show16(CODE);
    host.walk(7);
    assert!(host.card.volatile.matched);
    host.write();
    assert!(host.card.volatile.sv);

    let mut host = Host::new(memory(), 7, false);
    host.go(80);
    host.show16(CODE);
    host.walk(8);
    assert_eq!(host.card.volatile.address, 104);
    assert!(!host.card.volatile.matched);
    host.write();
    assert_eq!(host.bit(104), 0);
    assert!(!host.card.volatile.sv);

    let mut written = memory();
    set_bit(&mut written, 103, 0);
    let mut host = Host::at(103, false, written, 7, matched());
    host.write();
    assert_eq!(host.card.memory, written);
    assert!(!host.card.volatile.sv);
}

#[test]
fn the_block() {
    for fuses in 0..8 {
        for address in [1391, 1392, 1407, 1408] {
            for erases in [true, false] {
                for (fus, flags) in [(true, sv()), (false, sv()), (true, Volatile::default())] {
                    let start = if erases { [0; 174] } else { [255; 174] };
                    let mut host = Host::at(address, fus, start, fuses, flags);
                    if erases {
                        host.erase()
                    } else {
                        host.write()
                    };
                    let works = fuses & 4 != 0 && fus && flags.sv;
                    let block = works && (1392..=1407).contains(&address);
                    if address != 1391 {
                        for a in [0, 15, 1360, 1391] {
                            assert_eq!(host.bit(a), bit(&start, a));
                        }
                    }
                    for a in [16, 95, 176, 1200, 1359] {
                        assert_eq!(host.bit(a) != bit(&start, a), block);
                    }
                    assert_eq!(host.card.fuses, fuses);
                }
            }
        }
    }
}

#[test]
fn the_zone_erase() {
    let open = with(|v| (v.sv, v.e1) = (true, true));
    for fuses in 0..8 {
        for address in [1232, 1233, 1359] {
            for fus in [true, false] {
                for flags in [open, sv(), with(|v| v.e1 = true)] {
                    let mut host = Host::at(address, fus, [0; 174], fuses, flags);
                    let answer = host.erase();
                    if fus && fuses & 4 != 0 {
                        // Level 1: the word, with SV.
                        let word = usize::from(address) / 16 * 2;
                        let mut expected = [0; 174];
                        if flags.sv {
                            expected[word..word + 2].fill(255);
                        }
                        assert_eq!(host.card.memory, expected);
                        continue;
                    }
                    let works = flags == open && (fuses & 2 != 0 || address == 1232);
                    for a in 0..1392 {
                        let zone = (176..=1199).contains(&a);
                        assert_eq!(host.bit(a), u8::from(works && zone), "bit {a}");
                    }
                    assert_eq!(answer, 0);
                    assert_eq!(host.card.volatile.e1, flags.e1);
                }
            }
        }
    }
}

#[test]
fn the_application_zone_is_written_under_p1_in_level_2() {
    for (p1, fus) in [(false, false), (true, false), (false, true), (true, true)] {
        let flags = with(|v| (v.sv, v.p1) = (true, p1));
        let mut host = Host::at(178, fus, memory(), 7, flags);
        host.write();
        assert_eq!(host.bit(178), u8::from(!p1 && !fus));
    }
}

#[test]
fn the_fuses() {
    for address in [1407, 1408, 1423, 1424, 1480, 1481, 1482, 1503, 1504, 1519] {
        for fuses in 0..8 {
            for fus in [true, false] {
                for flags in [sv(), Volatile::default()] {
                    let mut host = Host::at(address, fus, memory(), fuses, flags);
                    host.blow();
                    let blown = match address {
                        _ if fuses & 4 == 0 => 0,
                        1408..=1423 if flags.sv => 1,
                        1481 if fus => 2,
                        1504..=1519 if flags.sv => 4,
                        _ => 0,
                    };
                    assert_eq!(host.card.fuses, fuses & !blown, "{address} {fuses} {fus}");
                    assert_eq!(host.card.memory, memory());
                    assert_eq!(host.card.volatile.address, 0);

                    // Not by an erase, and not with RST low.
                    let mut host = Host::at(address, fus, memory(), fuses, flags);
                    let idle = host.card.volatile.lines | 2;
                    for step in [idle, idle + 8, idle + 12, idle + 4, idle] {
                        assert_eq!(host.card.step(step), Ok(1));
                    }
                    assert_eq!(host.card.fuses, fuses);
                    let mut host = Host::at(address, fus, memory(), fuses, flags);
                    host.write();
                    assert_eq!(host.card.fuses, fuses);
                }
            }
        }
    }
}

#[test]
fn without_sv_mtz_erases_and_cpz_does_not() {
    let mut host = Host::at(1375, false, [0; 174], 0, Volatile::default());
    assert_eq!(host.erase(), 1);
    assert_eq!(host.card.memory[170..172], [255, 255]);
    for address in [112, 175] {
        let mut host = Host::at(address, true, [0; 174], 7, Volatile::default());
        assert_eq!(host.erase(), 0);
        assert_eq!(host.card.memory, [0; 174]);
        let mut host = Host::at(address, false, [0; 174], 7, sv());
        assert_eq!(host.erase(), 1);
        assert_eq!(
            host.card.memory.iter().filter(|&&byte| byte == 255).count(),
            2
        );
    }
}

#[test]
fn opening_and_its_errors() {
    for fus in [true, false] {
        for attempts in 0..=255u8 {
            let mut memory = memory();
            memory[12] = attempts;
            memory[13] = 0x5A;
            for code in [CODE, CODE ^ 1, CODE ^ 0x8000, CODE ^ 0x0100] {
                let mut host = Host::new(memory, 7, fus);
                if attempts == 0 {
                    let mut buffer = [0; 300];
                    assert_eq!(maker::open(code, 0, fus, &mut buffer), Err(23));
                    continue;
                }
                let mut buffer = [0; 300];
                let count = maker::open(code, attempts, fus, &mut buffer).unwrap();
                let k = attempts.leading_zeros() as usize;
                assert_eq!(count, 223 + 2 * k);
                // The write alone doesn't clear the counter.
                let mut answers = [0; 300];
                host.card.run(&buffer[..count - 6], &mut answers);
                assert_eq!(host.card.memory[12], attempts & !(0x80 >> k));
                assert_eq!(host.card.memory[13], 0x5A);
                assert_eq!(host.card.volatile.sv, code == CODE);
                assert!(host.card.volatile.matched == (code == CODE));
                let result = host.card.run(&buffer[count - 6..count], &mut answers);
                assert_eq!(result.done, 6);
                if code == CODE {
                    assert_eq!(host.card.memory[12..14], [255, 255]);
                    assert_eq!(answers[5], 1);
                } else {
                    assert_eq!(host.card.memory[12], attempts & !(0x80 >> k));
                    assert_eq!(host.card.memory[13], 0x5A);
                    assert_eq!(answers[5], 0);
                }
                assert_eq!(host.card.volatile.sv, code == CODE);
                assert_eq!(
                    tries_left(&host.card.memory),
                    Ok(host.card.memory[12].count_ones() as u8)
                );
            }
        }
    }
}

#[test]
fn a_compare_starts_at_its_first_bit_only() {
    // All but the first bit, starting at 81 with whatever went before wrong.
    let mut host = Host::new(memory(), 7, false);
    host.go(80);
    host.show16(CODE ^ 0x8000);
    assert!(!host.card.volatile.matched);
    for wrong in 0..16 {
        let mut host = Host::new(memory(), 7, true);
        host.go(80);
        host.show16(CODE ^ 1 << wrong);
        assert!(!host.card.volatile.matched, "bit {wrong}");
    }
    for wrong in 0..32 {
        let mut host = Host::new(memory(), 7, false);
        host.go(1200);
        host.show32(KEY ^ 1 << wrong);
        assert!(!host.card.volatile.matched, "bit {wrong}");
    }
}

#[test]
fn the_code_fails_with_sv() {
    let mut host = Host::new(memory(), 7, false);
    host.open(CODE);
    assert!(host.card.volatile.sv);
    host.go(80);
    host.show16(CODE);
    assert!(!host.card.volatile.matched);
    assert!(host.card.volatile.sv);
}

#[test]
fn only_e1_falls_at_reset() {
    let flags = with(|v| (v.sv, v.p1, v.r1, v.e1) = (true, true, true, true));
    let mut host = Host::at(1300, false, memory(), 7, flags);
    host.reset();
    let expected = Flags {
        sv: true,
        p1: true,
        r1: true,
        e1: false,
    };
    assert_eq!(model::flags(host.card.volatile), Ok(expected));
}

#[test]
fn the_key_with_the_counter() {
    let mut memory = memory();
    memory[154] = 0x1F;
    for open in [true, false] {
        let mut host = Host::new(memory, 7, false);
        if open {
            host.open(CODE);
        }
        host.go(1200);
        host.show32(KEY);
        assert_eq!(host.card.volatile.address, 1232);
        assert!(host.card.volatile.matched && !host.card.volatile.e1);
        assert_eq!(host.write(), 0);
        assert!(!host.card.volatile.e1);
        host.walk(3);
        host.card.memory[100] = 0;
        assert_eq!(host.erase(), 1);
        assert_eq!(host.card.memory[100], 0);
        // In level 1 the write counts nothing.
        host.set_fus(true);
        host.write();
        assert!(!host.card.volatile.e1);
        assert_eq!(host.bit(1235), 0);
        host.walk(1);
        host.set_fus(false);
        host.write();
        assert!(host.card.volatile.e1);
        host.erase();
        assert_eq!(host.card.memory[100], if open { 255 } else { 0 });
        assert_eq!(host.card.memory[154], 0x07);
        host.walk(1359 - 1236);
        assert!(host.card.volatile.matched && host.card.volatile.e1);
        host.walk(1);
        assert!(!host.card.volatile.matched && host.card.volatile.e1);
        host.walk(1519 - 1360);
        assert!(host.card.volatile.e1);
        host.walk(1);
        assert!(!host.card.volatile.e1);
    }
}

#[test]
fn the_key_without_the_counter() {
    let mut host = Host::new(memory(), 5, false);
    host.go(1200);
    host.show32(KEY);
    assert!(host.card.volatile.e1);
    let mut host = Host::new(memory(), 5, false);
    host.go(1200);
    host.show32(KEY ^ 1);
    assert!(!host.card.volatile.e1);
    host.write();
    assert!(!host.card.volatile.e1);
    // In level 1 the key fails, FUS high for its last bit being enough.
    let mut host = Host::at(1231, true, memory(), 5, matched());
    host.walk(1);
    assert!(!host.card.volatile.matched && !host.card.volatile.e1);
    let mut host = Host::at(1231, false, memory(), 5, matched());
    let bit = host.bit(1231);
    let steps = [
        IDLE - 16 + 16 * bit,
        IDLE - 12 + 16 * bit,
        IDLE - 16 + 16 * bit,
    ];
    for step in steps {
        host.card.step(step).unwrap();
    }
    assert!(host.card.volatile.matched && host.card.volatile.e1);
    // ISS blown, FUS is free.
    let mut host = Host::new(memory(), 1, true);
    host.go(1200);
    host.show32(KEY);
    assert!(host.card.volatile.e1);
}

#[test]
fn the_match_of_a_write_counts_and_stays() {
    let mut host = Host::at(96, false, memory(), 7, matched());
    host.write();
    assert!(host.card.volatile.matched && host.card.volatile.sv);
    // Programming in the midst of the code changes nothing and compares nothing.
    let mut host = Host::at(90, false, memory(), 7, matched());
    host.write();
    host.erase();
    assert!(host.card.volatile.matched);
    assert_eq!(
        (host.card.volatile.address, host.card.memory),
        (90, memory())
    );
}

#[test]
fn arriving_sets_p1_and_r1() {
    for byte in [0x00, 0x40, 0x80, 0xC0] {
        let mut memory = memory();
        memory[22] = byte | 0x3F;
        let mut host = Host::at(175, false, memory, 7, Volatile::default());
        host.walk(1);
        assert_eq!(
            (host.card.volatile.p1, host.card.volatile.r1),
            (byte & 0x80 != 0, false)
        );
        host.walk(1);
        assert_eq!(
            (host.card.volatile.p1, host.card.volatile.r1),
            (byte & 0x80 != 0, byte & 0x40 != 0)
        );
    }
    // Standing there isn't arriving.
    for (address, fus) in [(176, true), (177, true), (176, false), (177, false)] {
        let mut host = Host::at(address, fus, [0; 174], 7, sv());
        host.erase();
        assert_eq!(host.card.memory[22] == 255, fus);
        assert!(!host.card.volatile.p1 && !host.card.volatile.r1);
        let all = with(|v| (v.sv, v.p1, v.r1) = (true, true, true));
        let mut host = Host::at(address, fus, [255; 174], 7, all);
        host.write();
        assert_eq!(host.bit(address), 0);
        assert!(host.card.volatile.p1 && host.card.volatile.r1);
    }
}

#[test]
fn the_pin() {
    // Released with RST or PGM high and in programming, shown with CLK high.
    let mut host = Host::at(0, false, [0; 174], 7, Volatile::default());
    for (step, answer) in [
        (IDLE, Ok(0)),
        (IDLE + 4, Ok(0)),
        (IDLE - 12, Ok(0)),
        (IDLE - 16, Ok(0)),
        (IDLE, Ok(0)),
        (IDLE + 8, Ok(1)),
        (IDLE + 12, Ok(1)),
        (IDLE + 4, Ok(1)),
        (IDLE, Ok(0)),
        (IDLE + 2, Ok(1)),
        (IDLE, Ok(0)),
        (IDLE + 32, Ok(0)),
    ] {
        assert_eq!(host.card.step(step), answer, "step {step}");
    }
    // Never read from 1392 on.
    for address in 1392..=1519 {
        let mut host = Host::at(address, true, [0; 174], 7, sv());
        assert_eq!(host.card.step(IDLE_FUS), Ok(1));
    }
    // SC and EZ are read in level 1 with SV, AZ with SV or R1.
    let r1 = with(|v| v.r1 = true);
    for (address, fus, flags, answer) in [
        (80, true, sv(), 0),
        (80, false, sv(), 1),
        (95, true, Volatile::default(), 1),
        (1200, true, sv(), 0),
        (1231, false, sv(), 1),
        (1231, true, r1, 1),
        (176, false, Volatile::default(), 1),
        (176, false, sv(), 0),
        (1199, false, r1, 0),
        (1391, false, Volatile::default(), 0),
    ] {
        let mut host = Host::at(address, fus, [0; 174], 7, flags);
        let lines = host.card.volatile.lines;
        assert_eq!(host.card.step(lines), Ok(answer), "address {address}");
        assert_eq!(
            host.card.step(lines ^ 32),
            Ok(match address {
                80 | 1231 if !fus && flags.sv => 0,
                80 | 1200 => 1,
                _ => answer,
            })
        );
    }
}

#[test]
fn power() {
    // VCC's fall in the middle of programming.
    let flags = with(|v| (v.sv, v.p1, v.r1, v.e1, v.matched) = (true, true, true, true, true));
    let mut host = Host::at(1240, true, memory(), 7, flags);
    for step in [IDLE_FUS + 8, IDLE_FUS - 8, IDLE_FUS - 4] {
        host.card.step(step).unwrap();
    }
    assert!(host.card.volatile.programming);
    assert_eq!(host.card.step(IDLE_FUS - 5), Ok(1));
    let expected = Volatile {
        lines: IDLE_FUS - 5,
        ..Volatile::default()
    };
    assert_eq!(
        host.card,
        Card {
            memory: memory(),
            fuses: 7,
            volatile: expected
        }
    );
    // Without VCC the lines only follow, all of them.
    for step in [44, 40, 42, 46, 38, 36, 52, 54, 50, 48, 16, 18] {
        assert_eq!(host.card.step(step), Ok(1), "step {step}");
        assert_eq!(
            host.card.volatile,
            Volatile {
                lines: step,
                ..Volatile::default()
            }
        );
    }
    assert_eq!(host.card.step(19), Ok(1));
    assert_eq!(
        host.card.volatile,
        Volatile {
            lines: 19,
            ..Volatile::default()
        }
    );
}

#[test]
fn rst_high_keeps_the_address_and_the_match() {
    let mut host = Host::at(85, false, memory(), 7, matched());
    for step in [IDLE + 2, IDLE + 6, IDLE + 2] {
        assert_eq!(host.card.step(step), Ok(1));
    }
    assert_eq!(
        host.card.volatile,
        Volatile {
            lines: IDLE + 2,
            address: 85,
            ..matched()
        }
    );
    // RST may rise with CLK high; then CLK's fall does nothing but end the latch.
    let mut host = Host::at(85, false, memory(), 7, matched());
    for step in [IDLE + 4, IDLE + 6] {
        host.card.step(step).unwrap();
        assert!(host.card.volatile.latch);
    }
    host.card.step(IDLE + 2).unwrap();
    assert_eq!(
        host.card.volatile,
        Volatile {
            lines: IDLE + 2,
            address: 85,
            ..matched()
        }
    );
    host.card.step(IDLE).unwrap();
    assert_eq!(
        host.card.volatile,
        Volatile {
            lines: IDLE,
            ..Volatile::default()
        }
    );
    assert!(state_check(host.card.volatile));
}

#[test]
fn the_manufacturers_zone() {
    for (fuses, fus, flags, works) in [
        (7, true, sv(), true),
        (5, true, sv(), true),
        (6, true, sv(), false),
        (3, true, sv(), false),
        (7, false, sv(), false),
        (7, true, Volatile::default(), false),
    ] {
        for address in [1376, 1391] {
            let mut host = Host::at(address, fus, [0; 174], fuses, flags);
            host.erase();
            assert_eq!(
                host.card.memory[172..174],
                if works { [255; 2] } else { [0; 2] }
            );
            let mut host = Host::at(address, fus, [255; 174], fuses, flags);
            host.write();
            assert_eq!(host.bit(address), u8::from(!works));
        }
    }
}
