//! Each number a caller can get, with its nearest accepted neighbour.

mod common;

use common::{card_file, session_file, IDLE, IDLE_FUS};
use model::{
    flags, maker, open_card_file, open_session, run, session, state_check, step, step_section,
    tries_left, RunResult, StepResult, Volatile,
};

/// Idle, or with other lines, at that address.
fn state(lines: u8, address: u16) -> Volatile {
    Volatile {
        lines,
        address,
        ..Volatile::default()
    }
}

fn programming(lines: u8, address: u16) -> Volatile {
    Volatile {
        programming: true,
        ..state(lines, address)
    }
}

/// A run that has done no step, and so hands back what it was given.
fn nothing_done(fuses: u8, volatile: Volatile, refusal: u8) -> RunResult {
    RunResult {
        fuses,
        volatile,
        done: 0,
        refusal,
    }
}

/// The answer to a step; checks that a refused one changes nothing.
fn answer(volatile: Volatile, next: u8) -> Result<u8, u8> {
    let mut memory = [0x5A; 174];
    let result = step(&mut memory, 7, volatile, next);
    if result.answer.is_err() {
        assert_eq!((result.fuses, result.volatile), (7, volatile));
        assert_eq!(memory, [0x5A; 174]);
    } else {
        assert_eq!(result.volatile.lines, next);
        assert!(state_check(result.volatile));
    }
    // A run of the one step agrees.
    let mut memory = [0x5A; 174];
    let mut answers = [9];
    let ran = run(&mut memory, 7, volatile, &[next], &mut answers);
    match result.answer {
        Ok(answer) => assert_eq!((ran.done, ran.refusal, answers[0]), (1, 0, answer)),
        Err(number) => assert_eq!((ran.done, ran.refusal, answers[0]), (0, number, 9)),
    }
    assert_eq!((ran.fuses, ran.volatile), (result.fuses, result.volatile));
    result.answer
}

#[test]
fn number_1() {
    assert_eq!(answer(state(63 - 8, 5), 63), Err(6));
    assert_eq!(answer(programming(63, 5), 63), Ok(1));
    assert_eq!(answer(programming(63, 5), 64), Err(1));
    assert_eq!(answer(state(IDLE, 0), IDLE | 64), Err(1));
    assert_eq!(answer(state(IDLE, 0), IDLE | 128), Err(1));
    assert_eq!(answer(state(0, 0), 255), Err(1));
}

#[test]
fn number_2() {
    assert_eq!(answer(state(IDLE, 0), IDLE), Ok(0));
    assert_eq!(answer(state(IDLE, 0), IDLE ^ 4), Ok(0));
    assert_eq!(answer(state(IDLE, 0), IDLE ^ 6), Err(2));
    assert_eq!(answer(state(0, 0), 3), Err(2));
    // Before 3 and 7.
    assert_eq!(answer(programming(IDLE + 4, 0), IDLE + 4 + 34), Err(2));
    assert_eq!(answer(state(4, 0), 1), Err(2));
}

#[test]
fn number_3() {
    for lines in [IDLE + 4, IDLE + 12, IDLE_FUS + 6, IDLE_FUS + 14] {
        assert_eq!(answer(programming(lines, 100), lines ^ 2), Err(3));
        assert_eq!(answer(programming(lines, 100), lines ^ 32), Err(3));
        assert_eq!(answer(programming(lines, 100), lines ^ 16), Ok(1));
        assert_eq!(answer(programming(lines, 100), lines ^ 1), Ok(1));
    }
    assert_eq!(answer(state(IDLE + 4, 100), IDLE + 6), Ok(1));
    assert_eq!(answer(state(IDLE + 4, 100), IDLE + 36), Ok(1));
}

#[test]
fn number_4() {
    assert_eq!(answer(programming(IDLE + 12, 100), IDLE + 8), Err(4));
    assert_eq!(answer(programming(IDLE + 14, 100), IDLE + 10), Err(4));
    assert_eq!(answer(programming(IDLE + 4, 100), IDLE), Ok(0));
    // Without VCC.
    assert_eq!(answer(state(12, 0), 8), Ok(1));
}

#[test]
fn number_5() {
    assert_eq!(answer(state(IDLE + 6, 100), IDLE + 4), Err(5));
    assert_eq!(answer(state(IDLE + 2, 100), IDLE), Ok(0));
    assert_eq!(answer(state(IDLE + 10, 100), IDLE + 8), Ok(1));
    assert_eq!(answer(state(IDLE + 4, 100), IDLE + 6), Ok(1));
    assert_eq!(answer(state(6, 0), 4), Ok(1));
}

#[test]
fn number_6() {
    assert_eq!(answer(state(IDLE + 4, 100), IDLE + 12), Err(6));
    assert_eq!(answer(programming(IDLE + 4, 100), IDLE + 12), Err(6));
    assert_eq!(answer(state(IDLE, 100), IDLE + 8), Ok(1));
    assert_eq!(answer(programming(IDLE + 12, 100), IDLE + 4), Ok(1));
    assert_eq!(answer(state(4, 0), 12), Ok(1));
}

#[test]
fn number_7() {
    assert_eq!(answer(state(4, 0), 5), Err(7));
    assert_eq!(answer(state(8, 0), 9), Err(7));
    assert_eq!(answer(state(12, 0), 13), Err(7));
    assert_eq!(answer(state(50, 0), 51), Ok(1));
    assert_eq!(answer(state(48, 0), 49), Ok(0));
}

#[test]
fn number_9() {
    let with = |lines, address, set: fn(&mut Volatile)| {
        let mut volatile = state(lines, address);
        set(&mut volatile);
        volatile
    };
    let refused = [
        state(64, 0),
        state(IDLE | 128, 0),
        state(IDLE, 1520),
        state(IDLE, u16::MAX),
        state(IDLE - 1, 1),
        with(IDLE - 1, 0, |v| v.sv = true),
        with(IDLE - 1, 0, |v| v.p1 = true),
        with(IDLE - 1, 0, |v| v.r1 = true),
        with(IDLE - 1, 1232, |v| v.e1 = true),
        with(IDLE - 1, 90, |v| v.matched = true),
        with(IDLE + 3, 0, |v| v.latch = true),
        with(IDLE + 3, 0, |v| v.programming = true),
        with(IDLE, 0, |v| v.latch = true),
        with(IDLE, 0, |v| v.programming = true),
        state(IDLE + 12, 0),
        with(IDLE + 12, 0, |v| v.latch = true),
        with(IDLE, 80, |v| v.matched = true),
        with(IDLE, 104, |v| v.matched = true),
        with(IDLE, 1200, |v| v.matched = true),
        with(IDLE, 1360, |v| v.matched = true),
        with(IDLE, 0, |v| v.matched = true),
        with(IDLE, 1231, |v| v.e1 = true),
        with(IDLE, 0, |v| v.e1 = true),
        with(IDLE, 176, |v| v.e1 = true),
    ];
    for volatile in refused {
        assert!(!state_check(volatile), "{volatile:?}");
        assert_eq!(flags(volatile), Err(9));
        assert_eq!(answer(volatile, volatile.lines), Err(9), "{volatile:?}");
        assert_eq!(answer(volatile, 255), Err(9));
        let mut answers = [9];
        let ran = run(&mut [0; 174], 7, volatile, &[], &mut answers);
        assert_eq!(ran, nothing_done(7, volatile, 9));
    }
    let accepted = [
        state(62, 0),
        programming(63, 0),
        state(IDLE, 1519),
        state(IDLE - 1, 0),
        state(IDLE - 1 + 12, 0),
        with(IDLE, 0, |v| (v.sv, v.p1, v.r1) = (true, true, true)),
        with(IDLE + 4, 0, |v| v.latch = true),
        with(IDLE + 4, 0, |v| v.programming = true),
        with(IDLE + 12, 0, |v| v.programming = true),
        with(IDLE + 8, 0, |_| {}),
        with(IDLE, 81, |v| v.matched = true),
        with(IDLE, 103, |v| v.matched = true),
        with(IDLE, 1201, |v| v.matched = true),
        with(IDLE, 1359, |v| v.matched = true),
        with(IDLE, 1232, |v| v.e1 = true),
        with(IDLE, 1519, |v| v.e1 = true),
    ];
    for volatile in accepted {
        assert!(state_check(volatile), "{volatile:?}");
        let read = flags(volatile).unwrap();
        assert_eq!(
            (read.sv, read.p1, read.r1, read.e1),
            (volatile.sv, volatile.p1, volatile.r1, volatile.e1)
        );
        assert!(answer(volatile, volatile.lines).is_ok());
    }
}

#[test]
fn numbers_10_and_14_come_first() {
    let made_up = state(64, 1520);
    for length in [0, 173, 175, 1000] {
        let mut memory = vec![7; length];
        let result = step(&mut memory, 9, made_up, 64);
        assert_eq!(
            result,
            StepResult {
                fuses: 9,
                volatile: made_up,
                answer: Err(10)
            }
        );
        let result = run(&mut memory, 9, made_up, &[64; 5000], &mut []);
        assert_eq!(result, nothing_done(9, made_up, 10));
        let result = run(&mut memory, 7, state(IDLE, 0), &[], &mut []);
        assert_eq!((result.done, result.refusal), (0, 10));
        assert_eq!(tries_left(&memory), Err(10));
        assert!(memory.iter().all(|&byte| byte == 7));
    }
    let mut memory = [0; 174];
    for fuses in [8, 9, 255] {
        let result = step(&mut memory, fuses, made_up, 64);
        assert_eq!(
            result,
            StepResult {
                fuses,
                volatile: made_up,
                answer: Err(14)
            }
        );
        let result = run(&mut memory, fuses, made_up, &[64; 5000], &mut []);
        assert_eq!(result, nothing_done(fuses, made_up, 14));
    }
    let result = run(&mut memory, 7, made_up, &[64; 5000], &mut []);
    assert_eq!(result, nothing_done(7, made_up, 9));
    assert_eq!(step(&mut memory, 7, state(IDLE, 0), IDLE).answer, Ok(0));
    assert_eq!(tries_left(&memory), Ok(0));
    memory[11..14].copy_from_slice(&[255, 0b0110_0001, 255]);
    assert_eq!(tries_left(&memory), Ok(3));
}

#[test]
fn numbers_18_and_19() {
    let idle = state(IDLE, 0);
    let mut memory = [255; 174];
    let mut answers = [9; 5000];
    let result = run(&mut memory, 7, idle, &[IDLE; 4096], &mut answers);
    assert_eq!((result.done, result.refusal), (4096, 0));
    assert!(answers[..4096].iter().all(|&answer| answer == 1));
    assert!(answers[4096..].iter().all(|&answer| answer == 9));

    let mut answers = [9; 5000];
    let result = run(&mut memory, 7, idle, &[IDLE; 4097], &mut answers);
    assert_eq!(result, nothing_done(7, idle, 18));
    assert_eq!(answers, [9; 5000]);
    let result = run(&mut memory, 7, idle, &[IDLE; 4097], &mut []);
    assert_eq!(result.refusal, 18);

    let steps = [IDLE + 4, IDLE, IDLE + 4];
    let mut answers = [9; 2];
    let result = run(&mut memory, 7, idle, &steps, &mut answers);
    assert_eq!(result, nothing_done(7, idle, 19));
    assert_eq!(answers, [9; 2]);
    let mut answers = [9; 3];
    let result = run(&mut memory, 7, idle, &steps, &mut answers);
    assert_eq!(
        (result.done, result.refusal, result.volatile.address),
        (3, 0, 1)
    );
    assert_eq!(answers, [1; 3]);
    // Even if the steps would be refused before the answers run out.
    assert_eq!(run(&mut memory, 7, idle, &[64, 64], &mut [9]).refusal, 19);
    let result = run(&mut memory, 7, idle, &[], &mut []);
    assert_eq!(result, nothing_done(7, idle, 0));
}

#[test]
fn a_run_stops_at_the_first_refused_step() {
    let mut memory = [0; 174];
    memory[0] = 0x40;
    let mut answers = [9; 6];
    let steps = [IDLE + 4, IDLE, IDLE + 4, IDLE + 12, IDLE, IDLE + 4];
    let result = run(&mut memory, 7, state(IDLE, 0), &steps, &mut answers);
    let volatile = Volatile {
        latch: true,
        ..state(IDLE + 4, 1)
    };
    assert_eq!(
        result,
        RunResult {
            fuses: 7,
            volatile,
            done: 3,
            refusal: 6
        }
    );
    assert_eq!(answers, [0, 1, 1, 9, 9, 9]);
}

/// A memory whose bytes all differ.
fn memory() -> [u8; 174] {
    std::array::from_fn(|byte| byte as u8)
}

fn session_of(steps: &[u8]) -> Vec<u8> {
    session_file(&memory(), 7, steps)
}

/// Opens as a card file and as a session; checks what the buffer holds.
fn open(bytes: &[u8]) -> (Result<u8, u8>, Result<(u8, usize), u8>) {
    let mut memory = [99; 174];
    let card = open_card_file(bytes, &mut memory);
    if card.is_ok() {
        assert_eq!(memory, bytes[2..176]);
    } else {
        assert_eq!(memory, [99; 174]);
    }
    let mut memory = [99; 174];
    let opened = open_session(bytes, &mut memory);
    match opened {
        Ok((_, count)) => {
            assert_eq!(memory, bytes[2..176]);
            assert_eq!(step_section(bytes), &bytes[181..]);
            assert_eq!(count, bytes.len() - 181);
        }
        Err(number) => {
            assert_eq!(memory, [99; 174]);
            assert!(step_section(bytes).is_empty());
            assert_eq!(session(bytes), format!("bad {number}\n").into_bytes());
        }
    }
    (card, opened)
}

#[test]
fn the_openers() {
    let changed = |mut bytes: Vec<u8>, at: usize, value: u8| {
        bytes[at] = value;
        bytes
    };
    let card = card_file(&memory(), 7);
    let session = session_of(&[1, 2, 3]);
    assert_eq!(open(&card), (Ok(7), Err(15)));
    assert_eq!(open(&session), (Err(17), Ok((7, 3))));
    assert_eq!(open(&session_of(&[])), (Err(17), Ok((7, 0))));

    // 10, before all else.
    for length in [0, 173, 175] {
        let mut memory = vec![99; length];
        assert_eq!(open_card_file(&[], &mut memory), Err(10));
        assert_eq!(open_card_file(&card, &mut memory), Err(10));
        assert_eq!(open_session(&[], &mut memory), Err(10));
        assert_eq!(open_session(&session, &mut memory), Err(10));
        assert!(memory.iter().all(|&byte| byte == 99));
    }
    // 11: under 179 bytes, though the counts be wrong.
    assert_eq!(open(&[]), (Err(11), Err(11)));
    assert_eq!(open(&card[..178]), (Err(11), Err(11)));
    assert_eq!(
        open(&changed(card.clone(), 0, 0)[..178]),
        (Err(11), Err(11))
    );
    // 12 to 14, in order.
    for (at, value) in [(0, 173), (0, 175), (1, 1), (0, 0)] {
        let bytes = changed(changed(card.clone(), at, value), 176, 2);
        assert_eq!(open(&bytes), (Err(12), Err(12)));
    }
    for (at, value) in [(176, 0), (176, 2), (177, 1)] {
        let bytes = changed(changed(session.clone(), at, value), 178, 8);
        assert_eq!(open(&bytes), (Err(13), Err(13)));
    }
    assert_eq!(open(&changed(card.clone(), 178, 8)), (Err(14), Err(14)));
    assert_eq!(
        open(&changed(session.clone(), 178, 255)),
        (Err(14), Err(14))
    );
    assert_eq!(open(&changed(card.clone(), 178, 0)), (Ok(0), Err(15)));
    // 15: under 181 bytes.
    assert_eq!(open(&session[..180]), (Err(17), Err(15)));
    assert_eq!(open(&session[..181]), (Err(17), Err(17)));
    // 16: a count over 4,096, before 17.
    assert_eq!(open(&session_of(&[0; 4096])), (Err(17), Ok((7, 4096))));
    assert_eq!(open(&session_of(&[0; 4097])), (Err(17), Err(16)));
    assert_eq!(
        open(&changed(session.clone(), 180, 255)),
        (Err(17), Err(16))
    );
    // 17: more or less than the counts.
    assert_eq!(open(&changed(session.clone(), 179, 2)), (Err(17), Err(17)));
    assert_eq!(open(&changed(session.clone(), 179, 4)), (Err(17), Err(17)));
    assert_eq!(open(&changed(session.clone(), 180, 15)), (Err(17), Err(17)));
}

#[test]
fn the_step_section_is_a_part_of_the_callers_bytes() {
    let bytes = session_of(&[16, 17, 21]);
    let steps = step_section(&bytes);
    assert_eq!(steps.as_ptr(), bytes[181..].as_ptr());
    assert_eq!(steps, [16, 17, 21]);
}

#[test]
fn the_maker() {
    type Make = Box<dyn Fn(&mut [u8]) -> Result<usize, u8>>;
    for fus in [true, false] {
        let acts: Vec<(Make, usize)> = vec![
            (Box::new(move |b| maker::reset(fus, b)), 2),
            (Box::new(move |b| maker::walk(0, fus, b)), 0),
            (Box::new(move |b| maker::walk(1519, fus, b)), 3038),
            (Box::new(move |b| maker::show16(0x8001, fus, b)), 49),
            (Box::new(move |b| maker::show32(0x8000_0001, fus, b)), 97),
            (Box::new(move |b| maker::program(true, fus, b)), 6),
            (Box::new(move |b| maker::program(false, fus, b)), 6),
            (Box::new(move |b| maker::blow(fus, b)), 8),
            (Box::new(move |b| maker::open(0x1234, 0x80, fus, b)), 223),
            (Box::new(move |b| maker::open(0x1234, 0x01, fus, b)), 237),
            (Box::new(move |b| maker::open(0x1234, 0x7F, fus, b)), 225),
        ];
        for (make, count) in acts {
            for room in [count, count + 1, 4000] {
                let mut buffer = vec![99; room];
                assert_eq!(make(&mut buffer), Ok(count));
                assert!(buffer[count..].iter().all(|&byte| byte == 99));
                assert!(buffer[..count]
                    .iter()
                    .all(|&byte| byte < 64 && (byte & 32 != 0) == fus));
                if count > 0 {
                    assert_eq!(buffer[count - 1], if fus { IDLE_FUS } else { IDLE });
                }
            }
            if count > 0 {
                let mut buffer = vec![99; count - 1];
                assert_eq!(make(&mut buffer), Err(22));
                assert!(buffer.iter().all(|&byte| byte == 99));
            }
        }
    }
    let mut none = [];
    assert_eq!(maker::walk(1520, true, &mut none), Err(21));
    assert_eq!(maker::walk(u16::MAX, true, &mut [0; 4000]), Err(21));
    assert_eq!(maker::open(1, 0, true, &mut none), Err(23));
    assert_eq!(maker::open(1, 0, true, &mut [0; 4000]), Err(23));
    assert_eq!(maker::open(1, 1, true, &mut none), Err(22));

    let mut buffer = [0; 97];
    maker::program(true, false, &mut buffer).unwrap();
    assert_eq!(buffer[..6], [25, 25, 29, 21, 21, 17]);
    maker::program(false, true, &mut buffer).unwrap();
    assert_eq!(buffer[..6], [57, 41, 45, 37, 53, 49]);
    maker::blow(false, &mut buffer).unwrap();
    assert_eq!(buffer[..8], [19, 27, 11, 15, 7, 23, 19, 17]);
    maker::reset(false, &mut buffer).unwrap();
    assert_eq!(buffer[..2], [19, 17]);
    maker::show16(0x8001, false, &mut buffer).unwrap();
    assert_eq!(buffer[..6], [17, 21, 17, 1, 5, 1]);
    assert_eq!(buffer[42..49], [1, 5, 1, 17, 21, 17, 17]);
    maker::show32(0x7FFF_FFFE, false, &mut buffer).unwrap();
    assert_eq!(buffer[..6], [1, 5, 1, 17, 21, 17]);
    assert_eq!(buffer[90..97], [17, 21, 17, 1, 5, 1, 17]);
}
