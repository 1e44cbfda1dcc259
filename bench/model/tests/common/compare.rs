//! Comparisons of the card with the plain one, from chance states and in
//! sessions; each tells whether the two agree.

use super::plain::{self, Act, Plain};
use super::{
    card_file, random_memory, random_sound, random_step, random_volatile, session_file, Chance,
};
use model::{
    maker, open_card_file, open_session, reason, run, session, state_check, step, step_section,
    StepResult, Volatile,
};

/// Whether the card and the plain one agree on one step from a chance state.
pub fn same_step(chance: &mut Chance) -> bool {
    let mut memory = random_memory(chance);
    let fuses = chance.byte() & if chance.one_in(20) { 15 } else { 7 };
    let volatile = if chance.one_in(8) {
        random_volatile(chance)
    } else {
        random_sound(chance)
    };
    let next = random_step(chance, volatile.lines);
    if state_check(volatile) != plain::sound(volatile) {
        return false;
    }
    if chance.one_in(50) {
        let short = step(&mut memory[1..], fuses, volatile, next);
        if short
            != (StepResult {
                fuses,
                volatile,
                answer: Err(10),
            })
        {
            return false;
        }
    }
    let mut plain = Plain::new(&memory, fuses, volatile);
    let expected = if fuses > 7 { Err(14) } else { plain.step(next) };
    let result = step(&mut memory, fuses, volatile, next);
    (result.answer, result.fuses, result.volatile) == (expected, plain.fuses, plain.v)
        && memory[..] == plain.memory()
}

/// Whether the two give the same reason in a chance state.
pub fn same_reason(chance: &mut Chance) -> bool {
    let mut image = random_memory(chance).to_vec();
    if chance.one_in(20) {
        image.resize(chance.pick(&[0, 173, 175, 348]), 0);
    }
    let fuses = match chance.below(20) {
        0 => chance.pick(&[8, 9, 15, 255]),
        _ => chance.byte() & 7,
    };
    let volatile = if chance.one_in(8) {
        random_volatile(chance)
    } else {
        random_sound(chance)
    };
    reason(&image, fuses, volatile) == plain::reason(&image, fuses, volatile)
}

/// A session of a reader's acts with some chance steps among them.
pub fn random_steps(chance: &mut Chance, memory: &[u8; 174]) -> Vec<u8> {
    let mut fus = chance.one_in(2);
    let idle = |fus| if fus { 49 } else { 17 };
    let mut steps = if fus { vec![16, 48, 49] } else { vec![16, 17] };
    let code = u16::from_be_bytes([memory[10], memory[11]]);
    let key = u32::from_be_bytes([memory[150], memory[151], memory[152], memory[153]]);
    if chance.one_in(2) {
        steps.extend(plain::make(Act::Open(code, memory[12].max(1)), fus, 4096).unwrap());
    }
    let targets = [
        80, 96, 100, 103, 104, 160, 176, 177, 178, 1200, 1232, 1235, 1392, 1408, 1481,
    ];
    for _ in 0..chance.below(12) {
        let act = match chance.below(14) {
            0 => Act::Reset,
            1 => Act::Walk(chance.below(40) as u16),
            2 => Act::Walk(chance.below(1520) as u16),
            3 | 4 => {
                steps.extend([idle(fus) + 2, idle(fus)]);
                Act::Walk(chance.pick(&targets))
            }
            5 | 6 => {
                steps.extend([idle(fus) + 2, idle(fus)]);
                steps.extend(plain::make(Act::Walk(1200), fus, 4096).unwrap());
                Act::Show32(key ^ u32::from(chance.one_in(5)))
            }
            7 => Act::Show16(code),
            8 | 9 => Act::Program(false),
            10 | 11 => Act::Program(true),
            12 => Act::Blow,
            _ => {
                fus = !fus;
                Act::Walk(0)
            }
        };
        steps.push(idle(fus));
        steps.extend(plain::make(act, fus, 4096).unwrap());
    }
    if chance.one_in(4) {
        let mut lines = *steps.last().unwrap();
        for _ in 0..chance.below(60) {
            let next = random_step(chance, lines);
            steps.push(next);
            if next < 64 && (next ^ lines).count_ones() < 2 {
                lines = next;
            }
        }
    }
    steps.truncate(4096);
    steps
}

/// Whether the two agree on a run of acts.
pub fn same_run(chance: &mut Chance) -> bool {
    let mut memory = random_memory(chance);
    let fuses = chance.byte() & 7;
    let mut steps = random_steps(chance, &memory);
    let mut volatile = Volatile::default();
    match chance.below(40) {
        0 => steps = vec![0; 4090 + chance.below(10)],
        1 => volatile = random_volatile(chance),
        2 => {
            volatile = if chance.one_in(2) {
                random_sound(chance)
            } else {
                random_volatile(chance)
            };
            steps = vec![volatile.lines; chance.below(5)];
        }
        _ => {}
    }
    let room = steps.len() + chance.below(5);
    let short = chance.one_in(if steps.len() > 4000 { 3 } else { 30 });
    let room = room.saturating_sub(if short { 5 } else { 0 });
    let expected = plain::run(&memory, fuses, volatile, &steps, room);
    let mut answers = vec![9; room];
    let result = run(&mut memory, fuses, volatile, &steps, &mut answers);
    let done = expected.answers.len();
    (result.fuses, result.volatile) == (expected.fuses, expected.v)
        && (result.done, result.refusal) == (done, expected.refusal)
        && memory[..] == expected.memory
        && answers.len() >= done
        && answers[..done] == expected.answers
        && answers[done..].iter().all(|&answer| answer == 9)
}

/// Whether the two agree on an act of the maker.
pub fn same_act(chance: &mut Chance) -> bool {
    let fus = chance.one_in(2);
    let number = chance.next() as u32;
    let n = chance.pick(&[0, 1, 2, 40, 1518, 1519, 1520, 1521, 65535]);
    let attempts = if chance.one_in(4) { 0 } else { chance.byte() };
    let act = match chance.below(7) {
        0 => Act::Reset,
        1 => Act::Walk(n),
        2 => Act::Show16(number as u16),
        3 => Act::Show32(number),
        4 => Act::Program(number & 1 == 1),
        5 => Act::Blow,
        _ => Act::Open(number as u16, attempts),
    };
    let length = plain::make(act, fus, usize::MAX).map_or(5, |steps| steps.len());
    let room = (length + 1).saturating_sub(chance.below(3));
    let expected = plain::make(act, fus, room);
    let mut buffer = vec![99; room];
    let buffer_ref = &mut buffer[..];
    let result = match act {
        Act::Reset => maker::reset(fus, buffer_ref),
        Act::Walk(n) => maker::walk(n, fus, buffer_ref),
        Act::Show16(code) => maker::show16(code, fus, buffer_ref),
        Act::Show32(key) => maker::show32(key, fus, buffer_ref),
        Act::Program(d) => maker::program(d, fus, buffer_ref),
        Act::Blow => maker::blow(fus, buffer_ref),
        Act::Open(code, attempts) => maker::open(code, attempts, fus, buffer_ref),
    };
    let mut after = vec![99; room];
    if let Ok(steps) = &expected {
        after[..steps.len()].copy_from_slice(steps);
    }
    result == expected.map(|steps| steps.len()) && buffer == after
}

/// Whether the two agree on a file.
pub fn same_file(chance: &mut Chance) -> bool {
    let memory = random_memory(chance);
    let fuses = chance.byte() % if chance.one_in(10) { 9 } else { 8 };
    let mut bytes = card_file(&memory, fuses);
    if !chance.one_in(8) {
        let mut steps = random_steps(chance, &memory);
        if chance.one_in(20) {
            steps.resize(4094 + chance.below(5), 16);
        }
        bytes = session_file(&memory, fuses, &steps);
    }
    match chance.below(10) {
        0 => bytes.truncate(176 + chance.below(10)),
        1 => bytes.push(0),
        2 => {
            let at = chance.pick(&[0, 1, 176, 177, 178, 179, 180]);
            if at < bytes.len() {
                bytes[at] = bytes[at].wrapping_add(chance.pick(&[1, 255]));
            }
        }
        _ => {}
    }
    let room = if chance.one_in(30) {
        173 + 2 * chance.below(2)
    } else {
        174
    };
    let same = |has_steps: bool| {
        let expected = plain::parts(&bytes, room, has_steps);
        let mut buffer = vec![99; room];
        let result = if has_steps {
            open_session(&bytes, &mut buffer)
        } else {
            open_card_file(&bytes, &mut buffer).map(|fuses| (fuses, 0))
        };
        let memory = expected.map_or(vec![99; room], |parts| parts.0.to_vec());
        result == expected.map(|(_, fuses, steps)| (fuses, steps.len())) && buffer == memory
    };
    let steps = plain::parts(&bytes, 174, true).map_or(&[][..], |parts| parts.2);
    same(true)
        && same(false)
        && step_section(&bytes) == steps
        && session(&bytes) == plain::session(&bytes).into_bytes()
        && model::tries_left(&memory) == Ok(memory[12].count_ones() as u8)
}
