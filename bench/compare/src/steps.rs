//! Single steps and runs, on the card and on the model.

use crate::chance::Chance;
use crate::kinds::Kind;
use crate::reached::Reached;
use crate::seen::{self, Side};
use crate::waveform::Case;
use crate::words::{of_model, to_model, Words};
use zhavdurgon::{Ran, Reason, Stepped};

/// A byte that no answer is.
const UNTOUCHED: u8 = 165;

/// A difference, and the step before which the two still agreed.
pub struct Differs {
    pub at: usize,
    pub text: String,
}

/// What is refused whatever is asked, where the model's fields can't hold the
/// state: it is made up.
fn before_all(length: usize, fuses: u8) -> u8 {
    match (length, fuses) {
        (174, 0..=7) => 9,
        (174, _) => 14,
        _ => 10,
    }
}

fn model_step(memory: &mut [u8], fuses: u8, volatile: Words, step: u8) -> Stepped {
    let Some(state) = to_model(volatile) else {
        return Stepped {
            volatile,
            fuses,
            answer: Err(before_all(memory.len(), fuses)),
        };
    };
    let result = model::step(memory, fuses, state, step);
    Stepped {
        volatile: of_model(result.volatile),
        fuses: result.fuses,
        answer: result.answer,
    }
}

fn model_run(
    memory: &mut [u8],
    fuses: u8,
    volatile: Words,
    steps: &[u8],
    answers: &mut [u8],
) -> Ran {
    let Some(state) = to_model(volatile) else {
        return Ran {
            volatile,
            fuses,
            done: 0,
            refusal: before_all(memory.len(), fuses),
        };
    };
    let result = model::run(memory, fuses, state, steps, answers);
    Ran {
        volatile: of_model(result.volatile),
        fuses: result.fuses,
        done: result.done,
        refusal: result.refusal,
    }
}

fn same_flags(volatile: Words) -> bool {
    let card = zhavdurgon::flags(volatile).map(|f| (f.sv, f.p1, f.r1, f.e1));
    let model = match to_model(volatile) {
        Some(state) => model::flags(state).map(|f| (f.sv, f.p1, f.r1, f.e1)),
        None => Err(9),
    };
    card == model
}

/// A difference in the reason of a state, number by number, if there is one; else
/// the reason is counted.
fn reason(
    memory: &[u8],
    fuses: u8,
    volatile: Words,
    reached: Option<&mut Reached>,
) -> Option<String> {
    let card = zhavdurgon::reason(memory, fuses, volatile).map(Reason::number);
    let model = match to_model(volatile) {
        Some(state) => model::reason(memory, fuses, state),
        None => Err(before_all(memory.len(), fuses)),
    };
    if card != model {
        return Some(format!(
            "the reason of fuses {fuses}, {volatile:?}\ncard:  {card:?}\nmodel: {model:?}"
        ));
    }
    if let Some(reached) = reached {
        seen::reason(reached, volatile, card);
    }
    None
}

/// The model has no tries left where the image isn't 174 bytes; the card has
/// those of any image that reaches over bit 103.
fn same_tries(memory: &[u8]) -> bool {
    match model::tries_left(memory) {
        Ok(tries) => zhavdurgon::tries_left(memory) == u32::from(tries),
        Err(_) => {
            let attempts = memory.get(12).copied().unwrap_or(0);
            zhavdurgon::tries_left(memory) == attempts.count_ones()
        }
    }
}

fn note(reached: &mut Reached, before: (&[u8], u8, Words), step: u8, after: (&[u8], Stepped)) {
    reached.steps += 1;
    let (memory, fuses, volatile) = before;
    match (
        after.1.answer,
        to_model(volatile),
        to_model(after.1.volatile),
    ) {
        (Err(9), ..) => seen::made_up(reached, volatile),
        (Err(10), ..) => reached.note(Kind::RefusedBefore, [0]),
        (Err(14), ..) => reached.note(Kind::RefusedBefore, [1]),
        (Err(number), Some(volatile), _) => seen::refused(reached, volatile, step, number),
        (Ok(_), Some(was), Some(is)) => {
            let before = Side {
                memory,
                fuses,
                volatile: was,
            };
            let after = Side {
                memory: after.0,
                fuses: after.1.fuses,
                volatile: is,
            };
            seen::step(reached, before, after);
        }
        _ => unreachable!("a state that 9 lets pass has the model's fields"),
    }
}

/// Every step by itself, through both calls for a single step. After each, the
/// volatile half, the fuses, every byte and the answer are compared; before the
/// first and after each, the reason.
pub fn single_steps(case: &Case, mut reached: Option<&mut Reached>) -> Option<Differs> {
    let mut card = case.memory.clone();
    let mut thin = case.memory.clone();
    let mut model = case.memory.clone();
    let mut before = case.memory.clone();
    let (mut fuses, mut volatile) = (case.fuses, case.start);
    if let Some(text) = reason(&card, fuses, volatile, reached.as_deref_mut()) {
        return Some(Differs { at: 0, text });
    }
    for (at, &step) in case.steps.iter().enumerate() {
        let told = zhavdurgon::step(&mut card, fuses, volatile, step);
        let expected = model_step(&mut model, fuses, volatile, step);
        let mut thin_half = volatile;
        let thin_told = zhavdurgon::step_at(&mut thin, fuses, &mut thin_half, step);
        let thin_told = Stepped {
            volatile: thin_half,
            fuses: thin_told.fuses,
            answer: thin_told.answer,
        };
        let same = told == expected && card == model;
        let thin_same = thin_told == told && thin == card;
        if !(same && thin_same && same_flags(told.volatile)) {
            let bytes = |memory: &[u8]| {
                let pairs = before.iter().zip(memory).enumerate();
                let changed = pairs.filter(|(_, (was, is))| was != is);
                let changed: Vec<_> = changed.map(|(i, (_, is))| format!("{i}: {is}")).collect();
                changed.join(", ")
            };
            let text = format!(
                "before: fuses {fuses}, {volatile:?}\nstep {step}\n\
                 card:  {told:?}, bytes changed {{{}}}\n\
                 thin:  {thin_told:?}, bytes changed {{{}}}\n\
                 model: {expected:?}, bytes changed {{{}}}\n\
                 flags {}",
                bytes(&card),
                bytes(&thin),
                bytes(&model),
                if same_flags(told.volatile) {
                    "alike"
                } else {
                    "differ"
                },
            );
            return Some(Differs { at, text });
        }
        if let Some(reached) = reached.as_deref_mut() {
            note(reached, (&before, fuses, volatile), step, (&card, told));
        }
        if before != card {
            before.copy_from_slice(&card);
        }
        (fuses, volatile) = (told.fuses, told.volatile);
        if let Some(text) = reason(&card, fuses, volatile, reached.as_deref_mut()) {
            return Some(Differs { at, text });
        }
    }
    if !same_tries(&card) {
        return Some(Differs {
            at: case.steps.len(),
            text: "the tries left differ".into(),
        });
    }
    if let Some(reached) = reached {
        reached.note(Kind::Left, [zhavdurgon::tries_left(&card) as usize]);
    }
    None
}

fn note_run(reached: &mut Reached, count: usize, ran: Ran) {
    reached.run_steps += ran.done as u64;
    let how = match (ran.refusal, count) {
        (0, 0) => 2,
        (0, 4096) => 1,
        (0, _) => 0,
        (number @ 1..=7, _) => 2 + usize::from(number),
        (9, _) => 10,
        (10, _) => 11,
        (14, _) => 12,
        (18, _) => 13,
        _ => 14,
    };
    reached.note(Kind::Ran, [how]);
}

/// The steps in runs, each against the model's and against single steps, a
/// refused step being passed over.
pub fn runs(
    case: &Case,
    chance: &mut Chance,
    mut reached: Option<&mut Reached>,
) -> Option<Differs> {
    let mut card = case.memory.clone();
    let mut model = case.memory.clone();
    let mut single = case.memory.clone();
    let (mut fuses, mut volatile) = (case.fuses, case.start);
    let mut at = 0;
    loop {
        let rest = &case.steps[at..];
        let count = match chance.below(4) {
            0 | 1 => rest.len(),
            2 => rest.len().min(chance.below(100)),
            _ => rest.len().min(chance.within(1, 4096)),
        };
        let steps = &rest[..count];
        let room = match chance.below(8) {
            0 => count + chance.below(6),
            1 => count.saturating_sub(chance.below(6)),
            _ => count,
        };
        let mut answers = vec![UNTOUCHED; room];
        let mut model_answers = answers.clone();
        let mut single_answers = answers.clone();
        let ran = zhavdurgon::run(&mut card, fuses, volatile, steps, &mut answers);
        let expected = model_run(&mut model, fuses, volatile, steps, &mut model_answers);
        let text = |what: &str, other: Ran| {
            format!(
                "a run of {count} steps, room for {room} answers, against {what}\n\
                 before: fuses {fuses}, {volatile:?}\ncard: {ran:?}\n{what}: {other:?}"
            )
        };
        if ran != expected || card != model || answers != model_answers {
            let text = text("the model", expected);
            return Some(Differs { at, text });
        }
        let (mut single_fuses, mut single_half) = (fuses, volatile);
        let mut refusal = 0;
        let mut done = 0;
        if !matches!(ran.refusal, 18 | 19) {
            for &step in steps {
                let told = zhavdurgon::step(&mut single, single_fuses, single_half, step);
                match told.answer {
                    Ok(pin) => single_answers[done] = pin,
                    Err(number) => {
                        refusal = number;
                        break;
                    }
                }
                (single_fuses, single_half) = (told.fuses, told.volatile);
                done += 1;
            }
        }
        let singly = Ran {
            volatile: single_half,
            fuses: single_fuses,
            done,
            refusal,
        };
        let by_steps = (ran.refusal < 8 || !steps.is_empty()) && !matches!(ran.refusal, 18 | 19);
        if by_steps && (ran != singly || card != single || answers != single_answers) {
            let text = text("single steps", singly);
            return Some(Differs { at, text });
        }
        if let Some(reached) = reached.as_deref_mut() {
            note_run(reached, count, ran);
        }
        (fuses, volatile) = (ran.fuses, ran.volatile);
        at += ran.done + usize::from(matches!(ran.refusal, 1..=7));
        if at >= case.steps.len() || matches!(ran.refusal, 9 | 10 | 14) {
            return None;
        }
    }
}
