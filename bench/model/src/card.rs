//! The card's calls: a checked step, a run and the tries left.

use crate::engine::State;
use crate::fuses;
use crate::volatile::{state_check, Volatile};
use crate::{refusal, wrong};

/// Bytes of the memory image: bits 0 to 1391.
pub const BYTES: usize = 174;

/// The longest run.
pub const MOST_STEPS: usize = 4096;

/// Both halves of a card.
#[derive(Clone, Copy, Debug, PartialEq, Eq)]
pub struct Card {
    /// Bits 0 to 1391, the first of a byte being its most significant.
    pub memory: [u8; BYTES],
    /// The fuse byte.
    pub fuses: u8,
    /// The volatile half.
    pub volatile: Volatile,
}

impl Card {
    /// A fresh card with that memory and those fuses.
    #[must_use]
    pub fn new(memory: [u8; BYTES], fuses: u8) -> Self {
        Self {
            memory,
            fuses,
            volatile: Volatile::default(),
        }
    }

    /// Carries out one step; see [`step`].
    pub fn step(&mut self, lines: u8) -> Result<u8, u8> {
        let result = step(&mut self.memory, self.fuses, self.volatile, lines);
        self.fuses = result.fuses;
        self.volatile = result.volatile;
        result.answer
    }

    /// Carries out a run; see [`run`].
    pub fn run(&mut self, steps: &[u8], answers: &mut [u8]) -> RunResult {
        let result = run(&mut self.memory, self.fuses, self.volatile, steps, answers);
        self.fuses = result.fuses;
        self.volatile = result.volatile;
        result
    }
}

/// What a step leads to.
#[derive(Clone, Copy, Debug, PartialEq, Eq)]
pub struct StepResult {
    /// The fuse byte afterwards.
    pub fuses: u8,
    /// The volatile half afterwards.
    pub volatile: Volatile,
    /// The pin, 0 or 1, or the number of the refusal.
    pub answer: Result<u8, u8>,
}

/// What a run leads to.
#[derive(Clone, Copy, Debug, PartialEq, Eq)]
pub struct RunResult {
    /// The fuse byte afterwards.
    pub fuses: u8,
    /// The volatile half afterwards.
    pub volatile: Volatile,
    /// The number of steps done.
    pub done: usize,
    /// The number of the refusal; 0 if none.
    pub refusal: u8,
}

/// The checks before any step: 10, 14 and 9.
fn admit(memory: &mut [u8], fuses: u8, volatile: Volatile) -> Result<&mut [u8; BYTES], u8> {
    if wrong(67) && fuses > fuses::ALL {
        return Err(refusal::FUSES);
    }
    let Ok(memory) = memory.try_into() else {
        return Err(refusal::MEMORY);
    };
    if wrong(68) && !state_check(volatile) {
        return Err(refusal::STATE);
    }
    if fuses > fuses::ALL && !(wrong(36) && fuses == 8) {
        return Err(refusal::FUSES);
    }
    if !state_check(volatile) {
        return Err(refusal::STATE);
    }
    Ok(memory)
}

/// Carries out one step. A refused one changes nothing.
pub fn step(memory: &mut [u8], fuses: u8, volatile: Volatile, step: u8) -> StepResult {
    let moved = admit(memory, fuses, volatile).and_then(|memory| {
        let mut state = State::pack(volatile, fuses);
        state.advance(memory, step)?;
        let idle = wrong(56) && step == volatile.lines;
        Ok((state, if idle { 1 } else { state.pin(memory) }))
    });
    match moved {
        Ok((state, pin)) => {
            let (volatile, fuses) = state.unpack();
            StepResult {
                fuses,
                volatile,
                answer: Ok(pin),
            }
        }
        Err(number) => StepResult {
            fuses,
            volatile,
            answer: Err(number),
        },
    }
}

/// Carries out steps up to the first refused one, with an answer for each done.
pub fn run(
    memory: &mut [u8],
    fuses: u8,
    volatile: Volatile,
    steps: &[u8],
    answers: &mut [u8],
) -> RunResult {
    let refused = |refusal| RunResult {
        fuses,
        volatile,
        done: 0,
        refusal,
    };
    if wrong(61) && steps.is_empty() {
        return refused(0);
    }
    let memory = match admit(memory, fuses, volatile) {
        Ok(memory) => memory,
        Err(number) => return refused(number),
    };
    if wrong(69) && answers.len() < steps.len() {
        return refused(refusal::ANSWERS_SHORT);
    }
    if steps.len() > MOST_STEPS + usize::from(wrong(57)) {
        return refused(refusal::RUN_LONG);
    }
    if answers.len() < steps.len() {
        return refused(refusal::ANSWERS_SHORT);
    }

    let mut state = State::pack(volatile, fuses);
    let mut done = 0;
    let mut refusal = 0;
    for (&step, answer) in steps.iter().zip(answers.iter_mut()) {
        if let Err(number) = state.advance(memory, step) {
            refusal = number;
            break;
        }
        *answer = state.pin(memory);
        done += 1;
    }
    if wrong(33) && done > 0 {
        let first = answers[0];
        answers[..done].fill(first);
    }
    if wrong(42) {
        answers[done..].fill(0);
    }
    let (volatile, fuses) = state.unpack();
    RunResult {
        fuses,
        volatile,
        done,
        refusal,
    }
}

/// The tries left: the ones in bits 96 to 103. Refused by 10.
pub fn tries_left(memory: &[u8]) -> Result<u8, u8> {
    if memory.len() != BYTES {
        return Err(refusal::MEMORY);
    }
    let mut ones = memory[12].count_ones();
    if wrong(30) {
        ones += memory[13].count_ones();
    }
    Ok(ones as u8)
}
