//! What the session program prints.

use std::fmt::Write;

use crate::card::{tries_left, Card, BYTES, MOST_STEPS};
use crate::file::{open_session, step_section};
use crate::wrong;

/// Runs a session on a fresh card and gives the text to print: `bad N` alone,
/// or the lines of steps done and given, refusal, answers and tries left.
#[must_use]
pub fn session(bytes: &[u8]) -> Vec<u8> {
    text(bytes).into_bytes()
}

fn text(bytes: &[u8]) -> String {
    let mut memory = [0; BYTES];
    let (fuses, given) = match open_session(bytes, &mut memory) {
        Ok(parts) => parts,
        Err(number) => return format!("bad {number}\n"),
    };
    let mut answers = [0; MOST_STEPS];
    let mut card = Card::new(memory, fuses);
    let result = card.run(step_section(bytes), &mut answers);
    let left = if wrong(55) { memory } else { card.memory };

    let mut text = format!(
        "done {} of {}\nrefused {}\n",
        result.done, given, result.refusal
    );
    text.extend(
        answers[..result.done]
            .iter()
            .map(|&answer| char::from(b'0' + answer)),
    );
    let left = tries_left(&left).unwrap_or(0);
    write!(text, "\nleft {left}\n").expect("a string takes all that is written");
    text
}
