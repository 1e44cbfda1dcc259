//! Card files and sessions, sound and damaged, on both sides.

use crate::chance::Chance;
use crate::found::Found;
use crate::kinds::Kind;
use crate::reached::Reached;
use crate::reader;
use crate::seen::{self, Side};
use crate::steps::Differs;
use crate::waveform::{self, Case};
use model::{Card, BYTES, MOST_STEPS};
use std::fmt::Write;

const UNTOUCHED: u8 = 165;

fn card_file(memory: &[u8], fuses: u8) -> Vec<u8> {
    let mut bytes = vec![174, 0];
    bytes.extend(memory);
    bytes.extend([1, 0, fuses]);
    bytes
}

pub fn session_of(case: &Case) -> Vec<u8> {
    let mut bytes = card_file(&case.memory, case.fuses);
    bytes.extend((case.steps.len() as u16).to_le_bytes());
    bytes.extend(&case.steps);
    bytes
}

/// A session of what a reader does, of at most so many steps.
pub fn session(chance: &mut Chance, most: usize) -> Vec<u8> {
    session_of(&reader::reader(chance, true, most))
}

/// Up to two faults, among counts, fuse byte and length.
pub fn damage(chance: &mut Chance, bytes: &mut Vec<u8>) {
    for _ in 0..chance.within(1, 2) {
        match chance.below(5) {
            0 => {
                let length = match chance.below(4) {
                    0 => chance.below(182),
                    1 => chance.within(176, 183),
                    2 => chance.pick(&[0, 178, 179, 180]),
                    _ => bytes.len().saturating_sub(chance.within(1, 3)),
                };
                bytes.truncate(length);
            }
            1 => bytes.extend((0..chance.within(1, 3)).map(|_| 16)),
            _ => {
                let at = chance.pick(&[0, 1, 176, 177, 178, 178, 179, 180, 180]);
                if let Some(byte) = bytes.get_mut(at) {
                    *byte = match chance.below(3) {
                        0 => chance.byte(),
                        1 => byte.wrapping_add(1),
                        _ => *byte ^ 1 << chance.below(8),
                    };
                }
            }
        }
    }
}

/// A session whose count of steps is about 4,096.
fn long_session(chance: &mut Chance) -> Vec<u8> {
    let mut bytes = card_file(&waveform::any_memory(chance), waveform::any_fuses(chance));
    let count = chance.within(4094, 4098);
    bytes.extend((count as u16).to_le_bytes());
    let steps = if chance.one_in(3) { count + 1 } else { count };
    bytes.resize(bytes.len() + steps, 16);
    bytes
}

/// A short session with up to two faults, or one of about 4,096 steps.
pub fn any_session(chance: &mut Chance) -> Vec<u8> {
    if chance.one_in(40) {
        return long_session(chance);
    }
    let most = chance.below(3);
    let mut bytes = session(chance, most);
    damage(chance, &mut bytes);
    bytes
}

fn any_file(chance: &mut Chance) -> Vec<u8> {
    let mut bytes = match chance.below(8) {
        0 | 1 => card_file(&waveform::any_memory(chance), waveform::any_fuses(chance)),
        2 => long_session(chance),
        3 => (0..chance.below(400)).map(|_| chance.byte()).collect(),
        _ => {
            let most = chance.pick(&[0, 1, 300, 600]);
            session(chance, most)
        }
    };
    if chance.one_in(2) {
        damage(chance, &mut bytes);
    }
    bytes
}

/// The session program's text, by the library's calls.
fn text_by_card(bytes: &[u8]) -> Vec<u8> {
    let mut image = [0; zhavdurgon::IMAGE_BYTES];
    let session = match zhavdurgon::open_session(bytes, &mut image) {
        Ok(session) => session,
        Err(number) => return format!("bad {number}\n").into_bytes(),
    };
    let mut answers = vec![0; session.steps.len()];
    let ran = zhavdurgon::run(
        &mut image,
        session.fuses,
        zhavdurgon::Volatile::fresh(),
        session.steps,
        &mut answers,
    );
    let mut text = format!("done {} of {}\n", ran.done, session.steps.len());
    let _ = writeln!(text, "refused {}", ran.refusal);
    text.extend(
        answers[..ran.done]
            .iter()
            .map(|&answer| char::from(b'0' + answer)),
    );
    let _ = write!(text, "\nleft {}\n", zhavdurgon::tries_left(&image));
    text.into_bytes()
}

/// Whether the texts of a session differ.
pub fn text(case: &Case) -> Option<Differs> {
    let bytes = session_of(case);
    let (text, expected) = (text_by_card(&bytes), model::session(&bytes));
    (text != expected).then(|| Differs {
        at: case.steps.len(),
        text: format!(
            "card:\n{}model:\n{}",
            String::from_utf8_lossy(&text),
            String::from_utf8_lossy(&expected)
        ),
    })
}

/// What a session holds, if it can be opened at all.
fn case_of(bytes: &[u8]) -> Option<Case> {
    let mut memory = vec![0; zhavdurgon::IMAGE_BYTES];
    let session = zhavdurgon::open_session(bytes, &mut memory).ok()?;
    Some(Case {
        memory,
        fuses: session.fuses,
        start: zhavdurgon::Volatile::fresh(),
        steps: session.steps.to_vec(),
    })
}

/// What a session reaches by the model, up to its first refused step.
pub fn note_session(reached: &mut Reached, bytes: &[u8]) {
    let Some((memory, fuses)) = note_opened(reached, bytes) else {
        return;
    };
    let mut card = Card::new(memory, fuses);
    for &step in model::step_section(bytes) {
        let before = card;
        if let Err(number) = card.step(step) {
            seen::refused(reached, before.volatile, step, number);
            break;
        }
        seen::step(reached, side(&before), side(&card));
    }
    reached.note(Kind::Left, [card.memory[12].count_ones() as usize]);
}

/// How a session is opened, and with what.
fn note_opened(reached: &mut Reached, bytes: &[u8]) -> Option<([u8; BYTES], u8)> {
    let mut memory = [0; BYTES];
    match model::open_session(bytes, &mut memory) {
        Err(number) => {
            note_fault(reached, bytes, number);
            None
        }
        Ok((fuses, count)) => {
            let given = usize::from(count > 0) + usize::from(count == MOST_STEPS);
            reached.note(Kind::Given, [given]);
            Some((memory, fuses))
        }
    }
}

fn side(card: &Card) -> Side<'_> {
    Side {
        memory: &card.memory,
        fuses: card.fuses,
        volatile: card.volatile,
    }
}

/// What a session says of itself, 0 where it is too short to.
struct Head {
    first: usize,
    second: usize,
    fuses: u8,
    given: usize,
    /// The steps that are there.
    there: usize,
}

fn head_of(bytes: &[u8]) -> Head {
    let count = |at: usize| match bytes.get(at..at + 2) {
        Some(count) => usize::from(u16::from_le_bytes([count[0], count[1]])),
        None => 0,
    };
    Head {
        first: count(0),
        second: count(176),
        fuses: bytes.get(178).copied().unwrap_or(0),
        given: count(179),
        there: bytes.len().saturating_sub(181),
    }
}

/// What is wrong with a session, and what else would be.
fn note_fault(reached: &mut Reached, bytes: &[u8], number: u8) {
    let (length, head) = (bytes.len(), head_of(bytes));
    let faults = [
        (11, length == 0),
        (11, length == 178),
        (12, head.first & 255 != 174 && head.first < 256),
        (12, head.first & 255 == 174),
        (13, head.second & 255 != 1 && head.second < 256),
        (13, head.second & 255 == 1),
        (14, head.fuses == 8),
        (14, head.fuses > 8),
        (15, length == 179),
        (15, length == 180),
        (16, head.given == 4097 && head.there == 4097),
        (16, head.given > 4097),
        (17, head.there + 1 == head.given),
        (17, head.there == head.given + 1),
    ];
    for (index, &(of, holds)) in faults.iter().enumerate() {
        reached.note_if(of == number && holds, Kind::Fault, [index]);
    }
    let others = [
        (12, length > 1 && head.first != 174),
        (13, length > 177 && head.second != 1),
        (14, head.fuses > 7),
        (15, length < 181),
        (16, head.given > 4096),
        (17, length > 180 && head.there != head.given),
    ];
    for &(other, holds) in &others {
        let case = [usize::from(number) - 11, usize::from(other) - 11];
        reached.note_if(number < other && holds, Kind::Faults, case);
    }
}

/// How a file was opened, as a value of its kind.
fn opened(refusal: Option<u8>) -> usize {
    refusal.map_or(0, |number| usize::from(number) - 9)
}

/// One file through both openers, and its text: the answers, the steps as a part
/// of the file and every byte of the lent buffer.
pub fn file(chance: &mut Chance, reached: &mut Reached) -> Result<(), Found> {
    let bytes = any_file(chance);
    let room = if chance.one_in(8) {
        chance.pick(&[0, 1, 173, 175, 348])
    } else {
        174
    };
    let untouched = vec![UNTOUCHED; room];

    let (mut image, mut model_image) = (untouched.clone(), untouched.clone());
    let card = zhavdurgon::open_card(&bytes, &mut image);
    let expected = model::open_card_file(&bytes, &mut model_image);
    if card != expected || image != model_image {
        return Err(Found::Other(format!(
            "a card file of {} bytes, room for {room}: card {card:?}, model {expected:?}\n{bytes:?}",
            bytes.len(),
        )));
    }

    let (mut image, mut model_image) = (untouched.clone(), untouched);
    let session = zhavdurgon::open_session(&bytes, &mut image);
    let expected_session = model::open_session(&bytes, &mut model_image);
    let section = model::step_section(&bytes);
    let same = match (session, expected_session) {
        (Ok(session), Ok((fuses, count))) => {
            session.fuses == fuses
                && session.steps.len() == count
                && session.steps.as_ptr_range() == section.as_ptr_range()
        }
        (Err(number), Err(expected)) => number == expected,
        _ => false,
    };
    if !same || image != model_image {
        return Err(Found::Other(format!(
            "a session of {} bytes, room for {room}: card {session:?}, model {expected_session:?}\n\
             {bytes:?}",
            bytes.len(),
        )));
    }

    if text_by_card(&bytes) != model::session(&bytes) {
        let case = case_of(&bytes);
        let differs = case.as_ref().and_then(text);
        return Err(match (case, differs) {
            (Some(case), Some(differs)) => Found::Text { case, differs },
            _ => Found::Other(format!("the text of a session: {bytes:?}")),
        });
    }

    reached.note(Kind::CardFile, [opened(card.err())]);
    reached.note(Kind::SessionFile, [opened(session.err())]);
    if room == 174 {
        note_opened(reached, &bytes);
    }
    Ok(())
}
