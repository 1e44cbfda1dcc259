//! The openers of card and session files.

use crate::card::{BYTES, MOST_STEPS};
use crate::fuses;
use crate::{refusal, wrong};

/// Bytes of a card file: two counts, the memory and the fuse byte.
pub const CARD_FILE_BYTES: usize = 2 + BYTES + 2 + 1;

/// Bytes of a session before its steps: a card file's and the third count.
pub const SESSION_HEAD_BYTES: usize = CARD_FILE_BYTES + 2;

/// The count at an offset, low byte first.
fn count(bytes: &[u8], offset: usize) -> usize {
    let (low, high) = (bytes[offset], bytes[offset + 1]);
    let count = if wrong(71) { [high, low] } else { [low, high] };
    usize::from(u16::from_le_bytes(count))
}

/// The checks both files share, 11 to 14; answers the fuse byte.
fn head(bytes: &[u8]) -> Result<u8, u8> {
    if bytes.len() < CARD_FILE_BYTES {
        return Err(refusal::FILE_SHORT);
    }
    if count(bytes, 0) != BYTES {
        return Err(refusal::FIRST_COUNT);
    }
    if count(bytes, 2 + BYTES) != 1 {
        return Err(refusal::SECOND_COUNT);
    }
    let fuses = bytes[CARD_FILE_BYTES - 1];
    if fuses > fuses::ALL && !(wrong(36) && fuses == 8) {
        return Err(refusal::FUSES);
    }
    Ok(fuses)
}

/// The checks of a session but for the buffer, 11 to 17; answers the fuse byte
/// and the steps.
fn parts(bytes: &[u8]) -> Result<(u8, &[u8]), u8> {
    let fuses = head(bytes)?;
    if bytes.len() < SESSION_HEAD_BYTES {
        return Err(refusal::SESSION_SHORT);
    }
    let given = count(bytes, CARD_FILE_BYTES);
    let steps = &bytes[SESSION_HEAD_BYTES..];
    if wrong(70) && steps.len() != given {
        return Err(refusal::FILE_LENGTH);
    }
    if given > MOST_STEPS - usize::from(wrong(35)) {
        return Err(refusal::STEP_COUNT);
    }
    if steps.len() != given {
        return Err(refusal::FILE_LENGTH);
    }
    Ok((fuses, steps))
}

/// Copies the memory section, the file having passed its checks.
fn lend(bytes: &[u8], memory: &mut [u8]) {
    memory.copy_from_slice(&bytes[2..2 + BYTES]);
}

/// Opens a card file: the memory section goes to the lent buffer, the fuse
/// byte is the answer. Refused by 10 to 14 and 17, no buffer changing.
pub fn open_card_file(bytes: &[u8], memory: &mut [u8]) -> Result<u8, u8> {
    if memory.len() != BYTES {
        return Err(refusal::MEMORY);
    }
    let fuses = head(bytes)?;
    if bytes.len() != CARD_FILE_BYTES {
        return Err(refusal::FILE_LENGTH);
    }
    lend(bytes, memory);
    Ok(fuses)
}

/// Opens a session: the memory section goes to the lent buffer, the fuse byte
/// and the step count are the answer. Refused by 10 to 17, no buffer changing.
pub fn open_session(bytes: &[u8], memory: &mut [u8]) -> Result<(u8, usize), u8> {
    if memory.len() != BYTES {
        return Err(refusal::MEMORY);
    }
    let (fuses, steps) = parts(bytes)?;
    lend(bytes, memory);
    Ok((fuses, steps.len()))
}

/// The step section of a session, as a part of its bytes; the empty part if
/// the session is refused by 11 to 17.
#[must_use]
pub fn step_section(bytes: &[u8]) -> &[u8] {
    parts(bytes).map_or(&[], |(_, steps)| steps)
}
