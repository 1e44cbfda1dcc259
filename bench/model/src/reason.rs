//! Why CLK's fall would change nothing by right, or that the right is there.
//!
//! A second reading of the rights, which asks nothing of the engine: what an
//! operation asks for stands here in full, address by address.

use crate::card::BYTES;
use crate::fuses::{self, EC_EN, ISS, MF};
use crate::lines::{FUS, PGM, RST};
use crate::volatile::{state_check, Volatile};
use crate::{refusal, wrong};

/// The right is there.
pub const RIGHT: u8 = 0;
/// No programming is under way.
pub const NO_PROGRAMMING: u8 = 1;
/// The address stores nothing.
pub const STORES_NOTHING: u8 = 2;
/// RST is at the wrong level for the address.
pub const RST_LEVEL: u8 = 3;
/// The operation is never allowed for this zone at this level.
pub const NEVER: u8 = 4;
/// SV is missing.
pub const NO_SV: u8 = 5;
/// P1 is missing.
pub const NO_P1: u8 = 6;
/// E1 is missing.
pub const NO_E1: u8 = 7;
/// MF is blown.
pub const MF_BLOWN: u8 = 8;
/// ISS is blown.
pub const ISS_BLOWN: u8 = 9;
/// FUS is low.
pub const FUS_LOW: u8 = 10;

/// The first reason why CLK's fall would change nothing by right, or [`RIGHT`].
/// PGM is taken as low already. Refused by 10, 14 and 9.
pub fn reason(image: &[u8], fuses: u8, volatile: Volatile) -> Result<u8, u8> {
    check(image, fuses, volatile)?;
    if wrong(92) && stores_nothing(volatile.address) {
        return Ok(STORES_NOTHING);
    }
    if !volatile.programming || wrong(82) && volatile.lines & PGM != 0 {
        return Ok(NO_PROGRAMMING);
    }
    if wrong(93) && !rst_fits(volatile) {
        return Ok(RST_LEVEL);
    }
    if stores_nothing(volatile.address) || wrong(83) && writes_on_0(image, volatile) {
        return Ok(STORES_NOTHING);
    }
    let asked = asked(fuses, volatile);
    if wrong(80) && asked.is_none() {
        return Ok(NEVER);
    }
    if !rst_fits(volatile) {
        return Ok(RST_LEVEL);
    }
    let Some(things) = asked else {
        return Ok(NEVER);
    };
    let mut missing = order()
        .into_iter()
        .filter(|thing| things.contains(thing) && !is_there(*thing, fuses, volatile));
    Ok(missing.next().unwrap_or(RIGHT))
}

/// The checks before any reason: 10, 14 and 9.
fn check(image: &[u8], fuses: u8, volatile: Volatile) -> Result<(), u8> {
    if wrong(86) && fuses > fuses::ALL {
        return Err(refusal::FUSES);
    }
    if image.len() != BYTES && !(wrong(94) && image.len() > BYTES) {
        return Err(refusal::MEMORY);
    }
    if wrong(87) && !state_check(volatile) {
        return Err(refusal::STATE);
    }
    if fuses > fuses::ALL && !(wrong(95) && fuses == 8) {
        return Err(refusal::FUSES);
    }
    if !state_check(volatile) && !wrong(96) {
        return Err(refusal::STATE);
    }
    Ok(())
}

/// Whether there is neither memory nor the block word nor a fuse.
fn stores_nothing(address: u16) -> bool {
    match address {
        1481 => wrong(88),
        1503 => !wrong(89),
        1424..=1480 | 1482..=1502 => true,
        _ => false,
    }
}

/// Whether it is a write of a bit that is 0 already.
fn writes_on_0(image: &[u8], volatile: Volatile) -> bool {
    let byte = image.get(usize::from(volatile.address / 8));
    !volatile.latch && byte.is_some_and(|byte| byte << (volatile.address % 8) & 0x80 == 0)
}

/// Whether RST is high at a fuse, and low anywhere else.
fn rst_fits(volatile: Volatile) -> bool {
    let first = if wrong(97) { 1392 } else { 1408 };
    let at_fuse = volatile.address >= first && !stores_nothing(volatile.address);
    (volatile.lines & RST != 0) == at_fuse
}

/// The things in the order in which they are judged.
fn order() -> [u8; 6] {
    if wrong(77) {
        [NO_P1, NO_SV, NO_E1, MF_BLOWN, ISS_BLOWN, FUS_LOW]
    } else if wrong(78) {
        [NO_E1, NO_SV, NO_P1, MF_BLOWN, ISS_BLOWN, FUS_LOW]
    } else if wrong(79) {
        [NO_SV, NO_P1, NO_E1, MF_BLOWN, FUS_LOW, ISS_BLOWN]
    } else if wrong(91) {
        [MF_BLOWN, ISS_BLOWN, FUS_LOW, NO_SV, NO_P1, NO_E1]
    } else {
        [NO_SV, NO_P1, NO_E1, MF_BLOWN, ISS_BLOWN, FUS_LOW]
    }
}

/// Whether the thing is there whose lack is that reason.
fn is_there(thing: u8, fuses: u8, volatile: Volatile) -> bool {
    match thing {
        NO_SV => volatile.sv,
        NO_P1 if wrong(98) => volatile.r1,
        NO_P1 => volatile.p1,
        NO_E1 => volatile.e1,
        MF_BLOWN => fuses & MF != 0 || wrong(90),
        ISS_BLOWN => fuses & ISS != 0,
        _ => volatile.lines & FUS != 0,
    }
}

/// The things that the operation asks for; none at all if it is never allowed
/// for this zone at this level.
fn asked(fuses: u8, volatile: Volatile) -> Option<&'static [u8]> {
    let level_1 = volatile.lines & FUS != 0 && fuses & ISS != 0;
    if volatile.latch {
        to_erase(volatile.address, level_1, fuses & EC_EN != 0)
    } else {
        to_write(volatile.address, level_1)
    }
}

/// What a write asks for.
fn to_write(address: u16, level_1: bool) -> Option<&'static [u8]> {
    match address {
        0..=15 => None,
        16..=79 => issuer(level_1),
        80..=95 => Some(&[NO_SV]),
        96..=111 if wrong(99) => Some(&[NO_SV]),
        96..=111 => Some(&[]),
        112..=175 => Some(&[NO_SV]),
        176..=1199 if level_1 && !wrong(100) => Some(&[NO_SV]),
        176..=1199 => Some(&[NO_SV, NO_P1]),
        1200..=1231 => only(level_1, &[NO_SV]),
        1232..=1359 => Some(&[]),
        1360..=1375 => Some(&[]),
        1376..=1391 => only(level_1, &[NO_SV, MF_BLOWN]),
        1392..=1407 => block(level_1),
        _ => to_blow(address, level_1),
    }
}

/// What an erase asks for.
fn to_erase(address: u16, level_1: bool, ec_en: bool) -> Option<&'static [u8]> {
    match address {
        0..=15 => None,
        16..=79 => issuer(level_1),
        80..=95 => Some(&[NO_SV]),
        96..=111 => Some(&[NO_SV]),
        112..=175 => Some(&[NO_SV]),
        176..=1199 if wrong(101) && !level_1 => Some(&[NO_SV, NO_E1]),
        176..=1199 => only(level_1, &[NO_SV]),
        1200..=1231 => only(level_1, &[NO_SV]),
        1233..=1359 if wrong(102) && !ec_en => None,
        1232..=1359 if level_1 => Some(&[NO_SV]),
        1232 => only(ec_en || !wrong(103), &[NO_SV, NO_E1]),
        1233..=1359 => only(ec_en || wrong(84), &[NO_SV, NO_E1]),
        1360..=1375 => Some(&[]),
        1376..=1391 => only(level_1, &[NO_SV, MF_BLOWN]),
        1392..=1407 => block(level_1),
        _ if wrong(85) => to_blow(address, level_1),
        _ => None,
    }
}

/// What a write at a fuse asks for.
fn to_blow(address: u16, level_1: bool) -> Option<&'static [u8]> {
    match address {
        _ if wrong(104) && !level_1 => None,
        1481 if wrong(105) => Some(&[NO_SV, ISS_BLOWN, FUS_LOW]),
        1481 => Some(&[ISS_BLOWN, FUS_LOW]),
        _ if wrong(106) => Some(&[NO_SV, ISS_BLOWN, FUS_LOW]),
        1408..=1423 if wrong(107) => Some(&[NO_SV, MF_BLOWN, ISS_BLOWN]),
        _ => Some(&[NO_SV, ISS_BLOWN]),
    }
}

/// What the issuer's zone asks for.
fn issuer(level_1: bool) -> Option<&'static [u8]> {
    if wrong(108) {
        return Some(&[NO_SV, ISS_BLOWN, FUS_LOW]);
    }
    only(level_1, &[NO_SV])
}

/// What the block word asks for: SV and both halves of level 1.
fn block(level_1: bool) -> Option<&'static [u8]> {
    if wrong(109) {
        return Some(&[NO_SV, FUS_LOW]);
    }
    only(level_1 || !wrong(81), &[NO_SV, ISS_BLOWN, FUS_LOW])
}

/// The things, if it is allowed at all.
fn only(allowed: bool, things: &'static [u8]) -> Option<&'static [u8]> {
    allowed.then_some(things)
}
