//! The card's volatile half and the check that it isn't made up.

use crate::lines::{self, CLK, PGM, VCC};
use crate::{refusal, wrong};

/// The last address of the counter.
pub const LAST_ADDRESS: u16 = 1519;

/// What the card loses without VCC, with the lines. The default is a fresh card.
#[derive(Clone, Copy, Debug, Default, PartialEq, Eq)]
pub struct Volatile {
    /// The present line levels.
    pub lines: u8,
    /// The address counter, 0 to 1519.
    pub address: u16,
    /// Security validation flag.
    pub sv: bool,
    /// Application zone write flag.
    pub p1: bool,
    /// Application zone read flag.
    pub r1: bool,
    /// Application zone erase flag.
    pub e1: bool,
    /// Whether the code or key shown so far is right.
    pub matched: bool,
    /// The data latched when CLK rose.
    pub latch: bool,
    /// Whether programming is under way.
    pub programming: bool,
}

/// The four flags, as the call beside the pin reads them.
#[derive(Clone, Copy, Debug, Default, PartialEq, Eq)]
pub struct Flags {
    /// Security validation flag.
    pub sv: bool,
    /// Application zone write flag.
    pub p1: bool,
    /// Application zone read flag.
    pub r1: bool,
    /// Application zone erase flag.
    pub e1: bool,
}

/// Whether the volatile half can stand; if not it is refused by 9.
#[must_use]
pub fn state_check(volatile: Volatile) -> bool {
    let Volatile {
        lines,
        address,
        sv,
        p1,
        r1,
        e1,
        matched,
        latch,
        programming,
    } = volatile;
    if lines > lines::ALL || address > LAST_ADDRESS {
        return false;
    }
    if lines & VCC == 0 {
        return address == 0 && !(sv || p1 || r1 || e1 || matched || latch || programming);
    }
    if lines & CLK == 0 {
        if latch || programming {
            return false;
        }
    } else if lines & PGM != 0 && !programming && !wrong(44) {
        return false;
    }
    let may_match = matches!(address, 81..=103 | 1201..=1359);
    let may_erase = matches!(address, 1232..=1519);
    (may_match || !matched) && (may_erase || !e1)
}

/// The flags of a state; a made-up one is refused by 9.
pub fn flags(volatile: Volatile) -> Result<Flags, u8> {
    if !state_check(volatile) {
        return Err(refusal::STATE);
    }
    let Volatile { sv, p1, r1, e1, .. } = volatile;
    Ok(Flags { sv, p1, r1, e1 })
}
