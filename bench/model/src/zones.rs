//! The memory zones and the rights in each.

/// Conditions under which a zone is open. A right is a set of conditions of
/// which any one is enough.
pub(crate) mod condition {
    /// Holds always.
    pub const ALWAYS: u8 = 1;
    /// SV.
    pub const SV: u8 = 2;
    /// R1.
    pub const R1: u8 = 4;
    /// SV and P1.
    pub const SV_P1: u8 = 8;
    /// Level 1 and SV.
    pub const L1_SV: u8 = 16;
    /// Level 1, SV and the manufacturer's fuse unblown.
    pub const L1_SV_MF: u8 = 32;
}

use condition::{ALWAYS, L1_SV, L1_SV_MF, R1, SV, SV_P1};

/// What opens a zone to a read, a write and an erase.
#[derive(Clone, Copy)]
pub(crate) struct Rights {
    pub read: u8,
    pub write: u8,
    pub erase: u8,
}

const fn rights(read: u8, write: u8, erase: u8) -> Rights {
    Rights { read, write, erase }
}

const NONE: u8 = 0;

/// The zones in order, each with the first address after it.
const ZONES: [(usize, Rights); 10] = [
    (16, rights(ALWAYS, NONE, NONE)),              // FZ
    (80, rights(ALWAYS, L1_SV, L1_SV)),            // IZ
    (96, rights(L1_SV, SV, SV)),                   // SC
    (112, rights(ALWAYS, ALWAYS, SV)),             // SCAC
    (176, rights(ALWAYS, SV, SV)),                 // CPZ
    (1200, rights(SV | R1, L1_SV | SV_P1, L1_SV)), // AZ
    (1232, rights(L1_SV, L1_SV, L1_SV)),           // EZ
    (1360, rights(ALWAYS, ALWAYS, L1_SV)),         // EC
    (1376, rights(ALWAYS, ALWAYS, ALWAYS)),        // MTZ
    (1392, rights(ALWAYS, L1_SV_MF, L1_SV_MF)),    // MFZ
];

/// Words of the table below: the next power of two over 1520 / 16.
const WORDS: usize = 128;

/// The rights by word, as every zone is made of whole words.
const BY_WORD: [Rights; WORDS] = {
    let mut table = [rights(NONE, NONE, NONE); WORDS];
    let mut word = 0;
    let mut zone = 0;
    while zone < ZONES.len() {
        while word * 16 < ZONES[zone].0 {
            table[word] = ZONES[zone].1;
            word += 1;
        }
        zone += 1;
    }
    table
};

/// The rights at an address; none at 1392 and over.
#[inline(always)]
pub(crate) fn rights_at(address: u16) -> Rights {
    BY_WORD[usize::from(address >> 4) % WORDS]
}

/// The words in which leaving an address may do more than move on: the code
/// and key are compared, or the next address is one where arriving does more.
const BUSY: [bool; WORDS] = {
    let mut table = [false; WORDS];
    let leaving = [80, 103, 175, 176, 1200, 1216, 1231, 1359, 1519];
    let mut i = 0;
    while i < leaving.len() {
        table[leaving[i] / 16] = true;
        i += 1;
    }
    table
};

/// Whether leaving the address does no more than move on.
#[inline(always)]
pub(crate) fn is_plain(address: u16) -> bool {
    !BUSY[usize::from(address >> 4) % WORDS]
}

#[cfg(test)]
mod tests {
    use super::*;

    #[test]
    fn every_address_lies_in_its_zone() {
        for address in 0..1520u16 {
            let expected = ZONES.iter().find(|zone| usize::from(address) < zone.0);
            let expected = expected.map_or((NONE, NONE, NONE), |(_, r)| (r.read, r.write, r.erase));
            let Rights { read, write, erase } = rights_at(address);
            assert_eq!((read, write, erase), expected, "address {address}");
        }
    }
}
