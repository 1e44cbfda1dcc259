//! Reason CLK's fall would change nothing by right.

use std::fmt;

/// Why CLK's fall would change nothing by right: the first that holds. As text,
/// the header's words, with what to do about it; RST and FUS can't change once
/// CLK is up (refusal 3).
#[repr(u8)]
#[derive(Clone, Copy, Debug, PartialEq, Eq)]
pub enum Reason {
    /// The right is there.
    RightIsThere = 0,
    /// No programming is under way.
    NoProgramming = 1,
    /// The address stores nothing.
    NothingStored,
    /// RST is at the wrong level.
    WrongRst,
    /// It is never allowed for this zone at this level.
    NeverAllowed,
    /// SV is missing.
    SvMissing,
    /// P1 is missing.
    P1Missing,
    /// E1 is missing.
    E1Missing,
    /// MF is blown.
    MfBlown,
    /// ISS is blown.
    IssBlown,
    /// FUS is low.
    FusLow,
}

impl Reason {
    /// Each, at its number.
    pub const ALL: [Reason; 11] = [
        Reason::RightIsThere,
        Reason::NoProgramming,
        Reason::NothingStored,
        Reason::WrongRst,
        Reason::NeverAllowed,
        Reason::SvMissing,
        Reason::P1Missing,
        Reason::E1Missing,
        Reason::MfBlown,
        Reason::IssBlown,
        Reason::FusLow,
    ];

    /// The header's number.
    #[must_use]
    pub fn number(self) -> u8 {
        self as u8
    }
}

impl fmt::Display for Reason {
    fn fmt(&self, f: &mut fmt::Formatter<'_>) -> fmt::Result {
        f.write_str(match self {
            Reason::RightIsThere => {
                "the right is there: lower PGM, then CLK; a write on a 0, an erase of 1s and \
                 a second blow of MF or EC_EN change nothing all the same, and an erase in EC \
                 at level 2 erases AZ"
            }
            Reason::NoProgramming => {
                "no programming under way: with VCC on and CLK low raise PGM, set I/O (low \
                 writes, high erases), raise CLK, and ask before it falls"
            }
            Reason::NothingStored => {
                "the address stores nothing: go elsewhere; 1424 to 1480 and 1482 to 1503 \
                 store nothing"
            }
            Reason::WrongRst => {
                "RST at the wrong level: let CLK fall, then raise RST at a fuse, lower it \
                 elsewhere and walk back, since its fall goes to address 0"
            }
            Reason::NeverAllowed => {
                "never allowed for this zone at this level: no flag helps; level 1 (FUS high, \
                 ISS unblown) allows it, but not in FZ, nor the erase of a fuse; at level 2 \
                 AZ is erased in EC, with EC_EN blown at 1232 only"
            }
            Reason::SvMissing => "SV missing: open the card first",
            Reason::P1Missing => {
                "P1 missing: bit 176 was 0 on arrival; erase it, at level 1 or by an erase in \
                 EC, then reset and arrive at 176 again"
            }
            Reason::E1Missing => {
                "E1 missing: open, then show the erase key at 1200 to 1231 at level 2 and, \
                 with EC_EN unblown, write a 1 of EC to 0, all without passing address 0"
            }
            Reason::MfBlown => "MF blown: for good, MFZ stays as it is",
            Reason::IssBlown => {
                "ISS blown: for good, the block word does nothing any more, and no fuse can \
                 be blown"
            }
            Reason::FusLow => "FUS low: let CLK fall, then raise FUS and start again",
        })
    }
}
