//! The fuses of the fuse byte; a set bit is an unblown fuse.

/// Manufacturer's fuse: locks the manufacturer's zone.
pub const MF: u8 = 1;
/// Erase counter fuse: unblown, erases of the application zone are counted.
pub const EC_EN: u8 = 2;
/// Issuer fuse: blown, the card stays in security level 2.
pub const ISS: u8 = 4;
/// All three fuses.
pub const ALL: u8 = MF | EC_EN | ISS;
