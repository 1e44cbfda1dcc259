//! The lines of a step byte; a set bit is a high line.

/// Operating voltage.
pub const VCC: u8 = 1;
/// Address reset.
pub const RST: u8 = 2;
/// Clock and address control.
pub const CLK: u8 = 4;
/// Programming control.
pub const PGM: u8 = 8;
/// Data; high when the host lets go of the line.
pub const IO: u8 = 16;
/// Fuse.
pub const FUS: u8 = 32;
/// All six lines.
pub const ALL: u8 = VCC | RST | CLK | PGM | IO | FUS;
