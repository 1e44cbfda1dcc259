//! The ten zones, and the areas behind them that have no memory.

pub const SC: usize = 2;
pub const SCAC: usize = 3;
pub const AZ: usize = 5;
pub const EZ: usize = 6;
pub const EC: usize = 7;
pub const MFZ: usize = 9;
pub const BLOCK: usize = 10;

/// The last address of each.
const LAST: [u16; 16] = [
    15, 79, 95, 111, 175, 1199, 1231, 1359, 1375, 1391, 1407, 1423, 1480, 1481, 1503, 1519,
];

pub fn zone_of(address: u16) -> usize {
    LAST.partition_point(|&last| last < address)
}

/// The first and the last address.
pub fn ends(zone: usize) -> (u16, u16) {
    let first = if zone == 0 { 0 } else { LAST[zone - 1] + 1 };
    (first, LAST[zone])
}
