//! The words for what tells the cases of a kind apart.

/// A word for each value.
pub type Values = &'static [&'static str];

pub const LINE: Values = &["RST", "CLK", "PGM", "I/O", "FUS"];
pub const WAY: Values = &["falls", "rises"];
pub const VCC: Values = &["VCC low", "VCC high"];
pub const RST: Values = &["RST low", "RST high"];
pub const PGM: Values = &["PGM low", "PGM high"];
pub const IO: Values = &["I/O low", "I/O high"];
pub const FUS: Values = &["FUS low", "FUS high"];
pub const LEVEL: Values = &["level 2", "level 1"];
pub const SV: Values = &["SV 0", "SV 1"];
pub const P1: Values = &["P1 0", "P1 1"];
pub const R1: Values = &["R1 0", "R1 1"];
pub const E1: Values = &["E1 0", "E1 1"];
pub const MATCH: Values = &["match 0", "match 1"];
pub const LATCH: Values = &["latch 0", "latch 1"];
pub const BIT: Values = &["bit 0", "bit 1"];
pub const MF: Values = &["MF blown", "MF unblown"];
pub const EC_EN: Values = &["EC_EN blown", "EC_EN unblown"];
pub const FUSE: Values = &["MF", "EC_EN", "ISS"];
pub const OPERATION: Values = &["write", "erase"];
pub const PLACE: Values = &["first", "inside", "last"];
pub const BLOCKED: Values = &[
    "FZ", "IZ", "SC", "SCAC", "CPZ", "AZ", "EZ", "EC", "MTZ", "MFZ", "block",
];
pub const ZONE: Values = BLOCKED.split_at(10).0;
pub const AREA: Values = &["block", "MF", "to 1480", "EC_EN", "to 1503", "ISS"];
pub const NUMBERS: Values = &[
    "0", "1", "2", "3", "4", "5", "6", "7", "8", "9", "10", "11", "12", "13", "14", "15", "16",
    "17", "18", "19", "20", "21", "22", "23", "24", "25", "26", "27", "28", "29", "30", "31",
];
pub const EIGHT: Values = NUMBERS.split_at(8).0;
pub const NINE: Values = NUMBERS.split_at(9).0;
pub const SIXTEEN: Values = NUMBERS.split_at(16).0;
pub const FAULTS: Values = NUMBERS.split_at(11).1.split_at(7).0;
pub const LOST: Values = &["address", "SV", "P1", "R1", "E1", "match", "latch"];
pub const RESET: Values = &["address", "SV", "P1", "R1", "E1", "match"];
pub const WRAPPED: Values = &["nothing", "SV", "P1", "R1", "E1"];
pub const CUT: Values = &[
    "a write",
    "an erase",
    "a zone erase",
    "a block written",
    "a block erased",
    "MF",
    "EC_EN",
    "ISS",
];
pub const FOLLOWED: Values = &[
    "CLK falls with PGM high",
    "RST falls with CLK high",
    "PGM rises with CLK high",
];
pub const STILL: Values = &[
    "RST rises",
    "PGM falls",
    "PGM rises",
    "I/O falls",
    "I/O rises",
    "FUS falls",
    "FUS rises",
    "I/O falls with CLK high",
    "I/O rises with CLK high",
    "CLK falls with RST high",
];
pub const STATE: Values = &["VCC low", "VCC high", "in programming"];
pub const COMPARED: Values = &["right", "wrong", "right after a wrong one", "right, barred"];
pub const FUSE_AT: Values = &[
    "1408",
    "1409 to 1422",
    "1423",
    "1481",
    "1504",
    "1505 to 1518",
    "1519",
];
pub const BESIDE: Values = &["1407", "1424", "1480", "1482", "1503"];
pub const NOT_BLOWN: Values = &["erase", "RST low"];
pub const RELEASED: Values = &["VCC low", "RST high", "PGM high", "programming"];
pub const OVER: Values = &["64", "128", "192"];
pub const DIFFER: Values = &["no line differs", "one differs", "more differ"];
pub const PAIR: Values = &[
    "VCC, RST", "VCC, CLK", "RST, CLK", "VCC, PGM", "RST, PGM", "CLK, PGM", "VCC, I/O", "RST, I/O",
    "CLK, I/O", "PGM, I/O", "VCC, FUS", "RST, FUS", "CLK, FUS", "PGM, FUS", "I/O, FUS",
];
pub const MORE: Values = &["3 lines", "4 lines", "5 lines", "6 lines"];
pub const IDLE: Values = &["no programming", "programming"];
pub const RISES_WITH: Values = &["CLK high", "PGM high", "both high"];
pub const LEVEL_BY: Values = &["level 1", "FUS low", "ISS blown"];
pub const CLAUSE: Values = &[
    "line levels over 63",
    "the address over 1519",
    "VCC off with more than lines",
    "the latch with CLK low",
    "programming with CLK low",
    "VCC, CLK and PGM high without programming",
    "match outside its addresses",
    "E1 outside its addresses",
    "flags over 127",
];
pub const BEFORE: Values = &["10", "14"];
pub const CHECKS: Values = &["10", "14", "9"];
pub const REASON: Values = &[
    "the right is there",
    "no programming",
    "nothing stored",
    "RST at the wrong level",
    "never allowed",
    "SV missing",
    "P1 missing",
    "E1 missing",
    "MF blown",
    "ISS blown",
    "FUS low",
];
pub const RAN: Values = &[
    "done whole",
    "of 4,096 steps",
    "empty",
    "ended by 1",
    "ended by 2",
    "ended by 3",
    "ended by 4",
    "ended by 5",
    "ended by 6",
    "ended by 7",
    "refused by 9",
    "refused by 10",
    "refused by 14",
    "refused by 18",
    "refused by 19",
];
pub const ACT: Values = &[
    "reset", "walk", "show 16", "show 32", "program", "blow", "open",
];
pub const MADE: Values = &["made", "refused by 22", "refused by its own number"];
pub const OPENED: Values = &[
    "opened", "by 10", "by 11", "by 12", "by 13", "by 14", "by 15", "by 16", "by 17",
];
pub const FAULT: Values = &[
    "empty: 11",
    "178 bytes: 11",
    "low byte of the first count: 12",
    "high byte of the first count: 12",
    "low byte of the second count: 13",
    "high byte of the second count: 13",
    "fuse byte 8: 14",
    "fuse byte over 8: 14",
    "179 bytes: 15",
    "180 bytes: 15",
    "4,097 steps: 16",
    "more steps: 16",
    "a step too few: 17",
    "a step too many: 17",
];
pub const GIVEN: Values = &["no step", "some steps", "4,096 steps"];
