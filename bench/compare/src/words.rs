//! The volatile half in the library's words and in the model's fields.

pub use zhavdurgon::Volatile as Words;

use model::Volatile;

pub fn of_model(volatile: Volatile) -> Words {
    let flag = |set: bool, flag: u32| if set { flag } else { 0 };
    Words {
        lines: volatile.lines.into(),
        address: volatile.address.into(),
        flags: flag(volatile.sv, Words::SV)
            | flag(volatile.p1, Words::P1)
            | flag(volatile.r1, Words::R1)
            | flag(volatile.programming, Words::PROGRAMMING)
            | flag(volatile.latch, Words::LATCH)
            | flag(volatile.e1, Words::E1)
            | flag(volatile.matched, Words::MATCH),
    }
}

/// Nothing if the model's fields can't hold the words, which are then made up.
pub fn to_model(words: Words) -> Option<Volatile> {
    if words.flags > 127 {
        return None;
    }
    let has = |flag: u32| words.flags & flag != 0;
    Some(Volatile {
        lines: words.lines.try_into().ok()?,
        address: words.address.try_into().ok()?,
        sv: has(Words::SV),
        p1: has(Words::P1),
        r1: has(Words::R1),
        e1: has(Words::E1),
        matched: has(Words::MATCH),
        latch: has(Words::LATCH),
        programming: has(Words::PROGRAMMING),
    })
}
