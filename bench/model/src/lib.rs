//! A software AT88SC101 prepaid card, driven line by line.
//!
//! The card has a lasting half, 174 bytes of memory and a fuse byte, and a
//! volatile half, handed in and back by value as [`Volatile`]. A step is a byte
//! of line levels (see [`lines`]); [`step`] carries out one and [`run`] many.
//! [`reason()`] tells why the fall of CLK would change nothing.
//! [`maker`] writes the steps of a reader's usual acts, the openers take card
//! and session files apart, and [`session`] prints what a session leads to.
//!
//! Refusals are numbers, named in [`refusal`].
//!
//! With the feature `mutate`, a wrong behaviour can be switched on by its number;
//! without it, `wrong` is false at compile time and leaves nothing behind.

#![forbid(unsafe_code)]
#![warn(missing_docs)]

mod card;
mod engine;
mod file;
pub mod fuses;
pub mod lines;
pub mod maker;
pub mod reason;
pub mod refusal;
mod session;
mod volatile;
mod zones;

#[cfg(feature = "mutate")]
pub mod mutate;

pub use card::{run, step, tries_left, Card, RunResult, StepResult, BYTES, MOST_STEPS};
pub use file::{open_card_file, open_session, step_section, CARD_FILE_BYTES, SESSION_HEAD_BYTES};
pub use reason::reason;
pub use session::session;
pub use volatile::{flags, state_check, Flags, Volatile, LAST_ADDRESS};

#[cfg(feature = "mutate")]
use mutate::wrong;

/// Whether the wrong behaviour of that number is switched on: never.
#[cfg(not(feature = "mutate"))]
#[inline(always)]
const fn wrong(_number: u32) -> bool {
    false
}
