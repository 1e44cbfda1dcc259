//! A software AT88SC101 prepaid card, driven line by line: safe functions over
//! the calls of `libzhavdurgon.a`, whose header `zhavdurgon.h` documents each.
//!
//! The card has a lasting half, an image of 174 bytes and a fuse byte, and a
//! volatile half, [`Volatile`]. The caller keeps both; the library keeps nothing.
//! A refusal is a number, named in [`refusal`]; a refused call changes nothing,
//! but for a run that ends in a refused step: the steps before it are done.
//!
//! ```
//! use zhavdurgon::{line, run, Volatile};
//!
//! let (mut image, mut answers) = ([255; 174], [0; 2]);
//! let ran = run(&mut image, 7, Volatile::fresh(), &[line::IO, line::IO | line::VCC], &mut answers);
//! assert_eq!((ran.done, ran.refusal, answers), (2, 0, [1, 1]));
//! ```

#![warn(missing_docs)]

mod calls;
mod reason;
pub mod refusal;

pub use reason::Reason;

/// The lines of a step: a byte of levels, in which a set bit is a high line.
pub mod line {
    /// Power.
    pub const VCC: u8 = 1;
    /// Reset.
    pub const RST: u8 = 2;
    /// The clock.
    pub const CLK: u8 = 4;
    /// The program line.
    pub const PGM: u8 = 8;
    /// Data; high: the host lets go of the line.
    pub const IO: u8 = 16;
    /// The fuse line: high is level 1 while ISS is unblown.
    pub const FUS: u8 = 32;
}

/// The fuses in their byte, in which a set bit is an unblown fuse.
pub mod fuse {
    /// The manufacturer's fuse.
    pub const MF: u8 = 1;
    /// The fuse that lets the erase counter be used.
    pub const EC_EN: u8 = 2;
    /// The issuer's fuse.
    pub const ISS: u8 = 4;
}

/// The version of the header that these functions are written for: major times
/// 10,000, minor times 100 and patch.
pub const VERSION: u32 = 101;

/// The library's own version, to be compared with [`VERSION`].
#[must_use]
pub fn version() -> u32 {
    // SAFETY: the call has no condition.
    unsafe { calls::zhav_version() }
}

/// Bytes of the image.
pub const IMAGE_BYTES: usize = 174;

/// The longest run.
pub const MOST_STEPS: usize = 4096;

/// The volatile half. The default is a fresh card's.
#[repr(C)]
#[derive(Clone, Copy, Debug, Default, PartialEq, Eq)]
pub struct Volatile {
    /// The present line levels, as in a step.
    pub lines: u32,
    /// The address counter, 0 to 1519.
    pub address: u32,
    /// The flags, each a bit of its own.
    pub flags: u32,
}

impl Volatile {
    /// Security validation flag.
    pub const SV: u32 = 1;
    /// Application zone write flag.
    pub const P1: u32 = 2;
    /// Application zone read flag.
    pub const R1: u32 = 4;
    /// Programming is under way.
    pub const PROGRAMMING: u32 = 8;
    /// The data latched when CLK rose.
    pub const LATCH: u32 = 16;
    /// Application zone erase flag.
    pub const E1: u32 = 32;
    /// The code or key shown so far is right.
    pub const MATCH: u32 = 64;

    /// The volatile half of a fresh card.
    #[must_use]
    pub fn fresh() -> Self {
        // SAFETY: the call has no condition.
        unsafe { calls::zhav_fresh() }
    }
}

/// What a step leads to.
#[derive(Clone, Copy, Debug, PartialEq, Eq)]
pub struct Stepped {
    /// The volatile half afterwards.
    pub volatile: Volatile,
    /// The fuse byte afterwards.
    pub fuses: u8,
    /// The pin, 0 or 1, or the number of the refusal.
    pub answer: Result<u8, u8>,
}

/// What a step in place leads to, but for the volatile half.
#[derive(Clone, Copy, Debug, PartialEq, Eq)]
pub struct Told {
    /// The fuse byte afterwards.
    pub fuses: u8,
    /// The pin, 0 or 1, or the number of the refusal.
    pub answer: Result<u8, u8>,
}

/// What a run leads to.
#[derive(Clone, Copy, Debug, PartialEq, Eq)]
pub struct Ran {
    /// The volatile half afterwards.
    pub volatile: Volatile,
    /// The fuse byte afterwards.
    pub fuses: u8,
    /// The number of steps done.
    pub done: usize,
    /// The number of the refusal; 0 if none.
    pub refusal: u8,
}

/// The flags that the call beside the pin reads.
#[derive(Clone, Copy, Debug, PartialEq, Eq)]
pub struct Flags {
    /// Security validation flag.
    pub sv: bool,
    /// Application zone write flag.
    pub p1: bool,
    /// Application zone read flag.
    pub r1: bool,
    /// Application zone erase flag.
    pub e1: bool,
}

/// A session taken apart.
#[derive(Clone, Copy, Debug, PartialEq, Eq)]
pub struct Session<'a> {
    /// The fuse byte.
    pub fuses: u8,
    /// The steps, as that part of the file.
    pub steps: &'a [u8],
}

fn answer(value: u8, refusal: u8) -> Result<u8, u8> {
    if refusal == 0 {
        Ok(value)
    } else {
        Err(refusal)
    }
}

/// One step; refused by 10, 14, 9 and 1 to 7.
#[inline]
pub fn step(image: &mut [u8], fuses: u8, volatile: Volatile, lines: u8) -> Stepped {
    // SAFETY: pointer and length are those of a slice that nothing else refers to.
    let told = unsafe { calls::zhav_step(image.as_mut_ptr(), image.len(), fuses, volatile, lines) };
    Stepped {
        volatile: told.half,
        fuses: told.fuses,
        answer: answer(told.answer, told.refusal),
    }
}

/// One step that changes the volatile half where it stands; else as [`step`].
#[inline]
pub fn step_at(image: &mut [u8], fuses: u8, volatile: &mut Volatile, lines: u8) -> Told {
    // SAFETY: pointer and length are those of a slice, and nothing else refers to
    // it or to the volatile half.
    let told =
        unsafe { calls::zhav_step_at(image.as_mut_ptr(), image.len(), fuses, volatile, lines) };
    Told {
        fuses: told.fuses,
        answer: answer(told.answer, told.refusal),
    }
}

/// Steps up to the first refused one, with an answer byte for each done.
/// Refused by 10, 14, 9, 18, 19 and 1 to 7.
#[inline]
pub fn run(
    image: &mut [u8],
    fuses: u8,
    volatile: Volatile,
    steps: &[u8],
    answers: &mut [u8],
) -> Ran {
    // SAFETY: pointers and lengths are those of slices, and the two that are
    // changed overlap with nothing.
    let told = unsafe {
        calls::zhav_run(
            image.as_mut_ptr(),
            image.len(),
            fuses,
            volatile,
            steps.as_ptr(),
            steps.len(),
            answers.as_mut_ptr(),
            answers.len(),
        )
    };
    Ran {
        volatile: told.half,
        fuses: told.fuses,
        done: told.done,
        refusal: told.refusal,
    }
}

/// SV, P1, R1 and E1; a made-up state is refused by 9.
pub fn flags(volatile: Volatile) -> Result<Flags, u8> {
    // SAFETY: the call has no condition.
    let told = unsafe { calls::zhav_flags(volatile) };
    if told.refusal != 0 {
        return Err(told.refusal);
    }
    Ok(Flags {
        sv: told.sv == 1,
        p1: told.p1 == 1,
        r1: told.r1 == 1,
        e1: told.e1 == 1,
    })
}

/// The tries left: the ones in bits 96 to 103, none in an image too short for
/// them.
#[must_use]
pub fn tries_left(image: &[u8]) -> u32 {
    // SAFETY: pointer and length are those of a slice.
    unsafe { calls::zhav_tries_left(image.as_ptr(), image.len()) }
}

/// Why CLK's fall would change nothing by right, PGM taken as low already, or
/// that the right is there. Ask while programming is under way, after CLK has
/// risen and before it falls; afterwards it is always [`Reason::NoProgramming`].
/// While PGM is high CLK's fall itself is refused, by 4. Refused by 10, 14 and 9.
///
/// # Panics
///
/// Where the library is of a later version and has a reason that is not known here.
pub fn reason(image: &[u8], fuses: u8, volatile: Volatile) -> Result<Reason, u8> {
    // SAFETY: pointer and length are those of a slice.
    let told = unsafe { calls::zhav_reason(image.as_ptr(), image.len(), fuses, volatile) };
    let number = answer(told.reason, told.refusal)?;
    let known = Reason::ALL.get(usize::from(number));
    Ok(*known.expect("a reason of this version"))
}

/// Opens a card file: the memory section goes to the image, the fuse byte is
/// the answer. Refused by 10 to 14 and 17.
pub fn open_card(file: &[u8], image: &mut [u8]) -> Result<u8, u8> {
    // SAFETY: pointers and lengths are those of slices, and the image overlaps
    // with nothing.
    let told = unsafe {
        calls::zhav_open_card(file.as_ptr(), file.len(), image.as_mut_ptr(), image.len())
    };
    answer(told.fuses, told.refusal)
}

/// Opens a session: the memory section goes to the image, the fuse byte and the
/// steps are the answer. Refused by 10 to 17.
pub fn open_session<'a>(file: &'a [u8], image: &mut [u8]) -> Result<Session<'a>, u8> {
    // SAFETY: pointers and lengths are those of slices, and the image overlaps
    // with nothing.
    let told = unsafe {
        calls::zhav_open_session(file.as_ptr(), file.len(), image.as_mut_ptr(), image.len())
    };
    let fuses = answer(told.fuses, told.refusal)?;
    Ok(Session {
        fuses,
        steps: &file[told.first..told.first + told.steps],
    })
}

/// The steps of a reader's usual acts, in a lent buffer: from idle (VCC on, RST,
/// CLK and PGM low, I/O let go) back to idle, FUS kept. The count is the answer;
/// a refused act writes nothing.
pub mod maker {
    use crate::calls::{self, Made};

    fn count(made: Made) -> Result<usize, u8> {
        if made.refusal == 0 {
            Ok(made.count)
        } else {
            Err(made.refusal)
        }
    }

    /// Back to address 0; 2 steps.
    pub fn reset(fus: bool, out: &mut [u8]) -> Result<usize, u8> {
        // SAFETY: as for every act, pointer and length are those of a slice that
        // nothing else refers to.
        count(unsafe { calls::zhav_reset(fus.into(), out.as_mut_ptr(), out.len()) })
    }

    /// On by `n` addresses; 2n steps. Refused by 21 over 1519.
    pub fn walk(fus: bool, n: usize, out: &mut [u8]) -> Result<usize, u8> {
        // SAFETY: see `reset`.
        count(unsafe { calls::zhav_walk(fus.into(), n, out.as_mut_ptr(), out.len()) })
    }

    /// Shows 16 bits, the most significant first; 49 steps.
    pub fn show16(fus: bool, code: u16, out: &mut [u8]) -> Result<usize, u8> {
        // SAFETY: see `reset`.
        count(unsafe { calls::zhav_show16(fus.into(), code, out.as_mut_ptr(), out.len()) })
    }

    /// Shows 32 bits, the most significant first; 97 steps.
    pub fn show32(fus: bool, key: u32, out: &mut [u8]) -> Result<usize, u8> {
        // SAFETY: see `reset`.
        count(unsafe { calls::zhav_show32(fus.into(), key, out.as_mut_ptr(), out.len()) })
    }

    /// Programs: `true` erases, `false` writes; 6 steps.
    pub fn program(fus: bool, d: bool, out: &mut [u8]) -> Result<usize, u8> {
        // SAFETY: see `reset`.
        count(unsafe { calls::zhav_program(fus.into(), d.into(), out.as_mut_ptr(), out.len()) })
    }

    /// Writes with RST high, as blowing a fuse needs; 8 steps.
    pub fn blow(fus: bool, out: &mut [u8]) -> Result<usize, u8> {
        // SAFETY: see `reset`.
        count(unsafe { calls::zhav_blow(fus.into(), out.as_mut_ptr(), out.len()) })
    }

    /// Opens the card with its code and the byte of bits 96 to 103; 223 steps
    /// and two for every zero before that byte's first one. Refused by 23 if
    /// there is none.
    pub fn open(fus: bool, code: u16, attempts: u8, out: &mut [u8]) -> Result<usize, u8> {
        // SAFETY: see `reset`.
        count(unsafe { calls::zhav_open(fus.into(), code, attempts, out.as_mut_ptr(), out.len()) })
    }
}
