//! The calls as the header declares them.

use crate::Volatile;

#[repr(C)]
pub struct Stepped {
    pub half: Volatile,
    pub fuses: u8,
    pub answer: u8,
    pub refusal: u8,
}

#[repr(C)]
pub struct Told {
    pub fuses: u8,
    pub answer: u8,
    pub refusal: u8,
}

#[repr(C)]
pub struct Ran {
    pub half: Volatile,
    pub done: usize,
    pub fuses: u8,
    pub refusal: u8,
}

#[repr(C)]
pub struct Flags {
    pub sv: u8,
    pub p1: u8,
    pub r1: u8,
    pub e1: u8,
    pub refusal: u8,
}

#[repr(C)]
pub struct Reason {
    pub reason: u8,
    pub refusal: u8,
}

#[repr(C)]
pub struct Made {
    pub count: usize,
    pub refusal: u8,
}

#[repr(C)]
pub struct Card {
    pub fuses: u8,
    pub refusal: u8,
}

#[repr(C)]
pub struct Session {
    pub first: usize,
    pub steps: usize,
    pub fuses: u8,
    pub refusal: u8,
}

// The sizes that the header's structs have.
const _: () = {
    assert!(size_of::<Volatile>() == 12 && size_of::<Stepped>() == 16);
    assert!(size_of::<Told>() == 3 && size_of::<Flags>() == 5);
    assert!(size_of::<Ran>() == 32 && size_of::<Made>() == 16);
    assert!(size_of::<Reason>() == 2);
    assert!(size_of::<Card>() == 2 && size_of::<Session>() == 24);
};

extern "C" {
    pub fn zhav_version() -> u32;
    pub fn zhav_fresh() -> Volatile;
    pub fn zhav_step(image: *mut u8, image_len: usize, fuses: u8, v: Volatile, n: u8) -> Stepped;
    pub fn zhav_step_at(
        image: *mut u8,
        image_len: usize,
        fuses: u8,
        v: *mut Volatile,
        n: u8,
    ) -> Told;
    pub fn zhav_run(
        image: *mut u8,
        image_len: usize,
        fuses: u8,
        v: Volatile,
        steps: *const u8,
        steps_len: usize,
        answers: *mut u8,
        answers_len: usize,
    ) -> Ran;
    pub fn zhav_flags(v: Volatile) -> Flags;
    pub fn zhav_tries_left(image: *const u8, image_len: usize) -> u32;
    pub fn zhav_reason(image: *const u8, image_len: usize, fuses: u8, v: Volatile) -> Reason;
    pub fn zhav_open_card(
        file: *const u8,
        file_len: usize,
        memory: *mut u8,
        memory_len: usize,
    ) -> Card;
    pub fn zhav_open_session(
        file: *const u8,
        file_len: usize,
        memory: *mut u8,
        memory_len: usize,
    ) -> Session;
    pub fn zhav_reset(fus: u8, out: *mut u8, out_len: usize) -> Made;
    pub fn zhav_walk(fus: u8, n: usize, out: *mut u8, out_len: usize) -> Made;
    pub fn zhav_show16(fus: u8, code: u16, out: *mut u8, out_len: usize) -> Made;
    pub fn zhav_show32(fus: u8, key: u32, out: *mut u8, out_len: usize) -> Made;
    pub fn zhav_program(fus: u8, d: u8, out: *mut u8, out_len: usize) -> Made;
    pub fn zhav_blow(fus: u8, out: *mut u8, out_len: usize) -> Made;
    pub fn zhav_open(fus: u8, code: u16, attempts: u8, out: *mut u8, out_len: usize) -> Made;
}
