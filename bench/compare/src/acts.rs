//! The maker's acts, on both sides.

use crate::chance::Chance;
use crate::found::Found;
use crate::kinds::Kind;
use crate::reached::Reached;

const UNTOUCHED: u8 = 165;

#[derive(Clone, Copy, Debug)]
enum Act {
    Reset,
    Walk(usize),
    Show16(u16),
    Show32(u32),
    Program(bool),
    Blow,
    Open(u16, u8),
}

fn by_card(act: Act, fus: bool, out: &mut [u8]) -> Result<usize, u8> {
    use zhavdurgon::maker;
    match act {
        Act::Reset => maker::reset(fus, out),
        Act::Walk(n) => maker::walk(fus, n, out),
        Act::Show16(code) => maker::show16(fus, code, out),
        Act::Show32(key) => maker::show32(fus, key, out),
        Act::Program(d) => maker::program(fus, d, out),
        Act::Blow => maker::blow(fus, out),
        Act::Open(code, attempts) => maker::open(fus, code, attempts, out),
    }
}

fn by_model(act: Act, fus: bool, out: &mut [u8]) -> Result<usize, u8> {
    use model::maker;
    match act {
        Act::Reset => maker::reset(fus, out),
        Act::Walk(n) => match u16::try_from(n) {
            Ok(n) => maker::walk(n, fus, out),
            Err(_) => Err(21),
        },
        Act::Show16(code) => maker::show16(code, fus, out),
        Act::Show32(key) => maker::show32(key, fus, out),
        Act::Program(d) => maker::program(d, fus, out),
        Act::Blow => maker::blow(fus, out),
        Act::Open(code, attempts) => maker::open(code, attempts, fus, out),
    }
}

fn any_act(chance: &mut Chance) -> Act {
    match chance.below(7) {
        0 => Act::Reset,
        1 => Act::Walk(match chance.below(3) {
            0 => chance.below(1530),
            1 => chance.pick(&[0, 1, 1518, 1519, 1520, 1521, 65_536, usize::MAX]),
            _ => chance.next() as usize >> chance.below(64),
        }),
        2 => Act::Show16(chance.word() as u16),
        3 => Act::Show32(chance.word()),
        4 => Act::Program(chance.one_in(2)),
        5 => Act::Blow,
        _ => Act::Open(
            chance.word() as u16,
            if chance.one_in(3) {
                (255u16 >> chance.below(9)) as u8
            } else {
                chance.byte()
            },
        ),
    }
}

/// One act into a buffer of about its length: the count or the refusal, and
/// every byte of the buffer.
pub fn act(chance: &mut Chance, reached: &mut Reached) -> Result<(), Found> {
    let act = any_act(chance);
    let fus = chance.one_in(2);
    let need = by_model(act, fus, &mut [0; 4096]).unwrap_or(8);
    let room = match chance.below(4) {
        0 => need,
        1 => need + chance.within(1, 9),
        2 => need.saturating_sub(chance.within(1, 3)),
        _ => chance.below(4096),
    };
    let mut out = vec![UNTOUCHED; room];
    let mut model_out = out.clone();
    let made = by_card(act, fus, &mut out);
    let expected = by_model(act, fus, &mut model_out);
    if made != expected || out != model_out {
        return Err(Found::Other(format!(
            "{act:?}, FUS {fus}, room for {room} steps\ncard:  {made:?}\nmodel: {expected:?}\n\
             the buffers {}",
            if out == model_out {
                "are alike"
            } else {
                "differ"
            },
        )));
    }
    let index = match act {
        Act::Reset => 0,
        Act::Walk(_) => 1,
        Act::Show16(_) => 2,
        Act::Show32(_) => 3,
        Act::Program(_) => 4,
        Act::Blow => 5,
        Act::Open(..) => 6,
    };
    let how = match made {
        Ok(_) => 0,
        Err(22) => 1,
        Err(_) => 2,
    };
    reached.note(Kind::Act, [index, how]);
    Ok(())
}
