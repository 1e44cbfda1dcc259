//! Sessions through the safe functions.

use zhavdurgon::{flags, maker, open_session, refusal, run, step_at, tries_left, Volatile};

fn session(memory: &[u8; 174], fuses: u8, steps: &[u8]) -> Vec<u8> {
    let mut bytes = vec![174, 0];
    bytes.extend(memory);
    bytes.extend([1, 0, fuses]);
    bytes.extend((steps.len() as u16).to_le_bytes());
    bytes.extend(steps);
    bytes
}

#[test]
fn case_s() {
    let mut memory = [255; 174];
    memory[0] = 127;
    let bytes = session(&memory, 7, &[16, 48, 49, 53, 49, 51, 49, 55]);
    let mut image = [0; 174];
    let opened = open_session(&bytes, &mut image).unwrap();
    let mut answers = [9; 8];
    let ran = run(
        &mut image,
        opened.fuses,
        Volatile::fresh(),
        opened.steps,
        &mut answers,
    );
    assert_eq!((ran.done, ran.refusal), (7, refusal::LINES_DIFFER));
    assert_eq!(answers, [1, 1, 0, 0, 1, 1, 0, 9]);
    assert_eq!(tries_left(&image), 8);
}

#[test]
fn the_code_opens_the_card() {
    let mut image = [255; 174];
    (image[10], image[11]) = (0xc0, 0xde);
    let mut half = Volatile::fresh();
    let mut fuses = 7;
    let mut steps = vec![16, 17];
    let mut open = [0; 300];
    let count = maker::open(false, 0xc0de, image[12], &mut open).unwrap();
    steps.extend(&open[..count]);
    for step in steps {
        let told = step_at(&mut image, fuses, &mut half, step);
        assert!(told.answer.is_ok());
        fuses = told.fuses;
    }
    assert!(flags(half).unwrap().sv);
    assert_eq!((half.address, tries_left(&image)), (96, 8));
}

#[test]
fn empty_buffers_are_refused() {
    let fresh = Volatile::fresh();
    let ran = run(&mut [], 7, fresh, &[], &mut []);
    assert_eq!((ran.done, ran.refusal), (0, refusal::MEMORY));
    assert_eq!(open_session(&[], &mut [0; 174]), Err(refusal::FILE_SHORT));
    assert_eq!(maker::reset(false, &mut []), Err(refusal::BUFFER));
    assert_eq!(tries_left(&[]), 0);
}
