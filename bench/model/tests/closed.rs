//! A state that 9 lets pass never leads to one that 9 refuses.

mod common;

use common::{random_memory, random_sound, random_step, Chance};
use model::{state_check, step};

#[test]
fn sound_states_lead_to_sound_states() {
    let mut chance = Chance::new(9);
    let mut accepted = 0u32;
    let mut steps = 0u32;
    for _ in 0..60_000 {
        let mut memory = random_memory(&mut chance);
        let mut fuses = chance.byte() & 7;
        let mut volatile = random_sound(&mut chance);
        for _ in 0..60 {
            let next = random_step(&mut chance, volatile.lines);
            let before = memory;
            let result = step(&mut memory, fuses, volatile, next);
            steps += 1;
            match result.answer {
                Ok(answer) => {
                    accepted += 1;
                    assert!(answer <= 1);
                    assert!(
                        state_check(result.volatile),
                        "{volatile:?} and step {next} led to {:?}",
                        result.volatile
                    );
                    assert!(result.fuses <= fuses && result.fuses & !fuses == 0);
                }
                Err(number) => {
                    assert!((1..=7).contains(&number), "number {number}");
                    assert_eq!((result.fuses, result.volatile), (fuses, volatile));
                    assert_eq!(memory, before);
                }
            }
            fuses = result.fuses;
            volatile = result.volatile;
        }
    }
    assert!(
        steps > 3_000_000 && accepted > 2_000_000,
        "{accepted} of {steps}"
    );
}

#[test]
fn every_one_line_step_from_many_sound_states() {
    let mut chance = Chance::new(99);
    for _ in 0..200_000 {
        let memory = random_memory(&mut chance);
        let fuses = chance.byte() & 7;
        let volatile = random_sound(&mut chance);
        for line in [0, 1, 2, 4, 8, 16, 32] {
            let mut memory = memory;
            let result = step(&mut memory, fuses, volatile, volatile.lines ^ line);
            assert!(state_check(result.volatile), "{volatile:?} line {line}");
        }
    }
}
