//! Each wrong behaviour that can be switched on is noticed by a comparison with
//! the plain card. One test, as the choice is shared.

#![cfg(feature = "mutate")]

mod common;

use common::compare::{same_act, same_file, same_reason, same_run, same_step};
use common::Chance;
use model::mutate::{choose, WRONG};

/// The first comparison that differs, with its round.
fn noticed(seed: u64) -> Option<(u32, &'static str)> {
    let mut chance = Chance::new(seed);
    for round in 0..5_000 {
        for _ in 0..40 {
            if !same_step(&mut chance) {
                return Some((round, "step"));
            }
            if !same_reason(&mut chance) {
                return Some((round, "reason"));
            }
        }
        if !same_act(&mut chance) {
            return Some((round, "act"));
        }
        if !same_run(&mut chance) {
            return Some((round, "run"));
        }
        if !same_file(&mut chance) {
            return Some((round, "file"));
        }
    }
    None
}

#[test]
fn each_is_noticed() {
    let mut missed = vec![];
    for (number, name) in (1..).zip(WRONG) {
        choose(number);
        let found = noticed(u64::from(number));
        choose(0);
        println!("{number}: {name}: {found:?}");
        if found.is_none() {
            missed.push(number);
        }
    }
    assert!(missed.is_empty(), "not noticed: {missed:?}");
}
