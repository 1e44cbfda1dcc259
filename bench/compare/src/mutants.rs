//! The comparison shown able to fail: each wrong behaviour of the model is
//! switched on and must be noticed.

use crate::chance::Chance;
use crate::found::Found;
use crate::reached::Reached;
use crate::round;
use model::mutate::{choose, WRONG};
use std::process::ExitCode;
use std::time::{Duration, Instant};

fn noticed(seed: u64, most: Duration) -> Option<(Found, u64, Duration)> {
    let start = Instant::now();
    let mut reached = Reached::new();
    let mut seeds = Chance::new(seed);
    while start.elapsed() < most {
        if let Err(found) = round(seeds.next(), &mut reached) {
            return Some((found, reached.steps, start.elapsed()));
        }
    }
    None
}

/// Each wrong behaviour for at most so many seconds.
pub fn all(seconds: u64) -> ExitCode {
    let mut missed = vec![];
    for (number, name) in (1..).zip(WRONG) {
        choose(number);
        println!("\nwrong behaviour {number}: {name}");
        match noticed(number.into(), Duration::from_secs(seconds)) {
            Some((found, steps, time)) => {
                found.show();
                println!("noticed after {steps} steps, {:.3} s", time.as_secs_f64());
            }
            None => {
                println!("not noticed");
                missed.push(number);
            }
        }
        choose(0);
    }
    println!(
        "\n{} of {} noticed",
        WRONG.len() - missed.len(),
        WRONG.len()
    );
    if missed.is_empty() {
        ExitCode::SUCCESS
    } else {
        println!("missed: {missed:?}");
        ExitCode::FAILURE
    }
}
