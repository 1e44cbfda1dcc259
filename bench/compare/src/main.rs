//! The proved card against the model: the same calls on both sides, and every
//! number, byte and word that comes back compared.
//!
//! ```text
//! compare [--steps N] [--seed N]        compare N single steps, and all else beside them
//! compare --mutants [--seconds N]       each wrong behaviour of the model must be noticed
//! compare --record FILE [--sessions N]  write sessions with the model's texts
//! ```

mod acts;
mod chance;
mod files;
mod found;
mod goals;
mod journey;
mod kinds;
mod mutants;
mod reached;
mod reader;
mod record;
mod seen;
mod shrink;
mod steps;
mod values;
mod waveform;
mod words;
mod zones;

use chance::Chance;
use found::Found;
use kinds::ALL;
use reached::Reached;
use std::process::ExitCode;
use std::time::Instant;
use waveform::Case;

/// Cases on the brink of an effect, in a round.
const BRINKS: usize = 40;

/// Single steps of a case, to be followed by its runs.
fn single_steps(case: Case, reached: &mut Reached) -> Result<Case, Found> {
    match steps::single_steps(&case, Some(reached)) {
        Some(differs) => Err(Found::Steps { case, differs }),
        None => Ok(case),
    }
}

/// One round of everything, from its own seed.
fn round(seed: u64, reached: &mut Reached) -> Result<(), Found> {
    let mut chance = Chance::new(seed);
    let chance = &mut chance;
    for _ in 0..BRINKS {
        single_steps(waveform::brink(chance), reached)?;
    }
    let case = match chance.weighted(&[4, 40, 400, 100, 2]) {
        0 => reader::reader(chance, true, usize::MAX),
        1 => reader::reader(chance, false, 1000),
        2 => waveform::chance_steps(chance),
        3 => waveform::refused(chance),
        _ => waveform::long(chance),
    };
    let case = single_steps(case, reached)?;
    let seed = chance.next();
    if let Some(differs) = steps::runs(&case, &mut Chance::new(seed), Some(reached)) {
        return Err(Found::Runs {
            case,
            seed,
            differs,
        });
    }
    acts::act(chance, reached)?;
    files::file(chance, reached)
}

fn compare(steps: u64, seed: u64) -> ExitCode {
    println!("seed {seed}");
    let start = Instant::now();
    let mut reached = Reached::new();
    let mut seeds = Chance::new(seed);
    while reached.steps < steps {
        let seed = seeds.next();
        if let Err(found) = round(seed, &mut reached) {
            println!("round {seed}");
            found.show();
            return ExitCode::FAILURE;
        }
    }
    println!("{:>12}  single steps compared", reached.steps);
    println!("{:>12}  steps compared in runs", reached.run_steps);
    reached.print(ALL);
    let missing = reached.missing(ALL);
    if steps >= 1_000_000 && !missing.is_empty() {
        println!("not reached: {missing:#?}");
        return ExitCode::FAILURE;
    }
    println!("no difference, in {:.1} s", start.elapsed().as_secs_f64());
    ExitCode::SUCCESS
}

fn record(file: &str, sessions: usize, seed: u64) -> ExitCode {
    let made = record::record(&mut Chance::new(seed), sessions);
    made.reached.print(kinds::SESSIONS);
    if !made.missed.is_empty() {
        println!("not reached: {:#?}", made.missed);
        return ExitCode::FAILURE;
    }
    if let Err(error) = std::fs::write(file, &made.file) {
        eprintln!("{file}: {error}");
        return ExitCode::FAILURE;
    }
    let (sessions, bytes) = (made.sessions, made.file.len());
    println!("seed {seed}: {sessions} sessions, {bytes} bytes, to {file}");
    ExitCode::SUCCESS
}

fn main() -> ExitCode {
    let mut wanted = (10_000_000, 1, false, 10, None, 400);
    let mut words = std::env::args().skip(1);
    while let Some(word) = words.next() {
        let mut number = || words.next().and_then(|word| word.parse().ok());
        let known = match word.as_str() {
            "--steps" => number().map(|n| wanted.0 = n),
            "--seed" => number().map(|n| wanted.1 = n),
            "--mutants" => {
                wanted.2 = true;
                Some(())
            }
            "--seconds" => number().map(|n| wanted.3 = n),
            "--record" => words.next().map(|file| wanted.4 = Some(file)),
            "--sessions" => number().map(|n| wanted.5 = n),
            _ => None,
        };
        if known.is_none() {
            eprintln!(
                "compare: what is {word}?\n\
                 compare [--steps N] [--seed N]\n\
                 compare --mutants [--seconds N]\n\
                 compare --record FILE [--sessions N] [--seed N]"
            );
            return ExitCode::from(2);
        }
    }
    let (steps, seed, by_mutants, seconds, file, sessions) = wanted;
    match file {
        Some(file) => record(&file, sessions as usize, seed),
        None if by_mutants => mutants::all(seconds),
        None => compare(steps, seed),
    }
}
