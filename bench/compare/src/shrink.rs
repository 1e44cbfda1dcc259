//! A case that differs, made small.

use crate::steps::Differs;
use crate::waveform::Case;
use crate::words::Words;

/// Tries before a case is taken as small enough.
const MOST_TRIES: usize = 5_000;

/// Takes steps away for as long as a difference stays, then all that the memory
/// doesn't need.
pub fn steps(case: &Case, differs: impl Fn(&Case) -> Option<Differs>) -> Case {
    plain_memory(fewer_steps(case.clone(), &differs), &differs)
}

/// Every byte 255 but for those that the difference needs.
fn plain_memory(mut case: Case, differs: impl Fn(&Case) -> Option<Differs>) -> Case {
    for byte in 0..case.memory.len() {
        let mut tried = case.clone();
        tried.memory[byte] = 255;
        if differs(&tried).is_some() {
            case = tried;
        }
    }
    case
}

fn fewer_steps(mut small: Case, differs: impl Fn(&Case) -> Option<Differs>) -> Case {
    let mut tries = 0;
    let mut part = small.steps.len().div_ceil(2).max(1);
    loop {
        let mut shrunk = false;
        let mut at = 0;
        while at < small.steps.len() && tries < MOST_TRIES {
            let end = (at + part).min(small.steps.len());
            let mut tried = small.clone();
            tried.steps.drain(at..end);
            tries += 1;
            if let Some(found) = differs(&tried) {
                tried.steps.truncate(found.at + 1);
                small = tried;
                shrunk = true;
            } else {
                at += part;
            }
        }
        if tries >= MOST_TRIES || part == 1 && !shrunk {
            return small;
        }
        // A pair of edges of one line often goes only together.
        part = if shrunk && part <= 2 {
            2
        } else {
            (part / 2).max(1)
        };
    }
}

/// The state just before the difference and the one step from there, with as
/// little in the memory and the flags as the difference needs.
pub fn last_step(
    case: &Case,
    at: usize,
    differs: impl Fn(&Case) -> Option<Differs>,
) -> Option<Case> {
    let mut one = case.clone();
    for &step in &case.steps[..at] {
        let told = zhavdurgon::step(&mut one.memory, one.fuses, one.start, step);
        (one.fuses, one.start) = (told.fuses, told.volatile);
    }
    one.steps = vec![*case.steps.get(at)?];
    differs(&one)?;
    one = plain_memory(one, &differs);
    for flag in [Words::SV, Words::P1, Words::R1, Words::E1, Words::MATCH] {
        let mut tried = one.clone();
        tried.start.flags &= !flag;
        if differs(&tried).is_some() {
            one = tried;
        }
    }
    Some(one)
}

/// Steps as numbers, a part that is repeated being told once.
fn told(steps: &[u8]) -> String {
    let mut words = vec![];
    let mut at = 0;
    while at < steps.len() {
        let rest = &steps[at..];
        let times = |size: usize| {
            let part = &rest[..size];
            rest.chunks_exact(size)
                .take_while(|chunk| chunk == &part)
                .count()
        };
        let best = (1..=3.min(rest.len())).max_by_key(|&size| size * times(size));
        let (size, times) = match best {
            Some(size) if times(size) > 2 => (size, times(size)),
            _ => (1, 1),
        };
        let part: Vec<_> = rest[..size].iter().map(u8::to_string).collect();
        if times > 1 {
            words.push(format!("({})x{times}", part.join(" ")));
        } else {
            words.push(part.join(" "));
        }
        at += size * times;
    }
    words.join(" ")
}

pub fn print(case: &Case) {
    let others = case.memory.iter().enumerate().filter(|byte| *byte.1 != 255);
    let others: Vec<_> = others.map(|(at, byte)| format!("{at}: {byte}")).collect();
    println!(
        "  memory of {} bytes, 255 but for {{{}}}",
        case.memory.len(),
        others.join(", ")
    );
    println!("  fuses {}, {:?}", case.fuses, case.start);
    println!("  {} steps: {}", case.steps.len(), told(&case.steps));
}
