//! The proved card beside the model: nanoseconds a step, by run, by single step
//! and by the thin call, and the ratio of the two.
//!
//! ```text
//! speed [--rounds N]                  the table
//! speed --count LINE WAY SIDE TIMES   one line so many times, for instruction counts
//! ```

mod lines;

use lines::Line;
use model::MOST_STEPS;
use std::hint::black_box;
use std::process::ExitCode;
use std::time::Instant;

#[derive(Clone, Copy, PartialEq)]
enum Way {
    Run,
    Step,
    Thin,
}

const WAYS: [(&str, Way); 3] = [("run", Way::Run), ("step", Way::Step), ("thin", Way::Thin)];

/// What comes out, handed back so that both sides can be held together: the
/// image, the fuse byte, and answers added up.
type Outcome = ([u8; 174], u8, u64);

/// A side: the card from power up through all steps, by the calls of a crate.
macro_rules! side {
    ($side:ident, $calls:ident, $fresh:ident, $thin:ident) => {
        fn $side(line: &Line, way: Way, answers: &mut [u8]) -> Outcome {
            let mut memory = line.memory;
            let mut fuses = line.fuses;
            let mut half = $calls::Volatile::$fresh();
            let mut ones = 0;
            match way {
                Way::Run => {
                    for steps in line.steps.chunks(MOST_STEPS) {
                        let ran = $calls::run(&mut memory, fuses, half, steps, answers);
                        (fuses, half) = (ran.fuses, ran.volatile);
                        ones += u64::from(answers[ran.done - 1]);
                    }
                }
                Way::Step => {
                    for &step in &line.steps {
                        let told = $calls::step(&mut memory, fuses, half, step);
                        (fuses, half) = (told.fuses, told.volatile);
                        ones += u64::from(told.answer.unwrap_or(9));
                    }
                }
                Way::Thin => return $thin(line),
            }
            (memory, fuses, ones)
        }
    };
}

side!(card, zhavdurgon, fresh, card_thin);
side!(model, model, default, model_thin);

fn card_thin(line: &Line) -> Outcome {
    let mut memory = line.memory;
    let mut fuses = line.fuses;
    let mut half = zhavdurgon::Volatile::fresh();
    let mut ones = 0;
    for &step in &line.steps {
        let told = zhavdurgon::step_at(&mut memory, fuses, &mut half, step);
        fuses = told.fuses;
        ones += u64::from(told.answer.unwrap_or(9));
    }
    (memory, fuses, ones)
}

/// The model's thin call is the step of a card that stands.
fn model_thin(line: &Line) -> Outcome {
    let mut card = model::Card::new(line.memory, line.fuses);
    let mut ones = 0;
    for &step in &line.steps {
        ones += u64::from(card.step(step).unwrap_or(9));
    }
    (card.memory, card.fuses, ones)
}

type Side = fn(&Line, Way, &mut [u8]) -> Outcome;

const SIDES: [(&str, Side); 2] = [("card", card), ("model", model)];

/// One line so many times over.
fn repeat(side: Side, line: &Line, way: Way, times: usize) {
    let mut answers = [0; MOST_STEPS];
    for _ in 0..times {
        black_box(side(black_box(line), way, &mut answers));
    }
}

/// Nanoseconds a step.
fn timed(side: Side, line: &Line, way: Way, times: usize) -> f64 {
    let start = Instant::now();
    repeat(side, line, way, times);
    start.elapsed().as_nanos() as f64 / (times * line.steps.len()) as f64
}

fn median(mut values: Vec<f64>) -> f64 {
    values.sort_by(f64::total_cmp);
    values[values.len() / 2]
}

/// Each line in every way: rounds of card and model in turn, the first of the
/// two changing from round to round.
fn table(rounds: usize) {
    println!(
        "{:<26}{:<6}{:>7}{:>10}{:>10}{:>8}",
        "line", "way", "steps", "card ns", "model ns", "ratio"
    );
    for line in &lines::all() {
        for (name, way) in WAYS {
            let mut answers = [0; MOST_STEPS];
            let same = card(line, way, &mut answers) == model(line, way, &mut answers);
            assert!(same, "card and model differ");
            let times = (400_000 / line.steps.len()).max(1);
            let (mut cards, mut models, mut ratios) = (vec![], vec![], vec![]);
            for round in 0..rounds {
                let (card_ns, model_ns);
                if round % 2 == 0 {
                    card_ns = timed(card, line, way, times);
                    model_ns = timed(model, line, way, times);
                } else {
                    model_ns = timed(model, line, way, times);
                    card_ns = timed(card, line, way, times);
                }
                cards.push(card_ns);
                models.push(model_ns);
                ratios.push(card_ns / model_ns);
            }
            println!(
                "{:<26}{name:<6}{:>7}{:>10.2}{:>10.2}{:>8.2}",
                line.name,
                line.steps.len(),
                median(cards),
                median(models),
                median(ratios)
            );
        }
    }
}

/// What `--count` names, if it is there.
fn count(words: &[String]) -> Option<()> {
    let [line, way, side, times] = words else {
        return None;
    };
    let lines = lines::all();
    let line = lines.get(line.parse::<usize>().ok()?)?;
    let way = WAYS.iter().find(|known| known.0 == way)?.1;
    let side = SIDES.iter().find(|known| known.0 == side)?.1;
    repeat(side, line, way, times.parse().ok()?);
    println!("{} {}", line.steps.len(), line.name);
    Some(())
}

fn main() -> ExitCode {
    let words: Vec<_> = std::env::args().skip(1).collect();
    let words: Vec<_> = words.iter().map(String::as_str).collect();
    let done = match words[..] {
        [] => {
            table(21);
            Some(())
        }
        ["--rounds", rounds] => rounds.parse().ok().map(table),
        ["--count", ..] => {
            let rest: Vec<_> = words[1..].iter().map(|word| word.to_string()).collect();
            count(&rest)
        }
        _ => None,
    };
    if done.is_none() {
        eprintln!("speed: no such words");
        return ExitCode::from(2);
    }
    ExitCode::SUCCESS
}
