//! A difference between the card and the model, and how it is shown.

use crate::chance::Chance;
use crate::files;
use crate::shrink;
use crate::steps::{self, Differs};
use crate::waveform::Case;

pub enum Found {
    Steps {
        case: Case,
        differs: Differs,
    },
    Runs {
        case: Case,
        seed: u64,
        differs: Differs,
    },
    Text {
        case: Case,
        differs: Differs,
    },
    Other(String),
}

fn shrunk(case: &Case, differs: impl Fn(&Case) -> Option<Differs>) {
    println!("shrunk:");
    shrink::print(&shrink::steps(case, differs));
}

impl Found {
    /// Shows the difference as it was found, and shrunk.
    pub fn show(&self) {
        match self {
            Found::Steps { case, differs } => {
                println!("a step differs\n{}", differs.text);
                let by_step = |case: &Case| steps::single_steps(case, None);
                let mut up_to = case.clone();
                up_to.steps.truncate(differs.at + 1);
                shrunk(&up_to, by_step);
                if let Some(one) = shrink::last_step(case, differs.at, by_step) {
                    println!("from the state before it:");
                    shrink::print(&one);
                }
            }
            Found::Runs {
                case,
                seed,
                differs,
            } => {
                println!("a run differs\n{}", differs.text);
                shrunk(case, |case| {
                    steps::runs(case, &mut Chance::new(*seed), None)
                });
            }
            Found::Text { case, differs } => {
                println!("the text of a session differs\n{}", differs.text);
                shrunk(case, files::text);
            }
            Found::Other(text) => println!("{text}"),
        }
    }
}
