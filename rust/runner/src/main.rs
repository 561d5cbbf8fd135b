//! The runner: the model of document 01 beside the original Rust.
//!
//!   runner cases                  the model against answers that 01 states
//!   runner random COUNT SEED      COUNT accepted random circuits
//!   runner corners                the largest circuit of each mode
//!   runner exhaustive             all small gate lists
//!   runner differences            what the Rust does with circuits that 01 turns down
//!   runner faults COUNT SEED      COUNT circuits refused for one random fault
//!   runner pad COUNT SEED         COUNT unpadded random circuits, padded by both
//!   runner program PATH COUNT SEED  the built program on COUNT random inputs
//!   runner record FOLDER SEED     write the recorded answers
//!
//! Built without the original (no cfg upstream) it has the first command alone.
mod cases;
#[cfg_attr(not(upstream), allow(dead_code))]
mod circuit;
mod made_up;

#[cfg(upstream)]
mod beside;
#[cfg(upstream)]
mod compare;
#[cfg(upstream)]
mod differences;
#[cfg(upstream)]
mod exhaustive;
#[cfg(upstream)]
mod faults;
#[cfg(upstream)]
mod figures;
#[cfg(upstream)]
mod generate;
#[cfg(upstream)]
mod listings;
#[cfg(upstream)]
mod lists;
#[cfg(upstream)]
mod padding;
#[cfg(upstream)]
mod pieces;
#[cfg(upstream)]
mod program;
#[cfg(upstream)]
mod random;
#[cfg(upstream)]
mod record;
#[cfg(upstream)]
mod switched;
#[cfg(upstream)]
mod unpadded;

#[cfg(not(upstream))]
mod beside {
    pub fn command(_: &[&str]) -> Option<bool> {
        None
    }
}

fn main() {
    let arguments: Vec<String> = std::env::args().skip(1).collect();
    let arguments: Vec<&str> = arguments.iter().map(|x| x.as_str()).collect();
    let good = match arguments[..] {
        ["cases"] => Some(cases::run()),
        _ => beside::command(&arguments),
    };
    match good {
        Some(true) => {}
        Some(false) => std::process::exit(1),
        None => {
            eprintln!("no such command, or the runner was built without the original");
            std::process::exit(2)
        }
    }
}
