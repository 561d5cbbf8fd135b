//! The command line.
use crate::memory::Memory;

pub const USAGE: &str =
    "speed [ROUNDS] [--seed K] [--count M] [--rounds R] [--mode kept|fresh|both] [--only I | --padding]";

pub struct Arguments {
    pub rounds: usize,
    pub seed: u64,
    /// How many random circuits.
    pub count: u64,
    pub memories: Vec<Memory>,
    /// One random circuit and nothing else.
    pub only: Option<u64>,
    /// Padding and nothing else.
    pub padding: bool,
}

fn number(text: Option<&String>) -> Option<u64> {
    text?.parse().ok()
}

fn memories(name: &str) -> Option<Vec<Memory>> {
    match name {
        "kept" => Some(vec![Memory::Kept]),
        "fresh" => Some(vec![Memory::Fresh]),
        "both" => Some(vec![Memory::Kept, Memory::Fresh]),
        _ => None,
    }
}

impl Arguments {
    /// `None` where they are not as the usage says.
    pub fn read(words: &[String]) -> Option<Arguments> {
        let mut all = Arguments {
            rounds: 15,
            seed: 1,
            count: 60,
            memories: memories("both")?,
            only: None,
            padding: false,
        };
        let mut words = words.iter();
        while let Some(word) = words.next() {
            match word.as_str() {
                "--seed" => all.seed = number(words.next())?,
                "--count" => all.count = number(words.next())?,
                "--rounds" => all.rounds = number(words.next())? as usize,
                "--mode" => all.memories = memories(words.next()?)?,
                "--only" => all.only = Some(number(words.next())?),
                "--padding" => all.padding = true,
                _ => all.rounds = number(Some(word))? as usize,
            }
        }
        (all.rounds > 0).then_some(all)
    }

    pub fn mode(&self) -> String {
        self.memories.iter().map(|memory| memory.name()).collect::<Vec<_>>().join(" and ")
    }
}
