//! Lists of calls in one call: a circuit's own pieces with refused calls among them, and on a copy
//! of both sides lists with any calls, lists that are none, and short numbers.
use crate::circuit::Circuit;
use crate::encoding::STATE_WORDS;
use crate::figures::Figures;
use crate::random::Random;
use crate::rest::{Rest, Section, SECTIONS};
use crate::script::accepted;
use crate::sides::*;
use crate::strays::{change, faulty, place, MOST_COPIED};
use model::calls::{self, calls_of};

type Try = Result<(), String>;

const FINISH: u64 = 5;

/// A list as words, and where each of its calls begins.
#[derive(Default)]
pub struct Batch {
    pub words: Vec<u64>,
    starts: Vec<usize>,
}

impl Batch {
    fn push(&mut self, kind: u64, piece: &[u64]) {
        self.starts.push(self.words.len());
        self.words.extend([kind, piece.len() as u64]);
        self.words.extend(piece);
    }

    pub fn piece(&mut self, section: Section, piece: &[u64]) {
        let kind = match section {
            Section::Rows => 1,
            Section::SWords => 2,
            Section::Cells => 3,
            Section::Tables => 4,
        };
        self.push(kind, piece);
    }

    /// The words of a finishing are not read: any will do.
    pub fn finish(&mut self, r: &mut Random) {
        let length = r.pick(&[0, 0, 1, 5]);
        self.push(FINISH, &junk(r, length));
    }
}

/// Makes a list, whose calls have to answer these numbers.
fn answers(sides: &mut Sides, figures: &mut Figures, batch: &Batch, wanted: &[u64]) -> Try {
    accepted(sides, figures, Call::Calls(&batch.words))?;
    match &sides.library[NUMBERS][..wanted.len()] {
        met if met == wanted => Ok(()),
        met => Err(format!("calls in a list answered {met:?}, not {wanted:?}")),
    }
}

/// Some of the next pieces as one list, and among them a row that is refused, with its number.
pub fn next(
    r: &mut Random,
    sides: &mut Sides,
    figures: &mut Figures,
    rest: &mut Rest,
    (row, number): ([u64; 2], u64),
) -> Try {
    let (mut batch, mut wanted) = (Batch::default(), vec![]);
    for _ in 0..r.within(0, MOST_CALLS as u64 / 2) {
        if r.once_in(4) {
            batch.piece(Section::Rows, &row);
            wanted.push(number);
        }
        let section = r.pick(&SECTIONS);
        batch.piece(section, &rest.piece(r, section));
        wanted.push(0);
    }
    answers(sides, figures, &batch, &wanted)
}

/// Finishing in a list, and once more after it.
pub fn finish(r: &mut Random, sides: &mut Sides, figures: &mut Figures) -> Try {
    let mut batch = Batch::default();
    batch.finish(r);
    batch.finish(r);
    batch.piece(Section::Cells, &[]);
    answers(sides, figures, &batch, &[0, 19, 19])
}

/// Next pieces, faulty ones and finishings in any order.
fn any(r: &mut Random, x: &Circuit, rest: &Rest) -> Batch {
    let (mut batch, mut rest) = (Batch::default(), *rest);
    for _ in 0..r.within(1, 8) {
        let section = r.pick(&SECTIONS);
        match r.within(0, 9) {
            0..=5 => batch.piece(section, &rest.piece(r, section)),
            6..=8 => batch.piece(section, &faulty(r, x, &rest, section)),
            _ => batch.finish(r),
        }
    }
    if r.once_in(3) {
        for section in SECTIONS {
            batch.piece(section, &rest.all(section));
        }
        batch.finish(r);
    }
    batch
}

/// Makes a list that is none: cut short, with an unknown kind, or with another number of words.
fn broken(r: &mut Random, mut batch: Batch) -> Vec<u64> {
    let start = r.pick(&batch.starts);
    let (count, left) = (batch.words[start + 1], (batch.words.len() - start - 2) as u64);
    match r.within(0, 2) {
        0 => batch.words.truncate(r.within(0, batch.words.len() as u64) as usize),
        1 => batch.words[start] = r.pick(&[0, 6, 1 << 32, u64::MAX]),
        _ => {
            let huge = [left + 1, 1 << 61, (1 << 61) - 1, 1 << 63, u64::MAX - 1, u64::MAX];
            batch.words[start + 1] = r.ends(&huge, count + 1, count + 3);
        }
    }
    batch.words
}

/// The same calls one by one leave the same words, and answer the same numbers.
fn one_by_one(mut single: Sides, figures: &mut Figures, list: &[u64], listed: &Sides) -> Try {
    for (place, call) in calls_of(list).into_iter().flatten().enumerate() {
        let call = match call {
            calls::Call::Rows(piece) => Call::Rows(piece),
            calls::Call::SWords(piece) => Call::SWords(piece),
            calls::Call::Cells(piece) => Call::Cells(piece),
            calls::Call::Tables(piece) => Call::Tables(piece),
            calls::Call::Finish => Call::Finish,
        };
        let number = single.make(figures, call)?;
        let in_list = listed.library[NUMBERS][place];
        if number != in_list {
            return Err(format!("call {place} of a list answered {in_list}, alone {number}"));
        }
    }
    let buffers = [STATE, CONSTANTS, COPIES, SCRATCH, TABLES];
    match buffers.into_iter().find(|buffer| single.library[*buffer] != listed.library[*buffer]) {
        Some(buffer) => Err(format!("a list and its calls one by one differ: {}", NAMES[buffer])),
        None => Ok(()),
    }
}

/// A list among a circuit's own calls, which leaves both sides as they were.
pub fn stray(
    r: &mut Random,
    sides: &Sides,
    figures: &mut Figures,
    x: &Circuit,
    rest: &Rest,
    named: [u64; 4],
) -> Try {
    if sides.size() > MOST_COPIED {
        return Ok(());
    }
    let mut aside = sides.clone();
    let batch = any(r, x, rest);
    let calls = batch.starts.len();
    match r.within(0, 9) {
        0..=2 => {
            let words = broken(r, batch);
            return aside.make(figures, Call::Calls(&words)).map(drop);
        }
        3 => {
            aside.lent[NUMBERS] = r.ends(&[calls as u64 - 1], 0, calls as u64 - 1) as usize;
            return match aside.make(figures, Call::Calls(&batch.words))? {
                10 => Ok(()),
                number => Err(format!("short numbers: {number}")),
            };
        }
        4 => aside.lent[NUMBERS] = calls,
        5 => aside.lent[STATE] = r.pick(&[0, 1162, STATE_WORDS - 1, STATE_WORDS + 1]),
        6 => {
            let place = place(r, STATE_WORDS);
            change(r, &mut aside, STATE, place);
        }
        7 => {
            let short = r.within(0, 3) as usize;
            let length = named[short];
            if length > 0 {
                aside.lent[CONSTANTS + short] = r.ends(&[length - 1], 0, length - 1) as usize;
            }
        }
        8 if !aside.library[SCRATCH].is_empty() => {
            let place = r.within(0, aside.library[SCRATCH].len() as u64 - 1);
            change(r, &mut aside, SCRATCH, place as usize);
        }
        _ => {}
    }
    let before = aside.clone();
    accepted(&mut aside, figures, Call::Calls(&batch.words))?;
    one_by_one(before, figures, &batch.words, &aside)
}
