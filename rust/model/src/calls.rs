//! A list of calls as words, run in one call. Each call of it is one of 01's: "Each later call gets
//! the state that the call before it gave back, the first one the opening's, and the same buffers."
use crate::columns::{cells, finish, rows, s_words, tables, State};

pub enum Call<'a> {
    Rows(&'a [u64]),
    SWords(&'a [u64]),
    Cells(&'a [u64]),
    Tables(&'a [u64]),
    Finish,
}

/// The calls of a list, each a kind, the number of its words, and the words; a finishing's are not
/// read. Nothing where one is cut short or of an unknown kind.
pub fn calls_of(list: &[u64]) -> Option<Vec<Call<'_>>> {
    let mut calls = vec![];
    let mut words = list;
    while !words.is_empty() {
        let [kind, count, rest @ ..] = words else { return None };
        if *count > rest.len() as u64 {
            return None;
        }
        let (piece, after) = rest.split_at(*count as usize);
        calls.push(match kind {
            1 => Call::Rows(piece),
            2 => Call::SWords(piece),
            3 => Call::Cells(piece),
            4 => Call::Tables(piece),
            5 => Call::Finish,
            _ => return None,
        });
        words = after;
    }
    Some(calls)
}

/// Runs a list: 20 where it is none, 10 where there is no room for the calls' numbers; neither
/// writes a word. Otherwise each call's number is written, and the last state is given back.
pub fn run_calls(
    state: &State,
    list: &[u64],
    numbers: &mut [u64],
    constants: &mut [u64],
    copies: &mut [u64],
    scratch: &mut [u64],
    table_words: &mut [u64],
) -> Result<State, u64> {
    let calls = calls_of(list).ok_or(20u64)?;
    if numbers.len() < calls.len() {
        return Err(10);
    }
    let mut held = state.clone();
    for (call, number) in calls.into_iter().zip(numbers) {
        let answer = match call {
            Call::Rows(piece) => rows(&held, piece, constants),
            Call::SWords(piece) => s_words(&held, piece, constants),
            Call::Cells(piece) => cells(&held, piece, copies, scratch),
            Call::Tables(piece) => tables(&held, piece, table_words),
            Call::Finish => finish(&held, copies, scratch),
        };
        match answer {
            Ok(after) => {
                held = after;
                *number = 0;
            }
            Err(refused) => *number = refused,
        }
    }
    Ok(held)
}
