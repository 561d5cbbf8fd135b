//! Inputs of the program `setup`, and what both judges say it has to print.
use crate::circuit::{Circuit, PLACEHOLDER};
use crate::differences;
use crate::faults;
use crate::generate::{self, Size};
use crate::random::Random;
use model::field::P;

/// The longest input that the program takes.
pub const MOST_BYTES: usize = 65536;

pub fn bytes(words: &[u64]) -> Vec<u8> {
    words.iter().flat_map(|word| word.to_le_bytes()).collect()
}

fn with(mut circuit: Circuit, change: &dyn Fn(&mut Circuit)) -> Circuit {
    change(&mut circuit);
    circuit
}

/// Every reason of 20, and the longest input that is no such reason.
fn malformed() -> Vec<Vec<u8>> {
    let good = Circuit::nop(1, 1, 0).listing();
    let before_tables = &good[..good.len() - 1];
    let mut all: Vec<Vec<u64>> = (0..good.len()).map(|length| good[..length].to_vec()).collect();
    all.push([&good[..], &[0]].concat());
    all.extend([0, 7, 9, u64::MAX].map(|count| [&[count], &good[1..]].concat()));
    all.push([&good[..9], &[6148914691236517206, 0, 0]].concat());
    all.push([&good[..13], &[1, 0, u64::MAX - 1]].concat());
    let whole = [1 << 32, u64::MAX, 1, 0, u64::MAX];
    for (width, rows) in whole.into_iter().zip([1 << 32, u64::MAX, u64::MAX - 1, u64::MAX, 0]) {
        all.push([before_tables, &[1, width, rows]].concat());
    }
    for cells in [8173, 8174] {
        all.push(with(Circuit::nop(1, 1, 0), &|x| x.cells = vec![0; cells]).listing());
    }
    let mut inputs: Vec<Vec<u8>> = all.iter().map(|words| bytes(words)).collect();
    inputs.extend([1, 7].map(|odd| [bytes(&good), vec![0; odd]].concat()));
    inputs
}

/// Two faults in one input: the number is that of the earlier section.
fn two_faults() -> Vec<Circuit> {
    let faults: [&dyn Fn(&mut Circuit); 7] = [
        &|x| x.parameters[0] = 3,
        &|x| x.gates[0] = [9, 0, 0],
        &|x| x.parameters[4] = 5000,
        &|x| x.rows = vec![vec![1, 0]],
        &|x| x.s_words = vec![P],
        &|x| x.cells = vec![5000],
        &|x| x.tables = vec![vec![1, 1, P]],
    ];
    let mut all = vec![];
    for (i, first) in faults.iter().enumerate() {
        for second in &faults[i..] {
            all.push(with(with(Circuit::nop(1, 1, 1), first), second));
        }
    }
    all
}

/// The ends of what is taken, beside the refusals of the table of differences.
fn ends() -> Vec<Circuit> {
    let tall = |x: &mut Circuit| {
        x.rows.clear();
        x.cells.clear();
    };
    let index = |v: u64| with(Circuit::nop(1, 1, 4096), &|x: &mut Circuit| x.cells = vec![v]);
    let two = Circuit::plain([2, 1, 0, 0, 0, 0, 0, 0], &[[0, 2, 0], [1, 0, 0]]);
    let value = |w: u64| {
        with(Circuit::plain([1, 1, 1, 1, 0, 0, 0, 0], &[[0, 1, 1]]), &|x| {
            x.rows = vec![vec![0, 1, w]];
            x.s_words = vec![w];
        })
    };
    let barred = |rows: &[&[u64]]| {
        let x = Circuit::plain([2, 1, 0, 0, 0, 0, 0, 0], &[[0, 64, 0], [2, 0, 0]]);
        with(x, &|x| x.rows = rows.iter().map(|row| row.to_vec()).collect())
    };
    vec![
        Circuit::nop(1, 1, 0),
        with(Circuit::nop(65536, 1, 0), &tall),
        with(Circuit::nop(131072, 1, 0), &tall),
        Circuit::nop(1, 1, 4096),
        Circuit::nop(1, 1, 4097),
        index(4095),
        index(4096),
        index(4095 | 1 << 62),
        index(u64::MAX),
        Circuit::plain([64, 1, 0, 0, 0, 0, 0, 0], &[[0, 2, 0]; 64]),
        Circuit::plain([128, 1, 0, 0, 0, 0, 0, 0], &[[0, 2, 0]; 65]),
        with(two, &|x| x.rows = vec![vec![1, 0], vec![1, 0]]),
        value(P - 1),
        value(P),
        // a lone kind 2 gate; one without selector, the all-0 path being a kind 1 gate's
        Circuit::plain([1, 1, 0, 0, 0, 0, 0, 0], &[[2, 0, 0]]),
        Circuit::plain([4, 1, 0, 0, 0, 0, 0, 0], &[[0, 2, 0], [2, 0, 0], [1, 0, 0]]),
        // another gate's: 23, also past N, 12 before it, 17 without such a row
        barred(&[&[0, 0], &[1, 0]]),
        barred(&[&[0, 0], &[0, 0], &[1, 0]]),
        barred(&[&[0, 0], &[1, 1, 5]]),
        barred(&[&[0, 0], &[0, 0]]),
        // the lookup gate's, with a kind 1 gate on another path
        Circuit::plain([4, 1, 0, 0, 0, 1, 1, 1], &[[3, 0, 0], [0, 2, 0], [1, 0, 0], [2, 0, 0]]),
    ]
}

/// A random circuit that document 01 accepts and whose listing the program takes.
fn accepted(r: &mut Random, mode: u64, most: usize) -> Circuit {
    loop {
        let circuit = generate::circuit(r, Size::Small);
        let words = circuit.listing();
        let printed = model::program(&bytes(&words));
        if circuit.parameters[5] == mode && words.len() <= most && printed.starts_with("plan") {
            return circuit;
        }
    }
}

/// The inputs of the recording.
pub fn recorded(seed: u64) -> Vec<Vec<u8>> {
    let mut r = Random::new(seed);
    let mut circuits = vec![Circuit::worked()];
    circuits.extend(ends());
    circuits.extend(two_faults());
    circuits.extend(differences::cases().into_iter().map(|case| case.circuit));
    for mode in 0..5 {
        circuits.extend((0..8).map(|_| accepted(&mut r, mode, 400)));
    }
    let fits = |input: &Vec<u8>| input.len() <= MOST_BYTES;
    let mut inputs: Vec<Vec<u8>> = circuits.iter().map(|x| bytes(&x.listing())).collect();
    inputs.retain(fits);
    inputs.extend(malformed());
    inputs
}

/// What the program has to print: the model's text, and where document 01 accepts, the
/// original's too. An error where the two differ.
pub fn expected(input: &[u8]) -> Result<String, String> {
    let text = model::program(input);
    if text.starts_with("refused") {
        return Ok(text);
    }
    let words: Vec<u64> =
        input.chunks(8).map(|word| u64::from_le_bytes(word.try_into().unwrap())).collect();
    match oracle::outcome(&words, 1) {
        oracle::Outcome::Made(output) if output.text() == text => Ok(text),
        _ => Err("the judges differ".to_string()),
    }
}

/// Words that are near an end of something.
const NASTY: [u64; 10] = [0, 1, 2, 9, 255, 1 << 32, P - 1, P, PLACEHOLDER, u64::MAX];

/// A random input: a circuit, one with a fault, or one whose words or bytes were changed.
pub fn random(r: &mut Random) -> Vec<u8> {
    let mut circuit = generate::circuit(r, Size::Small);
    let kind = r.within(0, 3);
    if kind == 1 {
        faults::fault(r, &mut circuit);
    }
    let mut words = circuit.listing();
    if kind == 2 {
        for _ in 0..r.within(1, 2) {
            let place = r.within(0, words.len() as u64 - 1) as usize;
            words[place] = r.pick(&NASTY);
        }
    }
    let mut input = bytes(&words);
    if kind == 3 {
        match r.within(0, 2) {
            0 => input.truncate(r.within(0, input.len() as u64 - 1) as usize),
            1 => input.extend(vec![0; r.within(1, 16) as usize]),
            _ => drop(input.drain(..8)),
        }
    }
    input
}
