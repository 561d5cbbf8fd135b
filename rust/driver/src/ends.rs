//! Document 01's "Run only" cases, the ends of what is taken, those of document 02's padding, and
//! its rows that are refused with 23.
use crate::beside_original;
use crate::circuit::{Circuit, PLACEHOLDER};
use crate::encoding::{NODE_COUNT, PLAN_WORDS};
use crate::figures::Figures;
use crate::padding;
use crate::random::Random;
use crate::script::{self, accepted, opened, planned, refused, End};
use crate::sides::{Call, Sides, PLAN};

const MOST_VARIABLES: u64 = 1048576;

fn ready(r: &mut Random, f: &mut Figures, x: &Circuit) -> Result<Sides, String> {
    let mut sides = Sides::new(r);
    match planned(r, &mut sides, f, x)? {
        true => opened(r, &mut sides, f)?,
        false => return Err("planning was refused: 8".to_string()),
    }
    Ok(sides)
}

/// "N=65,536 taken, 131,072 gives 1."
fn trace(r: &mut Random, f: &mut Figures) -> Result<(), String> {
    let mut x = Circuit::plain([65536, 2, 0, 1, 3, 0, 0, 0], &[[1, 0, 0]]);
    x.cells = vec![2; 65536];
    x.cells.extend(vec![PLACEHOLDER; 65535]);
    let mut sides = ready(r, f, &x)?;
    accepted(&mut sides, f, Call::Rows(&x.rows.concat()))?;
    accepted(&mut sides, f, Call::SWords(&x.s_words))?;
    accepted(&mut sides, f, Call::Cells(&x.cells))?;
    refused(&mut sides, f, Call::Cells(&[0, 0]), 13)?;
    x.cells.push(0);
    accepted(&mut sides, f, Call::Cells(&[0]))?;
    accepted(&mut sides, f, Call::Finish)?;
    beside_original(r, f, &x, End::Finished(sides))?;
    let parameters = [131072, 2, 0, 1, 3, 0, 0, 0];
    refused(&mut Sides::new(r), f, Call::Plan(&parameters, &[1, 0, 0]), 1)
}

/// "Index V−1 taken, V gives 14." At the greatest V, also with unread bits set.
fn index(r: &mut Random, f: &mut Figures) -> Result<(), String> {
    let v = MOST_VARIABLES;
    let mut x = Circuit::plain([4, 1, 0, 0, v, 0, 0, 0], &[[1, 0, 0]]);
    x.cells = vec![v - 1, v - 1 | 1 << 62, 0, PLACEHOLDER | v];
    let mut sides = ready(r, f, &x)?;
    accepted(&mut sides, f, Call::Rows(&x.rows.concat()))?;
    for word in [v, v + (1 << 32), v | 1 << 62, (1 << 48) - 1] {
        refused(&mut sides, f, Call::Cells(&[v - 1, word]), 14)?;
    }
    accepted(&mut sides, f, Call::Cells(&x.cells))?;
    accepted(&mut sides, f, Call::Finish)?;
    beside_original(r, f, &x, End::Finished(sides))?;
    let parameters = [4, 1, 0, 0, v + 1, 0, 0, 0];
    refused(&mut Sides::new(r), f, Call::Plan(&parameters, &[1, 0, 0]), 1)
}

/// "64 gates (0,2,0) placed at target 8; 65 give 8."
fn gates(r: &mut Random, f: &mut Figures) -> Result<(), String> {
    let parameters = [128, 1, 0, 0, 0, 0, 0, 0];
    let x = Circuit::plain(parameters, &[[0, 2, 0]; 64]);
    let end = script::run(r, f, &x)?;
    match &end {
        End::Finished(sides) if sides.library[PLAN][NODE_COUNT + 1..PLAN_WORDS] == [8, 6, 8] => {}
        _ => return Err("64 gates: not placed, or D, K, F other than 8, 6, 8".to_string()),
    }
    beside_original(r, f, &x, end)?;
    let x = Circuit::plain(parameters, &[[0, 2, 0]; 65]);
    let mut sides = Sides::new(r);
    refused(&mut sides, f, Call::Plan(&parameters, &x.gates.concat()), 8)?;
    beside_original(r, f, &x, End::NoPlace)?;
    refused(&mut sides, f, Call::Plan(&parameters, &[2, 0, 0].repeat(129)), 3)
}

/// A lone gate of kind 1, so many rows of it, and cells of height N.
fn unpadded(n: u64, rows: usize) -> Circuit {
    Circuit { rows: vec![vec![0, 0]; rows], ..Circuit::nop(n, 1, 0) }
}

/// Padding: N = 0 and 65,536, 65,535 rows and tables longer than N are taken; one more gives 1 or
/// 22, which is no wrapped sum.
fn lengths(r: &mut Random, f: &mut Figures) -> Result<(), String> {
    let mut all = vec![
        (unpadded(0, 0), 0),
        (unpadded(65536, 0), 0),
        (unpadded(65537, 0), 1),
        (unpadded(0, 65535), 0),
        (unpadded(0, 65536), 22),
    ];
    let vast = [[65536, 1], [u64::MAX, 1], [u64::MAX, 2], [1 << 63, 1 << 63]];
    for rows in vast {
        let tables = rows.map(|rows| vec![0, rows]).to_vec();
        all.push((Circuit { tables, ..unpadded(0, 0) }, 22));
    }
    all.push((Circuit { tables: vec![vec![0, 65536]], ..unpadded(0, 0) }, 15));
    let mut long = Circuit::plain([2, 1, 0, 0, 0, 1, 1, 1], &[[3, 0, 0], [1, 0, 0]]);
    long.tables = vec![vec![1, 0], [vec![1, 17], vec![5; 17]].concat()];
    all.push((long, 0));
    for (x, wanted) in all {
        match padding::whole(r, f, &x)? {
            number if number == wanted => {}
            number => return Err(format!("padding {}: {number}, not {wanted}", x.written())),
        }
    }
    Ok(())
}

const DROPPED: [u64; 3] = [2, 0, 0];

/// Lists with a kind 2 gate, the last one, whose row is refused: the all-0 path is an evaluated gate's
/// or the lookup gate's, with kind 1 gates and without.
const BARRED: [(u64, &[[u64; 3]]); 5] = [
    (0, &[[0, 1, 0], DROPPED]),
    (1, &[[3, 0, 0], DROPPED]),
    (0, &[[0, 1, 0], [0, 1, 0], [1, 0, 0], DROPPED]),
    (1, &[[3, 0, 0], [0, 2, 0], [1, 0, 0], DROPPED]),
    (2, &[[3, 0, 0], [0, 2, 1], [1, 0, 0], DROPPED]),
];

/// Lists in which it is accepted.
const FREE: [(u64, &[[u64; 3]]); 4] = [
    (0, &[DROPPED]),
    (0, &[[0, 1, 0], [1, 0, 0], DROPPED]),
    (1, &[[3, 0, 0], [1, 0, 0], DROPPED]),
    (0, &[[0, 1, 0], [0, 1, 0], [1, 0, 0], [1, 0, 0], DROPPED]),
];

fn with_dropped(mode: u64, gates: &[[u64; 3]]) -> Circuit {
    let n = gates.len().next_power_of_two() as u64;
    Circuit::plain([n, 1, 1, 0, 0, mode, (mode > 0) as u64, (mode > 0) as u64], gates)
}

/// "23 a kind 2 row in a longer list whose all-0 path is not of kind 1, tested for each row after 12."
fn dropped_rows(r: &mut Random, f: &mut Figures) -> Result<(), String> {
    for (mode, gates) in BARRED {
        let x = with_dropped(mode, gates);
        let dropped = gates.len() as u64 - 1;
        let mut sides = ready(r, f, &x)?;
        for piece in [&[dropped, 1, 5][..], &[dropped], &[dropped + 1, 0, dropped, 0]] {
            refused(&mut sides, f, Call::Rows(piece), 12)?;
        }
        for piece in [&[dropped, 0][..], &[0, 0, dropped, 0, dropped + 1, 0], &[dropped, 0, 0]] {
            refused(&mut sides, f, Call::Rows(piece), 23)?;
        }
        accepted(&mut sides, f, Call::Rows(&[0, 0].repeat(x.parameters[0] as usize)))?;
        refused(&mut sides, f, Call::Rows(&[dropped, 0]), 23)?;
        refused(&mut sides, f, Call::Rows(&[0, 0, dropped, 0]), 13)?;
        let end = script::run(r, f, &x)?;
        beside_original(r, f, &x, end)?;
    }
    for (mode, gates) in FREE {
        let x = with_dropped(mode, gates);
        match script::run(r, f, &x)? {
            End::Finished(sides) => beside_original(r, f, &x, End::Finished(sides))?,
            _ => return Err(format!("not finished: {}", x.written())),
        }
    }
    let unpadded = |rows: &[u64]| Circuit {
        parameters: [1, 1, 0, 0, 0, 0, 0, 0],
        gates: BARRED[2].1.to_vec(),
        rows: rows.iter().map(|gate| vec![*gate, 0]).collect(),
        cells: vec![PLACEHOLDER],
        ..Circuit::default()
    };
    for (rows, wanted) in [(&[0, 1, 3][..], 23), (&[4, 3], 12), (&[3, 4], 23), (&[0, 1], 17)] {
        match padding::whole(r, f, &unpadded(rows))? {
            number if number == wanted => {}
            number => return Err(format!("padding rows of {rows:?}: {number}, not {wanted}")),
        }
    }
    Ok(())
}

pub fn run(f: &mut Figures) -> Result<(), String> {
    let mut r = Random::new(1);
    trace(&mut r, f)?;
    index(&mut r, f)?;
    gates(&mut r, f)?;
    lengths(&mut r, f)?;
    dropped_rows(&mut r, f)
}
