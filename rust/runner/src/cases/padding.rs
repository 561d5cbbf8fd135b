use super::Checks;
use crate::circuit::{Circuit, PLACEHOLDER};
use model::field::P;
use model::pad;

const MARKER: [u64; 3] = [1, 0, 0];
const ONE: [u64; 3] = [0, 1, 0];

fn given(parameters: [u64; 8], gates: &[[u64; 3]], rows: &[u64]) -> Circuit {
    Circuit {
        rows: rows.iter().map(|gate| vec![*gate, 0]).collect(),
        ..Circuit::plain(parameters, gates)
    }
}

fn nop(n: u64, rows: usize) -> Circuit {
    given([n, 1, 0, 0, 0, 0, 0, 0], &[MARKER], &vec![0; rows])
}

/// Each listing word by word.
pub fn padded(c: &mut Checks) {
    let mut worked = Circuit::worked();
    let own = pad(&worked.listing());
    worked.parameters[0] = 4;
    worked.rows.extend([vec![1, 0], vec![1, 0]]);
    let hole = PLACEHOLDER;
    worked.cells = vec![0, 1, hole, hole, 1, hole, hole, hole];
    c.same("P8 padded: two rows make four", own, Ok(worked.listing()));
    c.same("N = 0 and no row", pad(&nop(0, 0).listing()), Ok(nop(1, 1).listing()));
    c.same("N = 5 and one row", pad(&nop(5, 1).listing()), Ok(nop(8, 8).listing()));
    c.same("more rows than N", pad(&nop(1, 4).listing()), Ok(nop(8, 8).listing()));
    let mut x = given([3, 1, 0, 2, 0, 3, 1, 0], &[ONE, MARKER, MARKER], &[0, 2]);
    x.s_words = vec![1, 2, 3, 4, 5, 6];
    x.cells = vec![u64::MAX; 3];
    x.tables = vec![vec![1, 0], vec![1, 5, 9, 9, 9, 9, 9]];
    let own = pad(&x.listing());
    x.parameters[0] = 8;
    x.rows.extend(vec![vec![1, 0]; 6]);
    x.s_words = vec![1, 2, 3, 0, 0, 0, 0, 0, 4, 5, 6, 0, 0, 0, 0, 0];
    x.cells.extend([hole; 5]);
    c.same("the first of two kind 1 gates, by the tables' rows", own, Ok(x.listing()));
}

fn number(mut x: Circuit, change: &dyn Fn(&mut Circuit)) -> u64 {
    change(&mut x);
    pad(&x.listing()).err().unwrap_or(0)
}

/// The ends of the length, and 21 and 22 among the other numbers.
pub fn lengths(c: &mut Checks) {
    let long = |x: &mut Circuit| x.rows = vec![vec![0, 0]; 65536];
    c.same("65,535 rows", number(nop(0, 65535), &|_| ()), 0);
    c.same("65,536 rows", number(nop(0, 0), &long), 22);
    c.same("N = 65,536", number(nop(65536, 0), &|_| ()), 0);
    c.same("N = 65,537", number(nop(65537, 0), &|_| ()), 1);
    c.same("N = 65,537 before 2", number(nop(65537, 0), &|x| x.parameters[5] = 2), 1);
    c.same("no kind 1 gate", number(given([0, 1, 0, 0, 0, 0, 0, 0], &[ONE], &[0]), &|_| ()), 21);
    c.same("21 before 22", number(given([0, 1, 0, 0, 0, 0, 0, 0], &[ONE], &[0]), &long), 21);
    let eight = given([0, 1, 0, 0, 0, 0, 0, 0], &[[0, 2, 0]; 65], &[]);
    c.same("8 before 21", number(eight, &|_| ()), 8);
    let unknown = |x: &mut Circuit| x.rows = vec![vec![9, 0]; 65536];
    c.same("22 before 12", number(nop(0, 0), &unknown), 22);
    for rows in [vec![65537], vec![65536, 1], vec![u64::MAX, 2], vec![1 << 63, 1 << 63]] {
        let tables = |x: &mut Circuit| x.tables = rows.iter().map(|rows| vec![0, *rows]).collect();
        c.same("22 by tables of no words", number(nop(0, 0), &tables), 22);
    }
    c.same("a table in mode 0", number(nop(0, 0), &|x| x.tables = vec![vec![0, 65536]]), 15);
    let good = nop(1, 1).listing();
    c.same("no listing", pad(&good[..good.len() - 1]), Err(20));
}

/// "S words and cells are counted against the given N (13, 16)".
pub fn counted(c: &mut Checks) {
    let x = given([1, 1, 0, 1, 1, 0, 0, 0], &[ONE, MARKER], &[0]);
    for (name, wanted, change) in [
        ("taken", 0, (&|_: &mut Circuit| ()) as &dyn Fn(&mut Circuit)),
        ("a cell past N", 13, &|x| x.cells.push(PLACEHOLDER)),
        ("13 before 14 in one word", 13, &|x| x.cells.push(1)),
        ("an earlier 14", 14, &|x| x.cells = vec![1, 0]),
        ("an S word past N", 13, &|x| x.s_words.push(0)),
        ("an earlier 11", 11, &|x| x.s_words = vec![P, 0]),
        ("S words before cells", 11, &|x| (x.s_words, x.cells) = (vec![P], vec![0, 0])),
        ("rows before S words", 12, &|x| (x.rows[0], x.s_words) = (vec![2, 0], vec![P])),
        ("a cell missing", 16, &|x| x.cells.clear()),
        ("an S word missing", 16, &|x| x.s_words.clear()),
        ("16 waits for tables", 15, &|x| (x.cells, x.tables) = (vec![], vec![vec![0, 0]])),
        ("16 before 17", 16, &|x| (x.cells, x.rows) = (vec![], vec![])),
        ("a gate in no row", 17, &|x| x.rows.clear()),
        ("the first kind 1 gate alone is filled up", 17, &|x| x.gates.push(MARKER)),
        ("a kind 2 gate in no row", 17, &|x| x.gates.push([2, 0, 0])),
        ("fewer constants are kept", 0, &|x| (x.parameters[2], x.gates[0]) = (1, [0, 1, 1])),
    ] {
        c.same(name, number(x.clone(), change), wanted);
    }
}

/// "other faults are the padded circuit's": 23 is one of the rows'.
pub fn barred(c: &mut Checks) {
    let dropped = [2, 0, 0];
    let x = given([1, 1, 0, 1, 0, 0, 0, 0], &[ONE, ONE, MARKER, dropped], &[0, 1, 3]);
    for (name, wanted, change) in [
        ("kind 1 on another path", 23, (&|_: &mut Circuit| ()) as &dyn Fn(&mut Circuit)),
        ("12 before 23 in one record", 12, &|x| x.rows[2] = vec![3, 1, 0]),
        ("an earlier 12", 12, &|x| x.rows[0] = vec![4, 0]),
        ("an earlier 23", 23, &|x| x.rows.push(vec![4, 0])),
        ("22 before 23", 22, &|x| x.rows = vec![vec![3, 0]; 65536]),
        ("23 before an S word's 11", 23, &|x| x.s_words[0] = P),
        ("23 before 16", 23, &|x| x.cells.clear()),
        ("the gate in no row", 17, &|x| x.rows.truncate(2)),
        ("without kind 1", 21, &|x| x.gates[2] = dropped),
        ("kind 1 twice", 0, &|x| {
            x.gates.push(MARKER);
            x.rows.push(vec![4, 0]);
        }),
        ("kind 1 on the all-0 path", 0, &|x| {
            x.gates = vec![ONE, MARKER, dropped];
            x.rows = vec![vec![0, 0], vec![2, 0]];
        }),
    ] {
        c.same(name, number(x.clone(), change), wanted);
    }
}
