use super::Checks;
use crate::circuit::Circuit;
use model::field::P;

fn bytes(words: &[u64]) -> Vec<u8> {
    words.iter().flat_map(|word| word.to_le_bytes()).collect()
}

fn printed(circuit: &Circuit) -> String {
    model::program(&bytes(&circuit.listing()))
}

pub fn worked(c: &mut Checks) {
    let wanted = "plan 3 2 2\npath 0 1\npath 1 0\nconstant 0 1 0\nconstant 1 5 0\ncopy 0 1 7\n\
        copy 1 18446744069414584320 18446744069414584314\nids\n";
    c.same("P8", printed(&Circuit::worked()), wanted.to_string());
    let empty = "plan 0 0 1\npath 0\ncopy 0 1\nids\n";
    c.same("an empty path, no constant column", printed(&Circuit::nop(1, 1, 0)), empty.to_string());
    let lone = Circuit::plain([1, 1, 0, 0, 0, 0, 0, 0], &[[2, 0, 0]]);
    c.same("a lone kind 2 gate", printed(&lone), empty.to_string());
    let two = Circuit::plain([2, 1, 0, 0, 0, 0, 0, 0], &[[0, 64, 0], [2, 0, 0]]);
    c.same("one placed gate and one without selector", printed(&two), refused(23));
    let middle = Circuit::plain([4, 1, 0, 0, 0, 0, 0, 0], &[[0, 2, 0], [2, 0, 0], [1, 0, 0]]);
    let wanted = "plan 3 1 2\npath 0 1\npath 1 none\npath 2 0\nconstant 0 1 0 0 1\n";
    c.same("a kind 2 gate in the middle", printed(&middle).starts_with(wanted), true);
    let mut lookup = Circuit::plain([2, 1, 1, 0, 0, 2, 1, 1], &[[3, 0, 0], [0, 1, 0]]);
    let wanted = "plan 2 2 1\npath 0 0\npath 1 1\nconstant 0 0 1\nconstant 1 0 0\n\
        copy 0 1 18446744069414584320\ntable 0 0 0\ntable 1 0 0\nids 1\n";
    c.same("mode 2 without tables", printed(&lookup), wanted.to_string());
    lookup.tables = vec![vec![1, 0], vec![1, 1, 4]];
    let text = printed(&lookup);
    c.same("table numbers", text.contains("table 0 4 0\ntable 1 2 0\n"), true);
}

fn refused(number: u64) -> String {
    format!("refused {number}\n")
}

pub fn malformed(c: &mut Checks) {
    let good = Circuit::nop(1, 1, 0).listing();
    let mut check = |name: &str, words: &[u64], number: u64| {
        c.same(name, model::program(&bytes(words)), refused(number))
    };
    check("nothing", &[], 20);
    check("left over", &[&good[..], &[0]].concat(), 20);
    for length in 0..good.len() {
        check("cut", &good[..length], 20);
    }
    for count in [0, 7, 9, u64::MAX] {
        check("parameter count", &[&[count], &good[1..]].concat(), 20);
    }
    check("gates whose words wrap", &[&good[..9], &[6148914691236517206, 0, 0]].concat(), 20);
    check("a row whose words wrap", &[&good[..13], &[1, 0, u64::MAX - 1]].concat(), 20);
    let before_tables = &good[..good.len() - 1];
    for (width, rows) in [(1 << 32, 1 << 32), (u64::MAX, u64::MAX), (1, u64::MAX - 1)] {
        check("a table whose words wrap", &[before_tables, &[1, width, rows]].concat(), 20);
    }
    for (width, rows) in [(0, u64::MAX), (u64::MAX, 0)] {
        check("a table of no words", &[before_tables, &[1, width, rows]].concat(), 15);
    }
    let mut odd = bytes(&good);
    odd.push(0);
    c.same("an odd byte", model::program(&odd), refused(20));
}

fn with(mut circuit: Circuit, change: &dyn Fn(&mut Circuit)) -> String {
    change(&mut circuit);
    printed(&circuit)
}

pub fn sizes(c: &mut Checks) {
    c.same("65,536 bytes", with(Circuit::nop(1, 1, 0), &|x| x.cells = vec![0; 8173]), refused(14));
    c.same("65,544 bytes", with(Circuit::nop(1, 1, 0), &|x| x.cells = vec![0; 8174]), refused(20));
    let tall = |x: &mut Circuit| {
        x.rows.clear();
        x.cells.clear();
    };
    c.same(
        "N = 65,536 does not fit the program",
        with(Circuit::nop(65536, 1, 0), &tall),
        refused(10),
    );
    c.same("N = 131,072", with(Circuit::nop(131072, 1, 0), &tall), refused(1));
    c.same("V = 4,097", printed(&Circuit::nop(1, 1, 4097)), refused(10));
    c.same("V = 4,096", printed(&Circuit::nop(1, 1, 4096)).starts_with("plan"), true);
}

pub fn order(c: &mut Checks) {
    let faults: [(u64, &dyn Fn(&mut Circuit)); 7] = [
        (1, &|x| x.parameters[0] = 3),
        (4, &|x| x.gates[0] = [9, 0, 0]),
        (10, &|x| x.parameters[4] = 5000),
        (12, &|x| x.rows = vec![vec![1, 0]]),
        (13, &|x| x.s_words = vec![P]),
        (14, &|x| x.cells = vec![5000]),
        (15, &|x| x.tables = vec![vec![1, 1, P]]),
    ];
    for (i, first) in faults.iter().enumerate() {
        for second in &faults[i..] {
            let both = |x: &mut Circuit| {
                first.1(x);
                second.1(x);
            };
            c.same(
                "the earlier section's fault",
                with(Circuit::nop(1, 1, 1), &both),
                refused(first.0),
            );
        }
    }
    let incomplete = |x: &mut Circuit| {
        x.cells.clear();
        x.tables = vec![vec![0, 0]];
    };
    c.same("16 waits for tables", with(Circuit::nop(1, 1, 0), &incomplete), refused(15));
    c.same("cells missing", with(Circuit::nop(1, 1, 0), &|x| x.cells.clear()), refused(16));
    c.same("16 before 17", with(Circuit::nop(1, 1, 0), &|x| x.rows.clear()), refused(16));
    let two = Circuit::plain([1, 1, 0, 0, 0, 0, 0, 0], &[[0, 1, 0], [2, 0, 0]]);
    c.same("a kind 2 gate in no row", printed(&two), refused(17));
    let barred = Circuit::plain([2, 1, 0, 1, 0, 0, 0, 0], &[[0, 1, 0], [2, 0, 0]]);
    for (name, number, change) in [
        ("a barred row", 23, (&|_: &mut Circuit| ()) as &dyn Fn(&mut Circuit)),
        ("10 before 23", 10, &|x| x.parameters[4] = 5000),
        ("12 before 23 in one record", 12, &|x| x.rows[1] = vec![1, 1, 7]),
        ("an earlier 12", 12, &|x| x.rows[0] = vec![2, 0]),
        ("an earlier 23", 23, &|x| x.rows = vec![vec![1, 0], vec![2, 0]]),
        ("23 before 13 in one record", 23, &|x| x.rows = [0, 0, 1].map(|g| vec![g, 0]).to_vec()),
        ("23 before an S word's 11", 23, &|x| x.s_words[0] = P),
        ("23 before 16", 23, &|x| x.cells.clear()),
        ("without the row", 17, &|x| x.rows[1] = vec![0, 0]),
        ("kind 1 on the all-0 path", 17, &|x| x.gates.push([1, 0, 0])),
    ] {
        c.same(name, with(barred.clone(), change), refused(number));
    }
}
