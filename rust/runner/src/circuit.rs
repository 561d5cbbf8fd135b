//! A circuit, section by section, and its listing.

pub const PLACEHOLDER: u64 = 1 << 63;

#[derive(Clone, Debug, Default)]
pub struct Circuit {
    /// N, C, A, S, V, mode, W, share flag.
    pub parameters: [u64; 8],
    pub gates: Vec<[u64; 3]>,
    /// Records: gate, number of constants, constants.
    pub rows: Vec<Vec<u64>>,
    pub s_words: Vec<u64>,
    pub cells: Vec<u64>,
    /// Records: width, rows, contents row by row.
    pub tables: Vec<Vec<u64>>,
}

impl Circuit {
    pub fn listing(&self) -> Vec<u64> {
        let mut words = vec![8];
        words.extend(self.parameters);
        words.push(self.gates.len() as u64);
        words.extend(self.gates.iter().flatten());
        words.push(self.rows.len() as u64);
        words.extend(self.rows.iter().flatten());
        words.push(self.s_words.len() as u64);
        words.extend(&self.s_words);
        words.push(self.cells.len() as u64);
        words.extend(&self.cells);
        words.push(self.tables.len() as u64);
        words.extend(self.tables.iter().flatten());
        words
    }

    /// The smallest circuit with these parameters and gates that has a row for each
    /// gate: C columns of placeholders, no constants, zeros for S words, no tables.
    pub fn plain(parameters: [u64; 8], gates: &[[u64; 3]]) -> Circuit {
        let [n, c, _, s, ..] = parameters;
        let rows = (0..n).map(|r| vec![if r < gates.len() as u64 { r } else { 0 }, 0]);
        Circuit {
            parameters,
            gates: gates.to_vec(),
            rows: rows.collect(),
            s_words: vec![0; (s * n) as usize],
            cells: vec![PLACEHOLDER; (c * n) as usize],
            tables: vec![],
        }
    }

    /// A lone gate of kind 1 in every row, all cells placeholders.
    pub fn nop(n: u64, c: u64, v: u64) -> Circuit {
        Circuit::plain([n, c, 0, 0, v, 0, 0, 0], &[[1, 0, 0]])
    }

    /// "P8 the listing."
    pub fn worked() -> Circuit {
        Circuit {
            parameters: [2, 2, 1, 0, 2, 0, 0, 0],
            gates: vec![[0, 2, 1], [1, 0, 0]],
            rows: vec![vec![0, 1, 5], vec![1, 0]],
            s_words: vec![],
            cells: vec![0, 1, 1, PLACEHOLDER],
            tables: vec![],
        }
    }

    /// Whether it has a row that is refused with 23.
    pub fn barred(&self) -> bool {
        let kind = |row: &Vec<u64>| self.gates.get(row[0] as usize).map(|gate| gate[0]);
        self.gates.len() > 1
            && self.rows.iter().any(|row| kind(row) == Some(2))
            && blocked(self.parameters, &self.gates)
    }

    /// As document 01 writes listings: words parted by spaces, records by commas,
    /// sections by semicolons; placeholders and long runs shortened.
    pub fn written(&self) -> String {
        let list = |words: &[u64]| words.iter().map(name).collect::<Vec<_>>().join(" ");
        let records = |records: Vec<&[u64]>| {
            let texts: Vec<String> = records.iter().map(|r| list(r)).collect();
            runs(&texts, ", ")
        };
        let words = |w: &[u64]| runs(&w.iter().map(name).collect::<Vec<_>>(), " ");
        let sections = [
            format!("8: {}", list(&self.parameters)),
            format!(
                "{}: {}",
                self.gates.len(),
                records(self.gates.iter().map(|g| &g[..]).collect())
            ),
            format!("{}: {}", self.rows.len(), records(self.rows.iter().map(|g| &g[..]).collect())),
            format!("{}: {}", self.s_words.len(), words(&self.s_words)),
            format!("{}: {}", self.cells.len(), words(&self.cells)),
            format!(
                "{}: {}",
                self.tables.len(),
                records(self.tables.iter().map(|g| &g[..]).collect())
            ),
        ];
        sections.map(|s| s.trim_end_matches(": ").to_string()).join("; ")
    }
}

/// Whether no kind 1 gate of a list has a path of zeros alone, so that a row of a kind 2 gate is
/// refused with 23. False where the list gets no tree.
pub fn blocked(mut parameters: [u64; 8], gates: &[[u64; 3]]) -> bool {
    // the search does not read N, which may be an unpadded circuit's
    parameters[0] = 1;
    let listed = model::gates::check(parameters, &gates.concat());
    let Ok(found) = listed.and_then(|gates| model::search::search(&gates)) else { return false };
    let mut leaves = found.tree.leaves().into_iter();
    !leaves.any(|(gate, path)| gate.kind == 1 && !path.contains(&true))
}

fn name(word: &u64) -> String {
    match *word {
        PLACEHOLDER => "2^63".to_string(),
        u64::MAX => "2^64-1".to_string(),
        w if w == model::field::P => "p".to_string(),
        w if w >= 1 << 32 && w.is_power_of_two() => format!("2^{}", w.ilog2()),
        w => w.to_string(),
    }
}

/// Joins texts; a run of more than four like ones is written once with its count, a long
/// run of records that count up as its first and last.
fn runs(texts: &[String], between: &str) -> String {
    let mut out: Vec<String> = vec![];
    let mut rest = texts;
    while let Some(first) = rest.first() {
        let count = rest.iter().take_while(|t| *t == first).count();
        let rising = rest.iter().zip(0u64..).take_while(|(t, i)| **t == format!("{i} 0")).count();
        if rising > 8 {
            out.push(format!("0 0, 1 0, .., {}", rest[rising - 1]));
            rest = &rest[rising..];
            continue;
        }
        if count > 4 {
            out.push(format!("({first}) x {count}"));
        } else {
            out.extend(rest[..count].iter().cloned());
        }
        rest = &rest[count..];
    }
    out.join(between)
}
