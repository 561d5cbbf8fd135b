//! 01, "Listing", and the program `setup`.
use crate::columns::{cells, finish, open, rows, s_words, tables, State};
use crate::plan::{path, plan, table_id, PathAnswer, Plan};
use std::fmt::Write;

/// The sections of a listing, each as the words of its records.
pub struct Sections<'a> {
    pub parameters: [u64; 8],
    pub gates: &'a [u64],
    pub rows: &'a [u64],
    pub s_words: &'a [u64],
    pub cells: &'a [u64],
    pub tables: &'a [u64],
}

/// A cursor on the words: each section is cut off the front.
struct Cursor<'a> {
    words: &'a [u64],
}

impl<'a> Cursor<'a> {
    /// A count, then that many records; `length` says how long the record at the front
    /// is by its own words, `None` where those words are missing.
    fn section(&mut self, length: fn(&[u64]) -> Option<u128>) -> Option<&'a [u64]> {
        let (count, all) = self.words.split_first()?;
        let mut taken = 0;
        for _ in 0..*count {
            let record = length(&all[taken..])?;
            if record > (all.len() - taken) as u128 {
                return None;
            }
            taken += record as usize;
        }
        self.words = &all[taken..];
        Some(&all[..taken])
    }
}

/// How long the row record at the front is.
pub fn row_length(words: &[u64]) -> Option<u128> {
    Some(2 + *words.get(1)? as u128)
}

/// How long the table record at the front is.
pub fn table_length(words: &[u64]) -> Option<u128> {
    Some(2 + *words.first()? as u128 * *words.get(1)? as u128)
}

/// "20 wrong parameter count, input missing, over-long or left over, tested over the whole
/// input before all else, each record being as long as its own words say".
pub fn sections(words: &[u64]) -> Option<Sections<'_>> {
    let mut cursor = Cursor { words };
    let all = Sections {
        parameters: cursor.section(|_| Some(1))?.try_into().ok()?,
        gates: cursor.section(|_| Some(3))?,
        rows: cursor.section(row_length)?,
        s_words: cursor.section(|_| Some(1))?,
        cells: cursor.section(|_| Some(1))?,
        tables: cursor.section(table_length)?,
    };
    if cursor.words.is_empty() {
        Some(all)
    } else {
        None
    }
}

/// The four lent buffers.
#[derive(Clone, Debug, PartialEq, Eq)]
pub struct Buffers {
    pub constants: Vec<u64>,
    pub copies: Vec<u64>,
    pub scratch: Vec<u64>,
    pub tables: Vec<u64>,
}

fn run_sections(all: &Sections, b: &mut Buffers) -> Result<(Plan, State), u64> {
    let plan = plan(all.parameters, all.gates)?;
    let state = open(&plan, &mut b.constants, &mut b.copies, &mut b.scratch, &mut b.tables)?;
    let state = rows(&state, all.rows, &mut b.constants)?;
    let state = s_words(&state, all.s_words, &mut b.constants)?;
    let state = cells(&state, all.cells, &mut b.copies, &mut b.scratch)?;
    let state = tables(&state, all.tables, &mut b.tables)?;
    let state = finish(&state, &mut b.copies, &mut b.scratch)?;
    Ok((plan, state))
}

/// Runs a listing: 20, "then as above in section order". A refused one leaves every lent
/// word as it was.
pub fn run_listing(words: &[u64], buffers: &mut Buffers) -> Result<(Plan, State), u64> {
    let all = sections(words).ok_or(20u64)?;
    let mut work = buffers.clone();
    let answer = run_sections(&all, &mut work)?;
    *buffers = work;
    Ok(answer)
}

fn print_columns(out: &mut String, name: &str, buffer: &[u64], n: u64, count: u64) {
    for (i, column) in buffer.chunks(n as usize).take(count as usize).enumerate() {
        write!(out, "{name} {i}").unwrap();
        for word in column {
            write!(out, " {word}").unwrap();
        }
        out.push('\n');
    }
}

/// A `path` line after the gate: "path digits [parted] by nothing; an empty path ... ends its
/// line after the field before it"; "the listing prints `path 1 none`".
fn path_field(answer: PathAnswer) -> String {
    match answer {
        PathAnswer::Path(steps) if steps.is_empty() => String::new(),
        PathAnswer::Path(steps) => {
            let digits: String = steps.iter().map(|left| if *left { '1' } else { '0' }).collect();
            format!(" {digits}")
        }
        PathAnswer::NoSelector => " none".to_string(),
        PathAnswer::UnknownGate => unreachable!("only listed gates are printed"),
    }
}

/// "Whole output: D, K, F; gate and path digits; constant column and words; copy column and
/// words; then table columns as `table`; then id indexes."
fn print(plan: &Plan, b: &Buffers) -> String {
    let p = plan.parameter();
    let mut out = format!("plan {} {} {}\n", plan.d, plan.k, plan.f);
    for gate in 0..plan.gate_count {
        let answer = path(plan, gate).unwrap();
        writeln!(out, "path {gate}{}", path_field(answer)).unwrap();
    }
    print_columns(&mut out, "constant", &b.constants, p.n, plan.k + p.s);
    print_columns(&mut out, "copy", &b.copies, p.n, p.c);
    print_columns(&mut out, "table", &b.tables, p.n, if p.mode == 0 { 0 } else { p.w + 1 });
    out += "ids";
    if let Some(index) = table_id(plan).unwrap() {
        write!(out, " {index}").unwrap();
    }
    out.push('\n');
    out
}

/// "The program `setup` reads standard input, at most 65,536 bytes, and lends 8,192 words
/// for each buffer." "A refusal prints `refused` and the number alone."
pub fn program(bytes: &[u8]) -> String {
    let lent = vec![0; 8192];
    let mut buffers = Buffers {
        constants: lent.clone(),
        copies: lent.clone(),
        scratch: lent.clone(),
        tables: lent,
    };
    if bytes.len() > 65536 || bytes.len() % 8 != 0 {
        return "refused 20\n".to_string();
    }
    let words: Vec<u64> =
        bytes.chunks(8).map(|word| u64::from_le_bytes(word.try_into().unwrap())).collect();
    match run_listing(&words, &mut buffers) {
        Ok((plan, _)) => print(&plan, &buffers),
        Err(number) => format!("refused {number}\n"),
    }
}
