//! Document 01's listing, taken apart by counts alone: what the circuit means
//! is left to the upstream code.

pub struct Listing {
    /// N, C, A, S, V, mode, W, share flag.
    pub parameters: [u64; 8],
    pub gates: Vec<[u64; 3]>,
    /// Gate and constants.
    pub rows: Vec<(u64, Vec<u64>)>,
    pub s_words: Vec<u64>,
    pub cells: Vec<u64>,
    /// Width and rows.
    pub tables: Vec<(u64, Vec<Vec<u64>>)>,
}

struct Reader<'a> {
    words: &'a [u64],
}

impl<'a> Reader<'a> {
    fn take(&mut self, count: u64) -> Option<&'a [u64]> {
        let count = usize::try_from(count).ok()?;
        if count > self.words.len() {
            return None;
        }
        let (part, rest) = self.words.split_at(count);
        self.words = rest;
        Some(part)
    }
    fn word(&mut self) -> Option<u64> {
        Some(self.take(1)?[0])
    }
    /// A count and that many records.
    fn section<T>(&mut self, record: impl Fn(&mut Self) -> Option<T>) -> Option<Vec<T>> {
        let count = self.word()?;
        let mut records = vec![];
        for _ in 0..count {
            records.push(record(self)?);
        }
        Some(records)
    }
}

fn row(r: &mut Reader) -> Option<(u64, Vec<u64>)> {
    let gate = r.word()?;
    let constants = r.word()?;
    Some((gate, r.take(constants)?.to_vec()))
}

fn table(r: &mut Reader) -> Option<(u64, Vec<Vec<u64>>)> {
    let width = r.word()?;
    let height = r.word()?;
    // rows of no words take no room: their number could not be bounded
    if width == 0 && height > 65536 {
        return None;
    }
    let mut rows = vec![];
    for _ in 0..height {
        rows.push(r.take(width)?.to_vec());
    }
    Some((width, rows))
}

impl Listing {
    pub fn read(words: &[u64]) -> Option<Listing> {
        let mut r = Reader { words };
        if r.word()? != 8 {
            return None;
        }
        let listing = Listing {
            parameters: r.take(8)?.try_into().ok()?,
            gates: r.section(|r| r.take(3)?.try_into().ok())?,
            rows: r.section(row)?,
            s_words: r.section(Reader::word)?,
            cells: r.section(Reader::word)?,
            tables: r.section(table)?,
        };
        if r.words.is_empty() {
            Some(listing)
        } else {
            None
        }
    }
}
