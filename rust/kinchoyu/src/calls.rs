//! Lists of calls.

/// A list of calls for [`Intake::calls`](crate::Intake::calls): built call by call, made in one.
#[derive(Clone, Debug, Default, PartialEq, Eq)]
pub struct Calls {
    words: Vec<u64>,
    count: usize,
}

impl Calls {
    /// No calls yet.
    pub fn new() -> Calls {
        Calls::default()
    }

    fn push(&mut self, kind: u64, piece: &[u64]) -> &mut Calls {
        self.words.extend([kind, piece.len() as u64]);
        self.words.extend(piece);
        self.count += 1;
        self
    }

    /// Then row records: gate, number of constants, constants.
    pub fn rows(&mut self, piece: &[u64]) -> &mut Calls {
        self.push(1, piece)
    }

    /// Then words of the specialised constant columns.
    pub fn s_words(&mut self, piece: &[u64]) -> &mut Calls {
        self.push(2, piece)
    }

    /// Then cell words.
    pub fn cells(&mut self, piece: &[u64]) -> &mut Calls {
        self.push(3, piece)
    }

    /// Then table records: width, rows, contents row by row.
    pub fn tables(&mut self, piece: &[u64]) -> &mut Calls {
        self.push(4, piece)
    }

    /// Then finishing.
    pub fn finish(&mut self) -> &mut Calls {
        self.push(5, &[])
    }

    /// How many calls there are.
    pub fn len(&self) -> usize {
        self.count
    }

    /// Whether there are none.
    pub fn is_empty(&self) -> bool {
        self.count == 0
    }

    /// The list's words, as the library reads them.
    pub fn words(&self) -> &[u64] {
        &self.words
    }
}
