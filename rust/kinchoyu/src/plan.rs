//! A plan: where the gates stand in the selector tree, and what is asked of it.
use crate::parameters::{Gate, Parameters};
use crate::raw;
use crate::refusal::{answer, Refusal};
use std::fmt;

/// A plan that the library gave, or that it found to be sound.
#[derive(Clone, Debug, PartialEq, Eq)]
pub struct Plan {
    words: Vec<u64>,
}

/// D, K and F: the greatest degree at depth, the greatest constants plus depth, and the factor
/// of the quotient.
#[derive(Clone, Copy, Debug, PartialEq, Eq)]
#[non_exhaustive]
pub struct Stats {
    /// D.
    pub degree: u64,
    /// K; there are K + S constant columns.
    pub constants: u64,
    /// F.
    pub factor: u64,
}

/// A gate's path from the root: 1 is left, 0 is right.
#[derive(Clone, Copy, Debug, PartialEq, Eq)]
#[non_exhaustive]
pub struct Path {
    /// Bit i, from the least, is step i.
    pub bits: u64,
    /// How many steps there are.
    pub length: u64,
}

impl Path {
    /// The steps from the root; true is left.
    pub fn steps(self) -> impl Iterator<Item = bool> {
        (0..self.length).map(move |i| self.bits >> i & 1 == 1)
    }
}

/// Its digits, with nothing between them.
impl fmt::Display for Path {
    fn fmt(&self, f: &mut fmt::Formatter<'_>) -> fmt::Result {
        self.steps().try_for_each(|left| f.write_str(if left { "1" } else { "0" }))
    }
}

/// What a plan answers of a listed gate: its path, or that it has no selector.
///
/// A [`Gate::Unselected`] has no selector unless it is the list's only gate. An empty path is
/// something else: a list's only gate has one, whatever its kind, and so has the only one that is
/// placed.
#[derive(Clone, Copy, Debug, PartialEq, Eq)]
pub enum Selection {
    /// The gate is placed in the selector tree, at the end of this path.
    Path(Path),
    /// The gate is not placed: its rows hold no selector.
    NoSelector,
}

impl Selection {
    /// The path, if there is one.
    pub fn path(self) -> Option<Path> {
        match self {
            Selection::Path(path) => Some(path),
            Selection::NoSelector => None,
        }
    }
}

/// The path's digits, or `none`.
impl fmt::Display for Selection {
    fn fmt(&self, f: &mut fmt::Formatter<'_>) -> fmt::Result {
        match self {
            Selection::Path(path) => path.fmt(f),
            Selection::NoSelector => f.write_str("none"),
        }
    }
}

impl Plan {
    /// Plans for these parameters and gates. Refusals 1 to 8.
    pub fn new(parameters: &Parameters, gates: &[Gate]) -> Result<Plan, Refusal> {
        let gates: Vec<u64> = gates.iter().flat_map(|gate| gate.words()).collect();
        Plan::handed(|plan| raw::plan(&parameters.words(), &gates, plan))
    }

    /// The plan that a call hands back, unless it is refused.
    pub(crate) fn handed(call: impl FnOnce(&mut [u64]) -> u64) -> Result<Plan, Refusal> {
        let mut words = vec![0; raw::plan_words()];
        answer(call(&mut words))?;
        Ok(Plan { words })
    }

    /// A plan kept as words. Refusal 19 where they are made up.
    pub fn from_words(words: &[u64]) -> Result<Plan, Refusal> {
        answer(raw::stats(words, &mut [0; 3]))?;
        Ok(Plan { words: words.to_vec() })
    }

    /// Its words, for keeping.
    pub fn words(&self) -> &[u64] {
        &self.words
    }

    /// The parameters that it was made for.
    pub fn parameters(&self) -> Parameters {
        let words = self.words[..8].try_into().expect("eight words");
        Parameters::from_words(words).expect("a sound plan has a lookup mode")
    }

    /// D, K and F.
    pub fn stats(&self) -> Stats {
        let mut out = [0; 3];
        answer(raw::stats(&self.words, &mut out)).expect("a sound plan");
        let [degree, constants, factor] = out;
        Stats { degree, constants, factor }
    }

    /// The path of a gate, or that it has no selector. Refusal 12 for one not listed.
    ///
    /// ```
    /// use kinchoyu::{Gate, Lookup, Parameters, Plan, Refusal, Selection};
    ///
    /// # let parameters = Parameters {
    /// #     trace: 4,
    /// #     copy: 1,
    /// #     allowed: 0,
    /// #     specialised: 0,
    /// #     variables: 0,
    /// #     lookup: Lookup::None,
    /// # };
    /// let first = Gate::Evaluated { degree: 2, constants: 0 };
    /// let plan = Plan::new(&parameters, &[first, Gate::Unselected, Gate::Marker])?;
    /// assert_eq!(plan.path(0)?.to_string(), "1");
    /// assert_eq!(plan.path(1)?, Selection::NoSelector);
    /// assert_eq!(plan.path(2)?.path().map(|path| path.length), Some(1));
    /// assert_eq!(plan.path(3), Err(Refusal::RowRecord));
    /// # Ok::<(), Refusal>(())
    /// ```
    pub fn path(&self, gate: u64) -> Result<Selection, Refusal> {
        let mut out = [0; 3];
        answer(raw::path(&self.words, gate, &mut out))?;
        let [bits, length, unselected] = out;
        Ok(match unselected {
            0 => Selection::Path(Path { bits, length }),
            _ => Selection::NoSelector,
        })
    }

    /// Which constant column holds table ids, if one does.
    pub fn table_id(&self) -> Option<u64> {
        let mut out = [0; 2];
        answer(raw::table_id(&self.words, &mut out)).expect("a sound plan");
        let [count, index] = out;
        (count == 1).then_some(index)
    }
}
