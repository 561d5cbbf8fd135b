//! What a plan is made from: parameters, lookup mode and gates.

/// How lookups are made, in the order of document 01.
///
/// W, the lookup width, is 1 to 16.
#[derive(Clone, Copy, Debug, PartialEq, Eq)]
#[non_exhaustive]
pub enum Lookup {
    /// No lookups.
    None,
    /// The table id is a variable, in a column under copy permutation.
    TableIdAsVariable {
        /// W.
        width: u64,
        /// Whether tables share the id column.
        share: bool,
    },
    /// The table id is the lookup gate's one constant. The share flag is set.
    TableIdAsConstant {
        /// W.
        width: u64,
        /// Whether tables share the id column.
        share: bool,
    },
    /// Lookups have columns of their own, and the table id is a variable there.
    SpecialisedAsVariable {
        /// W.
        width: u64,
        /// Whether tables share the id column.
        share: bool,
    },
    /// Lookups have columns of their own, and the table id stands in the first specialised constant
    /// column. The share flag is set, and S is at least 1.
    SpecialisedAsConstant {
        /// W.
        width: u64,
        /// Whether tables share the id column.
        share: bool,
    },
}

impl Lookup {
    /// Mode, W and share flag.
    pub fn words(self) -> [u64; 3] {
        match self {
            Lookup::None => [0, 0, 0],
            Lookup::TableIdAsVariable { width, share } => [1, width, share as u64],
            Lookup::TableIdAsConstant { width, share } => [2, width, share as u64],
            Lookup::SpecialisedAsVariable { width, share } => [3, width, share as u64],
            Lookup::SpecialisedAsConstant { width, share } => [4, width, share as u64],
        }
    }

    /// The lookup mode of three words, if there is one.
    pub fn from_words([mode, width, flag]: [u64; 3]) -> Option<Lookup> {
        let share = match flag {
            0 => false,
            1 => true,
            _ => return None,
        };
        match mode {
            0 if (width, share) == (0, false) => Some(Lookup::None),
            1 => Some(Lookup::TableIdAsVariable { width, share }),
            2 => Some(Lookup::TableIdAsConstant { width, share }),
            3 => Some(Lookup::SpecialisedAsVariable { width, share }),
            4 => Some(Lookup::SpecialisedAsConstant { width, share }),
            _ => None,
        }
    }
}

/// A circuit's parameters.
#[derive(Clone, Copy, Debug, PartialEq, Eq)]
pub struct Parameters {
    /// N, the trace length: a power of two, 1 to 65,536.
    pub trace: u64,
    /// C, the copy columns: 1 to 64.
    pub copy: u64,
    /// A, the constants that a gate may have: 0 to 16.
    pub allowed: u64,
    /// S, the specialised constant columns: 0 to 16.
    pub specialised: u64,
    /// V, the variables: 0 to 1,048,576.
    pub variables: u64,
    /// Lookup mode, W and share flag.
    pub lookup: Lookup,
}

impl Parameters {
    /// N, C, A, S, V, mode, W, share flag.
    pub fn words(&self) -> [u64; 8] {
        let [mode, width, share] = self.lookup.words();
        let Parameters { trace, copy, allowed, specialised, variables, .. } = *self;
        [trace, copy, allowed, specialised, variables, mode, width, share]
    }

    /// The parameters of eight words, if the last three are a lookup mode's.
    pub fn from_words(words: [u64; 8]) -> Option<Parameters> {
        let [trace, copy, allowed, specialised, variables, mode, width, share] = words;
        let lookup = Lookup::from_words([mode, width, share])?;
        Some(Parameters { trace, copy, allowed, specialised, variables, lookup })
    }
}

/// A gate of the list that a plan is made from.
#[derive(Clone, Copy, Debug, PartialEq, Eq)]
#[non_exhaustive]
pub enum Gate {
    /// A gate whose terms are evaluated.
    Evaluated {
        /// 1 to 64.
        degree: u64,
        /// How many constants a row of it has at the most: 0 to 16.
        constants: u64,
    },
    /// A marker with selector.
    Marker,
    /// A marker without selector. Its rows are all zeros, and switch on the gate on the all-0 path: unless
    /// it is the only gate, they are accepted only where that one is a [`Gate::Marker`], and refused
    /// with 23 otherwise.
    Unselected,
    /// The lookup marker: the first gate in modes 1 and 2, and only there.
    Lookup,
}

impl Gate {
    /// Kind, degree, constants.
    pub fn words(self) -> [u64; 3] {
        match self {
            Gate::Evaluated { degree, constants } => [0, degree, constants],
            Gate::Marker => [1, 0, 0],
            Gate::Unselected => [2, 0, 0],
            Gate::Lookup => [3, 0, 0],
        }
    }
}
