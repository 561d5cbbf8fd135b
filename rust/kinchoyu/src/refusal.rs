//! Why a call was turned down.
use std::fmt;

/// The refusals, each with its number and its sentence: the variant's documentation and what it
/// says of itself. `include/kinchoyu.h` has the same sentences.
macro_rules! refusals {
    ($($name:ident = $number:literal: $sentence:literal;)*) => {
        /// A refusal; its number is document 01's, from 21 on document 02's.
        #[derive(Clone, Copy, Debug, PartialEq, Eq, Hash, PartialOrd, Ord)]
        #[non_exhaustive]
        pub enum Refusal {
            $(#[doc = concat!($number, ": ", $sentence, ".")] $name = $number,)*
        }

        /// Each refusal with its sentence, by rising number.
        const ALL: &[(Refusal, &str)] = &[$((Refusal::$name, $sentence),)*];
    };
}

refusals! {
    Parameter = 1: "a parameter, or a cell whose label is asked for, is outside its range";
    ShareFlag = 2: "the share flag is 0 in a lookup mode that needs it to be 1";
    GateCount = 3: "there are no gates, or more than 128, or not three words for each";
    GateRecord = 4: "a gate's kind, degree or number of constants is outside its range";
    LookupGate = 5: "the lookup gate is missing, or stands where it may not, or is the only gate";
    NothingEvaluated = 6: "there are several gates, none of which is evaluated or the lookup gate";
    Constants = 7: "a gate has more constants than are allowed";
    NoPlace = 8: "the gates find no place in a selector tree under any target";
    NoLabels = 9: "no representatives of the copy columns were found";
    ShortBuffer = 10: "a buffer is too short";
    NotAnElement = 11: "a word is not below p";
    RowRecord = 12:
        "a gate is not listed, or a row is cut short or has more constants than its gate";
    TooMany = 13: "there are more rows, S words or cells than the section takes";
    Variable = 14: "a cell names a variable that is not below V";
    Table = 15:
        "a table is cut short, has another width than W, is one too many or has rows past N, or there is no lookup";
    Incomplete = 16: "rows, S words or cells are missing";
    UnusedGate = 17: "a gate is in no row";
    Scratch = 18:
        "a scratch word is not below p, or a seen variable's first cell is outside the columns";
    MadeUp = 19: "the plan or the state is made up, never opened, or finished";
    Listing = 20:
        "there are not eight parameters, or the words are no whole listing or no list of calls";
    NoMarker = 21: "no gate of kind 1 is listed, and padding adds rows of one";
    TooLong = 22: "the length after padding passes 65,536";
    MarkerRow = 23:
        "a row of a kind 2 gate would switch on the gate on the all-0 path, which is not of kind 1";
}

impl Refusal {
    /// All of them, by rising number.
    pub fn all() -> impl Iterator<Item = Refusal> {
        ALL.iter().map(|(refusal, _)| *refusal)
    }

    /// The refusal of a number from 1 to 23.
    pub fn from_number(number: u64) -> Option<Refusal> {
        Refusal::all().find(|refusal| refusal.number() == number)
    }

    /// Its number.
    pub fn number(self) -> u64 {
        self as u64
    }

    /// Its name in this crate.
    pub fn name(self) -> String {
        format!("{self:?}")
    }

    /// What it means, as a sentence without a full stop.
    pub fn sentence(self) -> &'static str {
        ALL[self as usize - 1].1
    }
}

/// Its number, name and sentence.
impl fmt::Display for Refusal {
    fn fmt(&self, f: &mut fmt::Formatter<'_>) -> fmt::Result {
        write!(f, "refused {} ({}): {}", self.number(), self.name(), self.sentence())
    }
}

impl std::error::Error for Refusal {}

/// The answer of a call that gave this number.
pub(crate) fn answer(number: u64) -> Result<(), Refusal> {
    match number {
        0 => Ok(()),
        // the library's contracts name no other number
        _ => Err(Refusal::from_number(number).expect("a refusal's number")),
    }
}
