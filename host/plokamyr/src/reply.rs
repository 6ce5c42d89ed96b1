use std::error::Error;
use std::fmt;

/// What the library answers: done, or why not. The numbers are those of `include/plokamyr.h`.
///
/// A library that is newer than this crate may answer a number that has no name here: it is then [`Reply::Other`].
/// To look for such a reply, compare [`number`](Reply::number), which stays what it is when a later version names it.
///
/// ```
/// use plokamyr::Reply;
///
/// assert_eq!(Reply::from_number(4), Reply::IllegalState);
/// assert_eq!(Reply::IllegalState.number(), 4);
/// assert_eq!(Reply::from_number(99), Reply::Other(99));
/// assert_eq!(Reply::ImageCut.to_string(), "image ends before a section does (reply 5)");
/// ```
///
/// A match needs an arm for replies to come:
///
/// ```compile_fail,E0004
/// # use plokamyr::Reply::{self, *};
/// # fn of_a_step(reply: Reply) -> bool {
/// match reply {
///     Done => true,
///     ForeignWord | UnsupportedForm | LevelTooLow | AccessOff | IllegalState | NotMonotonic | NotOwned => false,
///     ImageCut | NotAllowed | TrailingBytes | BufferTooSmall => false,
///     FieldPastRange | BadWalkRegisters | ListTooShort | BudgetSpent => false,
///     Other(_) => false,
/// }
/// # }
/// ```
#[derive(Clone, Copy, Debug, PartialEq, Eq, Hash)]
#[non_exhaustive]
#[must_use]
pub enum Reply {
    /// 0.
    Done,
    /// 1: bits 31:24 of the word are not 00100101.
    ForeignWord,
    /// 2: the state's level is below the form's.
    LevelTooLow,
    /// 3.
    AccessOff,
    /// 4: the vector length is none of the five, `level` is above 3, a predicate or FFR has a bit at or above an eighth of the
    /// length, or a count is wrong.
    IllegalState,
    /// 5: the image ends before a section does.
    ImageCut,
    /// 6: a count or a byte of an image is not allowed.
    NotAllowed,
    /// 7: the image goes on after its last section.
    TrailingBytes,
    /// 8: the buffer for an image, or the list for its words.
    BufferTooSmall,
    /// 9: the instruction to be written has a field past its range, or is SEL with S = 1.
    FieldPastRange,
    /// 10: an X past 31, a P past 15, a size past 3, n = 31, n = m, or d = k.
    BadWalkRegisters,
    /// 11: the list has fewer places than there are positions to visit, or a title has more than 4,096 units.
    ListTooShort,
    /// 12: the walk has not ended. The only refusal that keeps the work done so far.
    BudgetSpent,
    /// 13: bits 31:24 of the word are 00100101, but its form is none of ours, as with SEL with S = 1.
    UnsupportedForm,
    /// 14: WRFFR's Pn is not a run of ones from bit 0: a true bit stands above a false one. Arm calls such a run a monotonic
    /// predicate; the empty and the full one count.
    NotMonotonic,
    /// 15: the word or the walk of a kernel names a register of the other kernel, or touches FFR. See [`Shared`](crate::Shared).
    NotOwned,
    /// A number that has no name here. [`Reply::from_number`] gives it for no other.
    Other(u32),
}

impl Reply {
    /// Those that have a name here, each at the place of its number.
    pub const ALL: &'static [Reply] = &[
        Reply::Done,
        Reply::ForeignWord,
        Reply::LevelTooLow,
        Reply::AccessOff,
        Reply::IllegalState,
        Reply::ImageCut,
        Reply::NotAllowed,
        Reply::TrailingBytes,
        Reply::BufferTooSmall,
        Reply::FieldPastRange,
        Reply::BadWalkRegisters,
        Reply::ListTooShort,
        Reply::BudgetSpent,
        Reply::UnsupportedForm,
        Reply::NotMonotonic,
        Reply::NotOwned,
    ];

    /// The reply of a number.
    pub fn from_number(number: u32) -> Reply {
        Self::ALL.get(number as usize).copied().unwrap_or(Reply::Other(number))
    }

    /// The number that C gives it.
    pub fn number(self) -> u32 {
        self.number_and_words().0
    }

    fn number_and_words(self) -> (u32, &'static str) {
        match self {
            Reply::Done => (0, "done"),
            Reply::ForeignWord => (1, "word is foreign: its bits 31:24 are not 00100101"),
            Reply::LevelTooLow => (2, "level is below what the instruction asks"),
            Reply::AccessOff => (3, "access is off"),
            Reply::IllegalState => (4, "vector length, level, a predicate, FFR or a count of the state is not allowed"),
            Reply::ImageCut => (5, "image ends before a section does"),
            Reply::NotAllowed => (6, "count or byte of an image is not allowed"),
            Reply::TrailingBytes => (7, "image goes on after its last section"),
            Reply::BufferTooSmall => (8, "buffer or list is too small"),
            Reply::FieldPastRange => (9, "field of an instruction is past its range, or it is SEL with S = 1"),
            Reply::BadWalkRegisters => (10, "register or size of a walk is not allowed"),
            Reply::ListTooShort => (11, "list has fewer places than there are positions to visit"),
            Reply::BudgetSpent => (12, "budget is spent before the walk has ended"),
            Reply::UnsupportedForm => (13, "form of the word is not supported, though its bits 31:24 are 00100101"),
            Reply::NotMonotonic => (14, "predicate to be written to FFR is not a run of ones from bit 0"),
            Reply::NotOwned => (15, "register of the other kernel is named, or FFR is touched"),
            Reply::Other(number) => (number, "reply without a name here"),
        }
    }
}

impl fmt::Display for Reply {
    /// What it says in words, and its number.
    fn fmt(&self, out: &mut fmt::Formatter) -> fmt::Result {
        let (number, words) = self.number_and_words();
        write!(out, "{words} (reply {number})")
    }
}

/// A refusal is an error; [`Reply::Done`] never stands in an `Err` of this crate.
///
/// ```
/// fn first_field(word: u32) -> Result<u8, Box<dyn std::error::Error>> {
///     let row = plokamyr::decode(word)?;
///     Ok(row.fields[0])
/// }
/// assert_eq!(first_field(0).unwrap_err().to_string(), "word is foreign: its bits 31:24 are not 00100101 (reply 1)");
/// ```
impl Error for Reply {}
