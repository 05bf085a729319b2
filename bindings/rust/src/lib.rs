//! Holvreiz gives a wiring drawing its identity, lists the patterns that recur in a survey of drawings, and all small patterns, and tells
//! of a list that was made elsewhere whether it is the catalogue of a survey.
//!
//! A drawing is a small labelled graph, held in a record of 73 bytes; its identity is its least DFS code. The record names too the crane
//! that the drawing is a sheet of; only [`catalogue`] and the checks of a list, which count cranes, look at that. Every call takes any bytes of
//! any length: what is no drawing, code or survey is turned back with the one [`Refusal`] that the format names. The library behind these calls
//! is proved; this crate only passes slices on and takes the returned number apart.
//!
//! ```
//! // two devices, of kinds 2 and 1, joined by a cable of kind 7
//! let mut drawing = holvreiz::Drawing::new();
//! let two = drawing.device(2)?;
//! let one = drawing.device(1)?;
//! drawing.cable(two, one, 7)?;
//!
//! let mut code = [0; holvreiz::CODE_BYTES];
//! let length = holvreiz::code(&drawing.bytes(), &mut code)?;
//! assert_eq!(code[..length], [0, 1, 1, 7, 2]);
//! # Ok::<(), holvreiz::Refusal>(())
//! ```
//!
//! **Stack.** There is no heap and no state, so that calls from several threads do not disturb each other. [`catalogue`],
//! [`check_list`], [`check_usual`] and [`check_four`] need about 1.74 MB of stack: the main thread has 8 MB as a rule and a thread of
//! `std::thread` 2 MB; one made with `std::thread::Builder::stack_size` should have 4 MB or more. The other calls, [`book`] among them, need
//! less than 32 KB.
#![warn(missing_docs)]

use std::cmp::Ordering;
use std::error::Error;
use std::fmt;

mod drawing;
pub mod raw;

pub use drawing::Drawing;

/// The size of a drawing: n, m, ten device kinds, twenty cables of three bytes (one end, other end, cable kind), the crane.
pub const DRAWING_BYTES: usize = 73;

/// The place of a drawing's crane, 0 to 255.
pub const CRANE_AT: usize = 72;

/// The most drawings in a survey, which has them one after another. Several may be sheets of one crane.
pub const SURVEY_DRAWINGS: usize = 32;

/// The size of a code's record: i, j, kind of i, cable kind, kind of j. A lone device of kind k has the one record 0, 0, k, 0, k.
pub const RECORD_BYTES: usize = 5;

/// The size of the longest code.
pub const CODE_BYTES: usize = 100;

/// The size of the longest map.
pub const MAP_BYTES: usize = 10;

/// The size of an entry of a catalogue or a book: number of cables, support, the least code's records, zeros up to 8 records, example. The support in
/// a catalogue is the number of different cranes among the drawings that contain the pattern; in a book it is 0.
pub const ENTRY_BYTES: usize = 43;

/// The place of an entry's example. In a catalogue that is the lowest number of a drawing that contains the pattern, 0 to 31, and no number of a
/// crane; in a book it is 0.
pub const EXAMPLE_AT: usize = 42;

/// Why a call is turned back, by the format's numbers 1 to 18. A refused call writes nothing; only [`Refusal::OutputLength`] of a
/// catalogue or a book leaves the whole output zero.
#[derive(Clone, Copy, Debug, PartialEq, Eq, Hash, PartialOrd, Ord)]
#[repr(u8)]
pub enum Refusal {
    /// A drawing is not 73 bytes long, or a survey no multiple of that.
    DrawingLength = 1,
    /// The number of devices is not 1 to 10.
    DeviceCount,
    /// The number of cables is not 0 at one device, or not 1 to 20 at more.
    CableCount,
    /// An end of a cable is no device.
    CableEnd,
    /// Both ends of a cable are equal.
    CableLoop,
    /// Two cables join one pair of devices.
    CablePair,
    /// An unused byte is not zero. The crane is never unused.
    UnusedByte,
    /// Cables don't lead from each device to every other.
    NotConnected,
    /// A code has no byte, over 100, or no multiple of 5.
    CodeLength,
    /// A record of a code is not a permitted step. 0, 0 is one alone only, with cable kind 0.
    Step,
    /// A record of a code gives a device another kind than its first.
    Kind,
    /// A threshold is not 1 to 32.
    Threshold,
    /// A size limit is not 1 to 8.
    SizeLimit,
    /// A survey has no drawing, or over 32.
    SurveyLength,
    /// The lent output is too short for the whole answer.
    OutputLength,
    /// The number of a book's kinds of devices or of cables is not 1 to 3.
    KindCount,
    /// A book's size limit is not 1 to 3.
    BookLimit,
    /// The length of a list is no multiple of 43.
    ListLength,
}

impl Refusal {
    /// Every refusal, in the order of their numbers.
    pub const ALL: [Refusal; 18] = [
        Refusal::DrawingLength,
        Refusal::DeviceCount,
        Refusal::CableCount,
        Refusal::CableEnd,
        Refusal::CableLoop,
        Refusal::CablePair,
        Refusal::UnusedByte,
        Refusal::NotConnected,
        Refusal::CodeLength,
        Refusal::Step,
        Refusal::Kind,
        Refusal::Threshold,
        Refusal::SizeLimit,
        Refusal::SurveyLength,
        Refusal::OutputLength,
        Refusal::KindCount,
        Refusal::BookLimit,
        Refusal::ListLength,
    ];

    /// The format's number of a refusal, 1 to 18.
    pub fn number(self) -> u8 {
        self as u8
    }

    /// The reason in words.
    pub fn words(self) -> &'static str {
        match self {
            Refusal::DrawingLength => {
                "a drawing is not 73 bytes long, or a survey no multiple of that"
            }
            Refusal::DeviceCount => "the number of devices is not 1 to 10",
            Refusal::CableCount => {
                "the number of cables is not 0 at one device, or not 1 to 20 at more"
            }
            Refusal::CableEnd => "an end of a cable is no device",
            Refusal::CableLoop => "both ends of a cable are equal",
            Refusal::CablePair => "two cables join one pair of devices",
            Refusal::UnusedByte => "an unused byte is not zero",
            Refusal::NotConnected => "cables do not lead from each device to every other",
            Refusal::CodeLength => "a code has no byte, over 100, or no multiple of 5",
            Refusal::Step => "a record of a code is not a permitted step",
            Refusal::Kind => "a record of a code gives a device another kind than its first",
            Refusal::Threshold => "a threshold is not 1 to 32",
            Refusal::SizeLimit => "a size limit is not 1 to 8",
            Refusal::SurveyLength => "a survey has no drawing, or over 32",
            Refusal::OutputLength => "the lent output is too short for the whole answer",
            Refusal::KindCount => "the number of a book's kinds is not 1 to 3",
            Refusal::BookLimit => "a book's size limit is not 1 to 3",
            Refusal::ListLength => "the length of a list is no multiple of 43",
        }
    }

    /// None for 0, which is an answer.
    fn from_number(number: u8) -> Option<Refusal> {
        let place = usize::from(number).checked_sub(1)?;
        Some(
            *Refusal::ALL
                .get(place)
                .expect("the library returns refusals 1 to 18 only"),
        )
    }
}

impl fmt::Display for Refusal {
    fn fmt(&self, f: &mut fmt::Formatter<'_>) -> fmt::Result {
        write!(f, "refused {}: {}", self.number(), self.words())
    }
}

impl Error for Refusal {}

/// Why a catalogue or the check of a list is turned back, and for refusals 2 to 8 the drawing at fault, counted from 0.
#[derive(Clone, Copy, Debug, PartialEq, Eq, Hash)]
pub struct SurveyRefusal {
    /// The reason.
    pub refusal: Refusal,
    /// The drawing at fault, if it is one drawing's fault.
    pub drawing: Option<usize>,
}

impl fmt::Display for SurveyRefusal {
    fn fmt(&self, f: &mut fmt::Formatter<'_>) -> fmt::Result {
        match self.drawing {
            Some(drawing) => {
                let refusal = self.refusal;
                write!(
                    f,
                    "refused {} drawing {drawing}: {}",
                    refusal.number(),
                    refusal.words()
                )
            }
            None => write!(f, "{}", self.refusal),
        }
    }
}

impl Error for SurveyRefusal {}

/// What the library returns, taken apart.
fn answered(returned: u64) -> Result<usize, Refusal> {
    match Refusal::from_number((returned >> 32) as u8) {
        None => Ok(returned as u32 as usize),
        Some(refusal) => Err(refusal),
    }
}

/// Writes the least code of a drawing into `output`, [`RECORD_BYTES`] for each cable and for a lone device, and gives the number of
/// bytes written.
///
/// Two drawings get equal codes exactly when some renumbering of devices makes one the other.
pub fn code(drawing: &[u8], output: &mut [u8]) -> Result<usize, Refusal> {
    answered(raw::code(drawing, output))
}

/// Writes the drawing that a code describes into `output` and gives the number of bytes written, [`DRAWING_BYTES`].
///
/// Devices are numbered as in the code, cables stand in the order of its records. The crane is 0.
pub fn decode(code: &[u8], output: &mut [u8]) -> Result<usize, Refusal> {
    answered(raw::decode(code, output))
}

/// Whether a code is the least, and how far it agrees with the least.
#[derive(Clone, Copy, Debug, PartialEq, Eq, Hash)]
pub struct Verdict {
    /// Whether it is the least of the drawing that it describes.
    pub least: bool,
    /// The number of records up to which it agrees with the least code of that drawing: all its records exactly if it is the least.
    pub agreement: usize,
}

/// Where the first of two codes comes, and how far they agree.
#[derive(Clone, Copy, Debug, PartialEq, Eq, Hash)]
pub struct Compared {
    /// Less where the first comes before the second.
    pub order: Ordering,
    /// The number of whole records before the first on which they part: the number of all their records where they are equal, and where one begins
    /// the other that of its own.
    pub agreement: usize,
}

/// A count that has an agreement, taken apart: the agreement, and the order or the verdict.
fn with_agreement(count: usize) -> (usize, usize) {
    (count / 256, count % 256)
}

/// Whether a code is the least of the drawing that it describes, and in how many records it agrees with the least.
///
/// ```
/// // a path of three devices told from its middle, which from an end is 0-1, 1-2: the first record is that of the least code
/// let from_its_middle = [0, 1, 1, 5, 1, 0, 2, 1, 5, 1];
/// let verdict = holvreiz::is_least(&from_its_middle)?;
/// assert_eq!((verdict.least, verdict.agreement), (false, 1));
/// # Ok::<(), holvreiz::Refusal>(())
/// ```
pub fn is_least(code: &[u8]) -> Result<Verdict, Refusal> {
    let (agreement, verdict) = with_agreement(answered(raw::is_least(code))?);
    Ok(Verdict {
        least: verdict == 1,
        agreement,
    })
}

/// The order of two codes: at the first record that differs; a code that begins another comes before it. Lone devices come before
/// all others, by kind. The agreement is the number of records before the one that differs.
pub fn compare(first: &[u8], second: &[u8]) -> Result<Compared, Refusal> {
    let (agreement, order) = with_agreement(answered(raw::compare(first, second))?);
    let order = match order {
        0 => Ordering::Equal,
        1 => Ordering::Less,
        _ => Ordering::Greater,
    };
    Ok(Compared { order, agreement })
}

/// Writes the least map of a pattern into a drawing: for each device of the pattern the device that it is sent to.
///
/// Gives the number of bytes written, or None where the drawing does not contain the pattern.
pub fn match_drawing(
    pattern: &[u8],
    drawing: &[u8],
    output: &mut [u8],
) -> Result<Option<usize>, Refusal> {
    Ok(
        match answered(raw::match_drawing(pattern, drawing, output))? {
            0 => None,
            devices => Some(devices),
        },
    )
}

/// Whether two drawings are the same, however their devices are numbered and their cables ordered, and whatever their cranes are.
pub fn same(first: &[u8], second: &[u8]) -> Result<bool, Refusal> {
    Ok(answered(raw::same(first, second))? == 1)
}

/// Writes the catalogue of a survey into `output`, [`ENTRY_BYTES`] for each entry, and gives the number of entries.
///
/// There is an entry for each pattern of 1 to `limit` cables that drawings of at least `threshold` different cranes contain; codes
/// rise. Sheets of one crane count once. Where the entries don't fit, the whole output is zero and the refusal is
/// [`Refusal::OutputLength`]. How many there are the call alone can tell: lend more and call again. The program `catalogue` lends 67,080
/// bytes, 1,560 entries; no survey has more than 8,446,368 entries. A catalogue needs about 1.74 MB of stack (see the crate's first page).
pub fn catalogue(
    survey: &[u8],
    threshold: u32,
    limit: u32,
    output: &mut [u8],
) -> Result<usize, SurveyRefusal> {
    of_survey(raw::catalogue(survey, threshold, limit, output))
}

/// What a call over a survey returned, taken apart.
fn of_survey(returned: u64) -> Result<usize, SurveyRefusal> {
    answered(returned).map_err(|refusal| SurveyRefusal {
        refusal,
        drawing: faulty_drawing(refusal, returned),
    })
}

/// The drawing at fault. A survey's own length is no drawing's fault, so that 1 names none.
fn faulty_drawing(refusal: Refusal, returned: u64) -> Option<usize> {
    let in_a_drawing = Refusal::DeviceCount <= refusal && refusal <= Refusal::NotConnected;
    in_a_drawing.then_some((returned >> 40) as usize)
}

/// Whether a list that was made elsewhere is the catalogue of a survey, byte for byte: the entries that [`catalogue`] writes, one behind another,
/// and nothing else.
///
/// An incomplete list is not, and neither is a longer one or one with another example; a list without entries is, where nothing is frequent. The
/// bytes of a list are only compared: whatever they are, there is an answer. The refusals are those of a catalogue without [`Refusal::OutputLength`];
/// once the survey is accepted, a list whose length is no multiple of [`ENTRY_BYTES`] is [`Refusal::ListLength`]. Needs as much stack as a catalogue.
///
/// ```
/// let mut drawing = holvreiz::Drawing::new();
/// let two = drawing.device(2)?;
/// let one = drawing.device(1)?;
/// drawing.cable(two, one, 7)?;
///
/// // one cable, support 1, example 0
/// let mut list = [0; holvreiz::ENTRY_BYTES];
/// list[..7].copy_from_slice(&[1, 1, 0, 1, 1, 7, 2]);
/// assert_eq!(holvreiz::check_list(&drawing.bytes(), 1, 4, &list), Ok(true));
/// list[holvreiz::EXAMPLE_AT] = 1;
/// assert_eq!(holvreiz::check_list(&drawing.bytes(), 1, 4, &list), Ok(false));
/// assert_eq!(holvreiz::check_list(&drawing.bytes(), 1, 4, &[]), Ok(false));
/// # Ok::<(), holvreiz::Refusal>(())
/// ```
pub fn check_list(
    survey: &[u8],
    threshold: u32,
    limit: u32,
    list: &[u8],
) -> Result<bool, SurveyRefusal> {
    Ok(of_survey(raw::check_list(survey, threshold, limit, list))? == 1)
}

/// [`check_list`] for the usual catalogue: patterns of at most 6 cables that drawings of at least 2 cranes contain.
pub fn check_usual(survey: &[u8], list: &[u8]) -> Result<bool, SurveyRefusal> {
    Ok(of_survey(raw::check_usual(survey, list))? == 1)
}

/// [`check_list`] for the catalogue that was usual before: patterns of at most 4 cables that drawings of at least 2 cranes contain. Its entries have
/// an example too: a list from before they had one has to be made again.
pub fn check_four(survey: &[u8], list: &[u8]) -> Result<bool, SurveyRefusal> {
    Ok(of_survey(raw::check_four(survey, list))? == 1)
}

/// Writes the book of all small patterns into `output`, [`ENTRY_BYTES`] for each entry, and gives the number of entries.
///
/// There is an entry, with support 0 and example 0, for each connected pattern of 1 to `limit` cables with device kinds below `a` and cable kinds
/// below `b`; codes rise. All three are 1 to 3: [`Refusal::KindCount`] comes before [`Refusal::BookLimit`], and both before
/// [`Refusal::OutputLength`], where the whole output is zero. The largest book has 1,947 entries, 83,721 bytes.
///
/// ```
/// // one cable of the one kind, between two devices of the one kind
/// let mut book = [9; holvreiz::ENTRY_BYTES];
/// assert_eq!(holvreiz::book(1, 1, 1, &mut book), Ok(1));
/// assert_eq!(book[..7], [1, 0, 0, 1, 0, 0, 0]);
/// ```
pub fn book(a: u32, b: u32, limit: u32, output: &mut [u8]) -> Result<usize, Refusal> {
    answered(raw::book(a, b, limit, output))
}
