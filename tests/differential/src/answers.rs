//! What each call answers and leaves in the lent bytes, by the paper's table of refusals and the other algorithms.
use crate::agreement;
use crate::catalogue::{self, Entry};
use crate::code;
use crate::drawing::{Drawing, RECORD};
use crate::lists;
use crate::map;
use crate::refused::Refused;
use std::cmp::Ordering;

/// Whose refusal it is.
pub const FIRST: &str = "";
pub const SECOND: &str = ", the second";
pub const LATER: &str = ", a later drawing";

#[derive(Clone, Debug, PartialEq, Eq)]
pub struct Answer {
    /// The answer in a word, or whose refusal it is.
    pub said: &'static str,
    /// Number 0 where the call is not turned back.
    pub refused: Refused,
    pub count: usize,
    /// The lent bytes after the call.
    pub output: Vec<u8>,
}

impl Answer {
    fn counted(said: &'static str, count: usize) -> Self {
        Answer::written(said, count, &[], &[])
    }

    /// What is decided of two codes, and how far they agree.
    fn agreeing(said: &'static str, decided: usize, agreement: usize) -> Self {
        Answer::counted(said, agreement::TIMES * agreement + decided)
    }

    /// The bytes in front, and behind them what was there.
    fn written(said: &'static str, count: usize, bytes: &[u8], lent: &[u8]) -> Self {
        Answer {
            said,
            refused: Refused::of(0),
            count,
            output: [bytes, &lent[bytes.len()..]].concat(),
        }
    }

    /// A refusal writes nothing.
    fn refused(refused: Refused, whose: &'static str, lent: &[u8]) -> Self {
        Answer {
            said: whose,
            refused,
            count: 0,
            output: lent.to_vec(),
        }
    }

    /// The number that a call from C returns. It names a drawing at fault, but no record of a code.
    pub fn returned(&self) -> u64 {
        let drawing = match self.refused.number {
            10 | 11 => 0,
            _ => self.refused.at,
        };
        (drawing as u64 * 256 + u64::from(self.refused.number)) * (1 << 32) + self.count as u64
    }
}

/// The first of two is checked fully before the second.
fn both<T, E>(first: Result<T, E>, second: Result<T, E>) -> Result<(T, T), (E, &'static str)> {
    let first = first.map_err(|refused| (refused, FIRST))?;
    let second = second.map_err(|refused| (refused, SECOND))?;
    Ok((first, second))
}

pub fn check_drawing(drawing: &[u8]) -> Answer {
    match Drawing::read(drawing) {
        Err(number) => Answer::refused(Refused::of(number), FIRST, &[]),
        Ok(_) => Answer::counted("accepted", 0),
    }
}

pub fn check_code(bytes: &[u8]) -> Answer {
    match code::read(bytes) {
        Err(refused) => Answer::refused(refused, FIRST, &[]),
        Ok(_) => Answer::counted("accepted", 0),
    }
}

/// Whose refusal one of a survey is.
fn of_survey(refused: &Refused) -> &'static str {
    if refused.at == 0 {
        FIRST
    } else {
        LATER
    }
}

pub fn check_survey(survey: &[u8]) -> Answer {
    match catalogue::read_survey(survey) {
        Err(refused) => Answer::refused(refused, of_survey(&refused), &[]),
        Ok(drawings) => Answer::counted("accepted", drawings.len()),
    }
}

pub fn code(drawing: &[u8], lent: &[u8]) -> Answer {
    match Drawing::read(drawing) {
        Err(number) => Answer::refused(Refused::of(number), FIRST, lent),
        Ok(read) if lent.len() < code::size(&read) => Answer::refused(Refused::of(15), FIRST, lent),
        Ok(read) => {
            let bytes = code::bytes(&code::least(&read));
            Answer::written("written", bytes.len(), &bytes, lent)
        }
    }
}

pub fn decode(bytes: &[u8], lent: &[u8]) -> Answer {
    match code::read(bytes) {
        Err(refused) => Answer::refused(refused, FIRST, lent),
        Ok(_) if lent.len() < RECORD => Answer::refused(Refused::of(15), FIRST, lent),
        Ok(code) => Answer::written("written", RECORD, &code::described(&code).record(), lent),
    }
}

pub fn is_least(bytes: &[u8]) -> Answer {
    match code::read(bytes) {
        Err(refused) => Answer::refused(refused, FIRST, &[]),
        Ok(code) => {
            let least = code::least(&code::described(&code));
            let (said, decided) = if code == least { ("yes", 1) } else { ("no", 0) };
            Answer::agreeing(said, decided, agreement::of(&code, &least))
        }
    }
}

pub fn compare(first: &[u8], second: &[u8]) -> Answer {
    match both(code::read(first), code::read(second)) {
        Err((refused, whose)) => Answer::refused(refused, whose, &[]),
        Ok((first, second)) => {
            let (said, decided) = match code::order(&first, &second) {
                Ordering::Equal => ("equal", 0),
                Ordering::Less => ("before", 1),
                Ordering::Greater => ("after", 2),
            };
            Answer::agreeing(said, decided, agreement::of(&first, &second))
        }
    }
}

pub fn match_drawing(pattern: &[u8], drawing: &[u8], lent: &[u8]) -> Answer {
    match both(Drawing::read(pattern), Drawing::read(drawing)) {
        Err((number, whose)) => Answer::refused(Refused::of(number), whose, lent),
        Ok((pattern, _)) if lent.len() < pattern.devices() => {
            Answer::refused(Refused::of(15), FIRST, lent)
        }
        Ok((pattern, drawing)) => match map::least_map(&pattern, &drawing) {
            Some(map) => Answer::written("map", map.len(), &map, lent),
            None => Answer::written("not contained", 0, &[], lent),
        },
    }
}

pub fn same(first: &[u8], second: &[u8]) -> Answer {
    match both(Drawing::read(first), Drawing::read(second)) {
        Err((number, whose)) => Answer::refused(Refused::of(number), whose, &[]),
        Ok((first, second)) if map::same(&first, &second) => Answer::counted("yes", 1),
        Ok(_) => Answer::counted("no", 0),
    }
}

/// Of the entries that the whole answer has, or why there is none; the book's are answered so too.
pub fn catalogue(entries: &Result<Vec<Entry>, Refused>, lent: &[u8]) -> Answer {
    match entries {
        Err(refused) => Answer::refused(*refused, of_survey(refused), lent),
        Ok(entries) if lent.len() < entries.len() * catalogue::ENTRY => {
            Answer::refused(Refused::of(15), FIRST, &vec![0; lent.len()])
        }
        Ok(entries) if entries.is_empty() => Answer::written("no entry", 0, &[], lent),
        Ok(entries) => {
            let bytes = catalogue::bytes(entries);
            Answer::written("entries", entries.len(), &bytes, lent)
        }
    }
}

/// Whether a list is the catalogue of these entries. Its length is looked at once the survey is accepted; its bytes are no reason to refuse.
pub fn check_list(entries: &Result<Vec<Entry>, Refused>, list: &[u8]) -> Answer {
    match entries {
        Err(refused) => Answer::refused(*refused, of_survey(refused), &[]),
        Ok(_) if list.len() % catalogue::ENTRY != 0 => Answer::refused(Refused::of(18), FIRST, &[]),
        Ok(entries) if lists::is_right(list, entries) => Answer::counted("yes", 1),
        Ok(_) => Answer::counted("no", 0),
    }
}

/// Opening checks the length place only.
pub fn open(survey: &[u8]) -> Answer {
    match catalogue::read_length(survey) {
        Err(refused) => Answer::refused(refused, FIRST, &[]),
        Ok(_) => Answer::counted("opened", 0),
    }
}

/// A fetch from the reader that opening gives; the output is the part of the survey.
pub fn fetch(survey: &[u8], d: usize) -> Answer {
    match catalogue::read_length(survey) {
        Ok(drawings) if d < drawings => {
            let part = survey[RECORD * d..][..RECORD].to_vec();
            Answer {
                output: part,
                ..Answer::counted("fetched", 0)
            }
        }
        _ => Answer::refused(Refused::of(14), FIRST, &[]),
    }
}
