//! How far two codes agree, request R-7: the greatest number of records that both begin with, looked for from the longest beginning down. The
//! library goes the other way, record by record, and for the least test as its search goes. Then what there is to tell of an agreement: every way is
//! seen to occur.
#[cfg(test)]
mod tests;

use crate::answers::Answer;
use crate::code::{self, Code, Record};
use crate::drawing::{Drawing, MOST_CABLES};
use crate::shims::Given;
use std::cmp::Ordering;

/// The calls that tell an agreement.
pub const CALLS: [&str; 2] = ["is_least", "compare"];

/// Their count is so many times the agreement, and the order or the verdict.
pub const TIMES: usize = 256;

/// The number of records that both codes begin with.
pub fn of(first: &[Record], second: &[Record]) -> usize {
    let shorter = first.len().min(second.len());
    let both_begin = |&records: &usize| first[..records] == second[..records];
    let longest = (0..=shorter).rev().find(both_begin);
    longest.expect("both begin with no record")
}

/// Of equal codes: how many records they have.
pub const ONE: &str = ": the one record";
pub const ALL: &str = ": all records";
pub const ALL_TWENTY: &str = ": all twenty records";
/// Of two others: how many of their records agree. The last record is that of the shorter code.
pub const BEGINS: &str = ": one begins the other";
pub const NO_RECORD: &str = ": no record";
pub const FIRST_ALONE: &str = ": the first record";
pub const SEVERAL: &str = ": several records";
pub const BUT_LAST: &str = ": all but the last record";
pub const BUT_TWENTIETH: &str = ": all but the twentieth record";
/// The first byte in which the records differ on which they part.
pub const PARTING: [&str; code::RECORD] = [
    ": parting at i",
    ": parting at j",
    ": parting at the kind of i",
    ": parting at the cable kind",
    ": parting at the kind of j",
];
/// Of a code that is not the least: the least of those with its own first device is itself, or agrees with it for longer than the least of all, or
/// for no longer.
pub const OWN_LEAST: &str = ": the least from its own start";
pub const OWN_LONGER: &str = ": its own start agrees for longer";
pub const OWN_ALIKE: &str = ": its own start agrees for no longer";
/// Of the same: whether some code that comes before it agrees with it for longer than the least.
pub const SOME_LONGER: &str = ": some before it agrees for longer";
pub const NONE_LONGER: &str = ": none before it agrees for longer";

/// What can be told of equal codes, of two others, and of one that is not the least.
const OF_EQUAL: &[&str] = &[ONE, ALL, ALL_TWENTY];
const OF_OTHERS: &[&str] = &[NO_RECORD, FIRST_ALONE, SEVERAL, BUT_LAST, BUT_TWENTIETH];
const OF_SEARCHES: &[&str] = &[OWN_LEAST, OWN_LONGER, OWN_ALIKE, SOME_LONGER, NONE_LONGER];

/// Every answer beside an agreement of which this can be told.
pub const ANSWERS: &[(&str, &str, &[&[&str]])] = &[
    ("is_least", "yes", &[OF_EQUAL]),
    ("is_least", "no", &[OF_OTHERS, &PARTING, OF_SEARCHES]),
    ("compare", "equal", &[OF_EQUAL]),
    ("compare", "before", &[&[BEGINS], OF_OTHERS, &PARTING]),
    ("compare", "after", &[&[BEGINS], OF_OTHERS, &PARTING]),
];

/// What there is to tell of the agreement beside an answer.
pub fn told(given: &Given, answer: &Answer) -> Vec<&'static str> {
    let read = |bytes: &[u8]| code::read(bytes).expect("an accepted code");
    match (given.call, answer.refused.number) {
        ("compare", 0) => of_two(&read(given.first), &read(given.second)),
        ("is_least", 0) => of_one(&read(given.first)),
        _ => Vec::new(),
    }
}

fn of_two(first: &[Record], second: &[Record]) -> Vec<&'static str> {
    let agreement = of(first, second);
    let part = how_many(agreement, [first.len(), second.len()]);
    let parting = parting(&first[agreement..], &second[agreement..]);
    [part].into_iter().chain(parting).collect()
}

fn how_many(agreement: usize, records: [usize; 2]) -> &'static str {
    let [shorter, longer] = [records[0].min(records[1]), records[0].max(records[1])];
    match agreement {
        MOST_CABLES => ALL_TWENTY,
        1 if longer == 1 => ONE,
        _ if agreement == longer => ALL,
        _ if agreement == shorter => BEGINS,
        0 => NO_RECORD,
        _ if agreement + 1 == MOST_CABLES => BUT_TWENTIETH,
        _ if agreement + 1 == shorter => BUT_LAST,
        1 => FIRST_ALONE,
        _ => SEVERAL,
    }
}

/// Of what two codes have behind their agreement.
fn parting(first: &[Record], second: &[Record]) -> Option<&'static str> {
    let (first, second) = (code::bytes(first), code::bytes(second));
    let mut bytes = first.iter().zip(&second);
    Some(PARTING[bytes.position(|(a, b)| a != b)?])
}

/// Of a code and the least of what it describes, where devices are numbered as in the code.
fn of_one(code: &Code) -> Vec<&'static str> {
    let drawing = code::described(code);
    let least = code::least(&drawing);
    let mut told = of_two(code, &least);
    if *code != least {
        let agreement = of(code, &least);
        told.push(of_own_start(code, &drawing, agreement));
        told.push(of_those_before(code, &drawing, agreement));
    }
    told
}

fn of_own_start(code: &Code, drawing: &Drawing, agreement: usize) -> &'static str {
    match of(code, &code::least_from(drawing, 0)) {
        own if own == code.len() => OWN_LEAST,
        own if own > agreement => OWN_LONGER,
        _ => OWN_ALIKE,
    }
}

fn of_those_before(code: &Code, drawing: &Drawing, agreement: usize) -> &'static str {
    if longest_before(code, drawing) > agreement {
        SOME_LONGER
    } else {
        NONE_LONGER
    }
}

/// The longest agreement of a code of a drawing with one that comes before it; 0 where none does.
pub fn longest_before(code: &Code, drawing: &Drawing) -> usize {
    let mut longest = 0;
    code::for_each_code(drawing, &mut |other| {
        if code::order(&other, code) == Ordering::Less {
            longest = longest.max(of(&other, code));
        }
    });
    longest
}
