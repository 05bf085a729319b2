//! Catalogues by other rules than the paper's: what is held against the threshold, what is written as the support and what as the example. Spoiled
//! libraries answer with them, and so are lists made that are wrong.
#[cfg(test)]
mod tests;

use crate::catalogue::{self, Codes, Entry, ENTRY, EXAMPLE_AT, OLD_ENTRY, RECORDS_AT};
use crate::code;
use crate::cranes;
use crate::drawing::RECORD;
use std::collections::HashMap;

/// A number by the drawings that contain a pattern, which rise, in a survey of these cranes.
pub type Rule = fn(&[usize], &[u8]) -> usize;

/// What a catalogue is made by.
#[derive(Clone, Copy)]
pub struct Rules {
    pub held: Rule,
    pub support: Rule,
    pub example: Rule,
}

/// The paper's.
pub const RIGHT: Rules = Rules {
    held: different,
    support: different,
    example: lowest,
};

impl Rules {
    /// The entries that they give an accepted survey, as bytes.
    pub fn list(&self, survey: &[u8], [threshold, limit]: [u32; 2]) -> Vec<u8> {
        let sheets = catalogue::read_survey(survey).expect("an accepted survey");
        let cranes = cranes::of_drawings(survey);
        let containing = Codes::default().containing(&sheets, limit as usize);
        let mut entries: Vec<Entry> = containing
            .into_iter()
            .filter(|(_, drawings)| (self.held)(drawings, &cranes) >= threshold as usize)
            .map(|(code, drawings)| Entry {
                code,
                support: (self.support)(&drawings, &cranes),
                example: (self.example)(&drawings, &cranes),
            })
            .collect();
        entries.sort_by(|a, b| code::order(&a.code, &b.code));
        catalogue::bytes(&entries)
    }
}

pub fn drawings(drawings: &[usize], _: &[u8]) -> usize {
    drawings.len()
}

fn cranes_of(drawings: &[usize], cranes: &[u8]) -> Vec<u8> {
    drawings.iter().map(|&d| cranes[d]).collect()
}

pub fn different(drawings: &[usize], cranes: &[u8]) -> usize {
    cranes::different(&cranes_of(drawings, cranes))
}

/// The different cranes, told apart by a part of their number.
pub fn different_by(drawings: &[usize], cranes: &[u8], part: u8) -> usize {
    let parts: Vec<u8> = cranes.iter().map(|crane| crane & part).collect();
    different(drawings, &parts)
}

/// The different cranes, but for one that is passed over.
pub fn different_without(drawings: &[usize], cranes: &[u8], without: u8) -> usize {
    let cranes = cranes_of(drawings, cranes);
    cranes::different(&cranes) - usize::from(cranes.contains(&without))
}

/// The cranes that are not that of the drawing before.
pub fn changes(drawings: &[usize], cranes: &[u8]) -> usize {
    let mut cranes = cranes_of(drawings, cranes);
    cranes.dedup();
    cranes.len()
}

/// The drawings whose crane has no later sheet, whether that contains the pattern or not.
pub fn last_sheets(drawings: &[usize], cranes: &[u8]) -> usize {
    let is_last = |&&d: &&usize| !cranes[d + 1..].contains(&cranes[d]);
    drawings.iter().filter(is_last).count()
}

/// The drawings of whose crane the next sheet does not contain the pattern, though one after it may.
pub fn before_next_sheets(drawings: &[usize], cranes: &[u8]) -> usize {
    let next = |d: usize| (d + 1..cranes.len()).find(|&e| cranes[e] == cranes[d]);
    let is_last = |&&d: &&usize| next(d).is_none_or(|e| !drawings.contains(&e));
    drawings.iter().filter(is_last).count()
}

/// The different cranes, with the last of 32 drawings as one more.
pub fn last_apart(drawings: &[usize], cranes: &[u8]) -> usize {
    let others: Vec<usize> = drawings.iter().copied().filter(|&d| d != 31).collect();
    different(&others, cranes) + usize::from(drawings.contains(&31))
}

pub fn lowest(drawings: &[usize], _: &[u8]) -> usize {
    drawings[0]
}

/// Examples that are wrong wherever they are not the lowest drawing, each by a rule of its own.
const WRONG_EXAMPLES: [Rule; 10] = [
    highest,
    second,
    crane,
    from_one,
    zero,
    four_bits,
    last_of_its_crane,
    first_of_its_crane,
    of_the_lowest_crane,
    different,
];

pub fn highest(drawings: &[usize], _: &[u8]) -> usize {
    drawings[drawings.len() - 1]
}

/// The next drawing that contains the pattern, where there is one.
pub fn second(drawings: &[usize], _: &[u8]) -> usize {
    drawings[1.min(drawings.len() - 1)]
}

pub fn crane(drawings: &[usize], cranes: &[u8]) -> usize {
    cranes[drawings[0]].into()
}

pub fn from_one(drawings: &[usize], _: &[u8]) -> usize {
    drawings[0] + 1
}

pub fn zero(_: &[usize], _: &[u8]) -> usize {
    0
}

pub fn four_bits(drawings: &[usize], _: &[u8]) -> usize {
    drawings[0] & 15
}

/// The lowest of the drawings by which cranes are counted: those that have no later sheet of their crane beside them.
pub fn last_of_its_crane(drawings: &[usize], cranes: &[u8]) -> usize {
    let of_cranes = cranes_of(drawings, cranes);
    let is_last = |&at: &usize| !of_cranes[at + 1..].contains(&of_cranes[at]);
    let last = (0..drawings.len()).find(is_last);
    drawings[last.expect("the last of all")]
}

/// The first sheet of the example's crane, whether it contains the pattern or not.
pub fn first_of_its_crane(drawings: &[usize], cranes: &[u8]) -> usize {
    let of_example = |&crane: &u8| crane == cranes[drawings[0]];
    cranes.iter().position(of_example).expect("the example")
}

pub fn of_the_lowest_crane(drawings: &[usize], cranes: &[u8]) -> usize {
    let lowest = drawings.iter().min_by_key(|&&d| cranes[d]);
    *lowest.expect("a drawing contains it")
}

/// The records of an entry.
fn code_of(entry: &[u8]) -> &[u8] {
    &entry[RECORDS_AT..][..code::RECORD * usize::from(entry[0])]
}

/// The list with the example of each entry as that of its code without the last record, which is a code of the list too.
pub fn of_parents(list: &[u8]) -> Vec<u8> {
    let entries = || list.chunks(ENTRY);
    let examples: HashMap<&[u8], u8> = entries().map(|e| (code_of(e), e[EXAMPLE_AT])).collect();
    let mut changed = list.to_vec();
    for (entry, other) in entries().zip(changed.chunks_mut(ENTRY)) {
        let code = code_of(entry);
        let parent = &code[..code.len() - code::RECORD];
        if let Some(&example) = examples.get(parent) {
            other[EXAMPLE_AT] = example;
        }
    }
    changed
}

/// The list with drawings numbered as if lone devices were none.
pub fn without_lone(survey: &[u8], list: &[u8]) -> Vec<u8> {
    let is_lone = |record: &&[u8]| record[0] == 1;
    let mut changed = list.to_vec();
    for entry in changed.chunks_mut(ENTRY) {
        let before = survey.chunks(RECORD).take(entry[EXAMPLE_AT].into());
        entry[EXAMPLE_AT] -= before.filter(is_lone).count() as u8;
    }
    changed
}

/// The list as it was before entries had an example.
pub fn old_form(list: &[u8]) -> Vec<u8> {
    let entries = list.chunks(ENTRY);
    entries
        .flat_map(|entry| &entry[..OLD_ENTRY])
        .copied()
        .collect()
}

/// The list of an accepted survey with wrong examples, in each way that there is.
pub fn with_wrong_examples(survey: &[u8], settings: [u32; 2]) -> Vec<Vec<u8>> {
    let right = RIGHT.list(survey, settings);
    let by_rule = |&example| Rules { example, ..RIGHT }.list(survey, settings);
    let mut lists: Vec<Vec<u8>> = WRONG_EXAMPLES.iter().map(by_rule).collect();
    lists.push(of_parents(&right));
    lists.push(without_lone(survey, &right));
    lists
}
