//! An example for each pattern, request R-8: what there is to tell of those of a catalogue, and of the bytes that they are written over. Every kind
//! is seen to occur.
#[cfg(test)]
mod tests;

use crate::answers::Answer;
use crate::catalogue::{Entry, Sheet, ENTRY, EXAMPLE_AT};
use crate::code::{Code, Record};
use crate::drawing::Drawing;
use crate::generate::plain;
use crate::random::Random;
use std::collections::HashMap;

/// An entry's example, with what it is told by: that of the code without its last record, the drawings that contain the pattern, which rise, and all.
struct Example<'a> {
    number: usize,
    parents: Option<usize>,
    containing: &'a [usize],
    sheets: &'a [Sheet],
}

impl Example<'_> {
    fn crane(&self) -> u8 {
        self.sheets[self.number].crane
    }

    fn before(&self) -> &[Sheet] {
        &self.sheets[..self.number]
    }

    /// The cranes of the other drawings that contain the pattern.
    fn other_cranes(&self) -> impl Iterator<Item = u8> + '_ {
        let others = self.containing.iter().filter(|&&d| d != self.number);
        others.map(|&d| self.sheets[d].crane)
    }
}

/// What may hold of an example.
type Kind = (&'static str, fn(&Example) -> bool);

pub const ABOVE_0: &str = ": an example above 0";
pub const AFTER_SHORTER: &str = ": after that of the code without its last record";

const KINDS: &[Kind] = &[
    (": example 0", |e| e.number == 0),
    (ABOVE_0, |e| e.number > 0),
    (": example 31", |e| e.number == 31),
    (": its crane has its number", |e| {
        usize::from(e.crane()) == e.number
    }),
    (": its crane has a lower number", |e| {
        usize::from(e.crane()) < e.number
    }),
    (": its crane has a higher number", |e| {
        usize::from(e.crane()) > e.number
    }),
    (": in no other drawing", |e| e.containing.len() == 1),
    (": in a later sheet of its crane", |e| {
        e.other_cranes().any(|crane| crane == e.crane())
    }),
    (": in a later drawing of a lower crane", |e| {
        e.other_cranes().any(|crane| crane < e.crane())
    }),
    (": in a later drawing of a higher crane", |e| {
        e.other_cranes().any(|crane| crane > e.crane())
    }),
    (": not in an earlier sheet of its crane", |e| {
        e.before().iter().any(|sheet| sheet.crane == e.crane())
    }),
    (": behind a lone device", |e| {
        e.before().iter().any(|sheet| sheet.drawing.devices() == 1)
    }),
    (": that of the code without its last record", |e| {
        e.parents == Some(e.number)
    }),
    (AFTER_SHORTER, |e| {
        e.parents.is_some_and(|parents| parents < e.number)
    }),
];

/// An example of 0 stands where another byte was.
pub const OVER: &str = ": example 0 over another byte";

/// All that can be told of a catalogue that has entries.
pub fn kinds() -> impl Iterator<Item = &'static str> {
    KINDS.iter().map(|&(kind, _)| kind).chain([OVER])
}

/// What there is to tell of the examples of a survey's entries, by the drawings that contain each pattern.
pub fn told(
    sheets: &[Sheet],
    entries: &[Entry],
    containing: &HashMap<Code, Vec<usize>>,
) -> Vec<&'static str> {
    let lowest = |code: &[Record]| containing.get(code)?.first().copied();
    let examples: Vec<Example> = entries
        .iter()
        .map(|entry| Example {
            number: entry.example,
            parents: lowest(&entry.code[..entry.code.len() - 1]),
            containing: &containing[&entry.code],
            sheets,
        })
        .collect();
    let holds = |&&(_, holds): &&Kind| examples.iter().any(holds);
    KINDS.iter().filter(holds).map(|&(kind, _)| kind).collect()
}

/// What there is to tell of the bytes that a catalogue or a book was written over.
pub fn told_of_lent(call: &str, lent: &[u8], answer: &Answer) -> Option<&'static str> {
    let lists = ["catalogue", "write_catalogue", "usual_catalogue", "book"];
    if !lists.contains(&call) || answer.refused.number != 0 {
        return None;
    }
    let examples = |bytes: &[u8]| -> Vec<u8> {
        let entries = bytes.chunks(ENTRY).take(answer.count);
        entries.map(|entry| entry[EXAMPLE_AT]).collect()
    };
    let (before, after) = (examples(lent), examples(&answer.output));
    let over = before.iter().zip(&after).any(|(&b, &a)| a == 0 && b != 0);
    over.then_some(OVER)
}

/// Rising paths, where each pattern is first in the path that it is itself; then each of 32 drawings in turn as the first that contains a path of
/// two, behind lone devices and single cables. The cranes rise, fall, repeat or are all one.
pub fn surveys(random: &mut Random) -> Vec<Vec<u8>> {
    let path = |cables: usize| plain(&(0..cables).map(|v| (v, v + 1)).collect::<Vec<_>>());
    let lone = Drawing {
        kinds: vec![1],
        cables: Vec::new(),
    };
    let mut surveys: Vec<Vec<Drawing>> = vec![(1..=9).map(path).collect(); 4];
    for first in 0..32 {
        let shorter = (0..first).map(|_| random.pick(&[lone.clone(), path(1)]).clone());
        surveys.push(shorter.chain(vec![path(2); 32 - first]).collect());
    }
    let cranes: [fn(u8) -> u8; 4] = [|d| d, |d| 31 - d, |d| 255 - d % 5, |_| 7];
    let with_cranes = surveys.iter().zip(cranes.iter().cycle());
    let sheets = |(drawings, crane): (&Vec<Drawing>, &fn(u8) -> u8)| {
        let sheets = drawings.iter().zip(0..);
        sheets
            .flat_map(|(drawing, d)| drawing.sheet(crane(d)))
            .collect()
    };
    with_cranes.map(sheets).collect()
}
