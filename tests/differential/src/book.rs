//! The book of all small patterns by its definition, request R-2: every connected graph on numbered devices is written down, and two of
//! them are one pattern exactly where some permutation of the devices makes one the other. Nothing is grown from code to code.
#[cfg(test)]
mod tests;

use crate::catalogue::{self, Entry};
use crate::code;
use crate::drawing::{Cable, Drawing};
use crate::refused::Refused;
use std::collections::HashSet;

const MOST_KINDS: u32 = 3;
const MOST_CABLES: u32 = 3;

/// The entries of the book, or why it has none.
pub fn of_settings(a: u32, b: u32, limit: u32) -> Result<Vec<Entry>, Refused> {
    let kinds = 1..=MOST_KINDS;
    if !kinds.contains(&a) || !kinds.contains(&b) {
        return Err(Refused::of(16));
    }
    if !(1..=MOST_CABLES).contains(&limit) {
        return Err(Refused::of(17));
    }
    Ok(entries(a as u8, b as u8, limit as usize))
}

/// What the program `book` prints.
pub fn text(a: u32, b: u32, limit: u32) -> String {
    match of_settings(a, b, limit) {
        Ok(entries) => catalogue::text(&entries),
        Err(refused) => format!("refused {}\n", refused.number),
    }
}

/// The entries for any numbers: codes rise, no drawing is counted, and none is an example.
pub fn entries(a: u8, b: u8, limit: usize) -> Vec<Entry> {
    let patterns = patterns(a, b, limit);
    let mut entries: Vec<Entry> = patterns
        .iter()
        .map(|pattern| Entry {
            code: code::least(pattern),
            support: 0,
            example: 0,
        })
        .collect();
    entries.sort_by(|one, other| code::order(&one.code, &other.code));
    entries
}

/// One graph of each pattern: the first that no permutation of an earlier one is.
fn patterns(a: u8, b: u8, limit: usize) -> Vec<Drawing> {
    let mut known = HashSet::new();
    let mut patterns = Vec::new();
    for graph in graphs(a, b, limit) {
        if !known.contains(&graph) {
            let all = permutations(graph.devices());
            known.extend(all.iter().map(|places| renumbered(&graph, places)));
            patterns.push(graph);
        }
    }
    patterns
}

/// Every connected graph of 1 to `limit` cables. It has at most one device more than cables.
fn graphs(a: u8, b: u8, limit: usize) -> Vec<Drawing> {
    let mut graphs = Vec::new();
    for devices in 2..=limit + 1 {
        let all_kinds = rows(devices, a);
        for cables in cable_sets(devices, b, limit) {
            let graph = |kinds: &Vec<u8>| Drawing {
                kinds: kinds.clone(),
                cables: cables.clone(),
            };
            graphs.extend(all_kinds.iter().map(graph).filter(Drawing::is_connected));
        }
    }
    graphs
}

/// Every set of at most `limit` cables: a number for each pair of devices, 0 for no cable and k + 1 for one of kind k.
fn cable_sets(devices: usize, b: u8, limit: usize) -> Vec<Vec<Cable>> {
    let pairs: Vec<(usize, usize)> = (0..devices)
        .flat_map(|one| (one + 1..devices).map(move |other| (one, other)))
        .collect();
    let set = |row: &Vec<u8>| -> Vec<Cable> {
        let joined = pairs.iter().zip(row).filter(|(_, &number)| number > 0);
        let cable = |(&(a, b), number): (&(usize, usize), &u8)| Cable {
            a,
            b,
            kind: number - 1,
        };
        joined.map(cable).collect()
    };
    rows(pairs.len(), b + 1)
        .iter()
        .map(set)
        .filter(|cables| cables.len() <= limit)
        .collect()
}

/// All rows of so many numbers below a limit.
fn rows(length: usize, below: u8) -> Vec<Vec<u8>> {
    let mut rows = vec![Vec::new()];
    for _ in 0..length {
        let longer = |row: &Vec<u8>| -> Vec<Vec<u8>> {
            let next = (0..below).map(|number| [&row[..], &[number]].concat());
            next.collect()
        };
        rows = rows.iter().flat_map(longer).collect();
    }
    rows
}

/// All rows that have each number once.
fn permutations(devices: usize) -> Vec<Vec<u8>> {
    let once = |row: &Vec<u8>| row.iter().collect::<HashSet<_>>().len() == devices;
    let rows = rows(devices, devices as u8);
    rows.into_iter().filter(once).collect()
}

/// The graph with each device at another place; its cables stand as a set does.
fn renumbered(graph: &Drawing, places: &[u8]) -> Drawing {
    let place = |device: usize| usize::from(places[device]);
    let mut kinds = graph.kinds.clone();
    for (device, &kind) in graph.kinds.iter().enumerate() {
        kinds[place(device)] = kind;
    }
    let mut cables: Vec<Cable> = graph
        .cables
        .iter()
        .map(|cable| Cable {
            a: place(cable.a).min(place(cable.b)),
            b: place(cable.a).max(place(cable.b)),
            kind: cable.kind,
        })
        .collect();
    cables.sort();
    Drawing { kinds, cables }
}
