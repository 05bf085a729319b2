//! Two cables on one pair of devices: records with every two pairs, and with one pair at every two places.
use crate::drawing::{Cable, Drawing, MOST_DEVICES};

/// A cable of kind 5 between two devices, told from either end.
fn either_way(a: usize, b: usize) -> [Cable; 2] {
    [(a, b), (b, a)].map(|(a, b)| Cable { a, b, kind: 5 })
}

/// Every cable between ten devices, told from either end.
fn every_cable() -> Vec<Cable> {
    let pairs = (0..MOST_DEVICES).flat_map(|b| (0..b).map(move |a| (a, b)));
    pairs.flat_map(|(a, b)| either_way(a, b)).collect()
}

/// Ten devices with two cables, any two: one pair twice is refused 6. Two pairs leave devices alone, which is refused 8.
pub fn every_two_pairs() -> Vec<Vec<u8>> {
    let cables = every_cable();
    let second = |first: Cable| cables.iter().map(move |&second| [first, second]);
    let record = |cables: [Cable; 2]| {
        Drawing {
            kinds: vec![1; MOST_DEVICES],
            cables: cables.to_vec(),
        }
        .record()
    };
    cables
        .iter()
        .copied()
        .flat_map(second)
        .map(record)
        .collect()
}

/// A drawing with the pair of one cable given to a later one as well, for every two of them, and each told from either end.
pub fn every_two_places(drawing: &Drawing) -> Vec<Vec<u8>> {
    let places =
        (0..drawing.cables.len()).flat_map(|later| (0..later).map(move |earlier| (earlier, later)));
    let mut records = Vec::new();
    for (earlier, later) in places {
        let Cable { a, b, .. } = drawing.cables[earlier];
        for first in either_way(a, b) {
            for second in either_way(a, b) {
                let mut twice = drawing.clone();
                (twice.cables[earlier], twice.cables[later]) = (first, second);
                records.push(twice.record());
            }
        }
    }
    records
}
