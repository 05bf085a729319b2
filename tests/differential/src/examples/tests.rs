//! What is told of examples, on surveys that are small enough to see it.
use super::*;
use crate::catalogue::{self, Codes};
use std::collections::BTreeSet;

/// Of all patterns.
fn told_of(survey: &[u8]) -> BTreeSet<&'static str> {
    let sheets = catalogue::read_survey(survey).expect("accepted");
    let mut codes = Codes::default();
    let containing = codes.containing(&sheets, 8);
    let entries = codes.catalogue(&sheets, 1, 8);
    told(&sheets, &entries, &containing).into_iter().collect()
}

fn path(cables: usize, crane: u8) -> Vec<u8> {
    let pairs: Vec<(usize, usize)> = (0..cables).map(|v| (v, v + 1)).collect();
    plain(&pairs).sheet(crane)
}

/// A cable alone; a path of two behind it on its crane, and one of a lower crane behind both.
#[test]
fn kinds_of_few() {
    let of_cable = [
        ": example 0",
        ": in no other drawing",
        ": its crane has a higher number",
    ];
    assert_eq!(told_of(&path(1, 7)), of_cable.into());
    let of_three = [
        ": example 0",
        ABOVE_0,
        ": its crane has a higher number",
        ": in a later sheet of its crane",
        ": in a later drawing of a lower crane",
        ": not in an earlier sheet of its crane",
        AFTER_SHORTER,
    ];
    let survey = [path(1, 7), path(2, 7), path(2, 3)].concat();
    assert_eq!(told_of(&survey), of_three.into());
}

#[test]
fn every_kind_occurs() {
    let surveys = surveys(&mut Random::new(1));
    let told: BTreeSet<&str> = surveys.iter().flat_map(|survey| told_of(survey)).collect();
    let all: BTreeSet<&str> = KINDS.iter().map(|&(kind, _)| kind).collect();
    assert_eq!(told, all);
}
