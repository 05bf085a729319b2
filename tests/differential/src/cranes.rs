//! Cranes in what a call is given, request R-4. What is answered beside them is counted beside the other outcomes, so that each is seen to
//! occur.
use crate::answers::{Answer, SECOND};
use crate::catalogue::{FORMER, USUAL};
use crate::drawing::{CRANE_AT, RECORD};
use crate::shims::Given;
use std::collections::BTreeSet;

/// The size of a drawing before it had a crane.
pub const OLD_RECORD: usize = 72;

/// Of one drawing.
pub const CRANE_0: &str = ": crane 0";
pub const CRANE_255: &str = ": crane 255";
pub const CRANE_BETWEEN: &str = ": a crane between";
/// Of two drawings.
pub const ALIKE: &str = ": cranes alike";
pub const DIFFER: &str = ": cranes differ";
/// Of the lent bytes that a drawing is decoded into: the byte of its crane holds something else, or is the one that is not lent.
pub const OVERWRITTEN: &str = ": over another crane";
pub const SHORT_OF_CRANE: &str = ": short of the crane";
/// Of the drawings of a survey, where there are several: how their cranes stand.
pub const EACH_ITS_OWN: &str = ": each its own crane";
pub const ONE_CRANE: &str = ": all one crane";
pub const SIDE_BY_SIDE: &str = ": sheets of a crane side by side";
pub const SCATTERED: &str = ": sheets of a crane apart";
/// Of the same: which cranes there are, and how many for the threshold.
pub const AMONG_OTHERS: &str = ": crane 0 among others";
pub const GREATEST: &str = ": crane 255 among others";
pub const TOO_FEW: &str = ": enough drawings, too few cranes";
/// Of what has the length of old drawings.
pub const OLD: &str = ": without a crane";

/// What there is to tell of the cranes beside an answer.
pub fn told(given: &Given, lent: &[u8], answer: &Answer) -> Vec<&'static str> {
    let (first, second) = (given.first, given.second);
    let at_fault = if answer.said == SECOND { second } else { first };
    match (given.call, answer.refused.number) {
        ("check_drawing" | "code" | "code_drawing", 0) => vec![of_drawing(first)],
        ("same" | "match" | "match_drawing", 0) => vec![of_two(first, second)],
        ("decode", 0) if lent[CRANE_AT] != 0 => vec![OVERWRITTEN],
        ("decode", 15) if lent.len() == CRANE_AT => vec![SHORT_OF_CRANE],
        ("check_survey" | "open" | "fetch", 0) => of_survey(first, 1),
        ("catalogue" | "write_catalogue" | "check_list", 0) => of_survey(first, given.settings[0]),
        ("usual_catalogue" | "check_usual", 0) => of_survey(first, USUAL[0]),
        ("check_four", 0) => of_survey(first, FORMER[0]),
        (_, 1) if !at_fault.is_empty() && at_fault.len() % OLD_RECORD == 0 => vec![OLD],
        _ => Vec::new(),
    }
}

fn of_drawing(record: &[u8]) -> &'static str {
    match record[CRANE_AT] {
        0 => CRANE_0,
        255 => CRANE_255,
        _ => CRANE_BETWEEN,
    }
}

fn of_two(first: &[u8], second: &[u8]) -> &'static str {
    if first[CRANE_AT] == second[CRANE_AT] {
        ALIKE
    } else {
        DIFFER
    }
}

/// The crane of each drawing that is there to its end.
pub fn of_drawings(survey: &[u8]) -> Vec<u8> {
    let drawings = survey.chunks(RECORD);
    drawings.filter_map(|d| d.get(CRANE_AT).copied()).collect()
}

/// The number of different ones.
pub fn different(cranes: &[u8]) -> usize {
    cranes.iter().collect::<BTreeSet<_>>().len()
}

/// One drawing alone tells nothing.
fn of_survey(survey: &[u8], threshold: u32) -> Vec<&'static str> {
    let cranes = of_drawings(survey);
    let different = different(&cranes);
    if cranes.len() == 1 {
        return Vec::new();
    }
    let mut told = vec![stand(&cranes, different)];
    for (crane, among) in [(0, AMONG_OTHERS), (255, GREATEST)] {
        if cranes.contains(&crane) && different > 1 {
            told.push(among);
        }
    }
    if (different + 1..=cranes.len()).contains(&(threshold as usize)) {
        told.push(TOO_FEW);
    }
    told
}

fn stand(cranes: &[u8], different: usize) -> &'static str {
    let changes = cranes.windows(2).filter(|two| two[0] != two[1]).count();
    match different {
        1 => ONE_CRANE,
        _ if different == cranes.len() => EACH_ITS_OWN,
        _ if different == changes + 1 => SIDE_BY_SIDE,
        _ => SCATTERED,
    }
}
