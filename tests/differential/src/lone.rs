//! Lone devices in what a call is given. What is answered of them or refused near them is counted apart from other outcomes, so that
//! each is seen to occur.
use crate::answers::{Answer, SECOND};
use crate::code;
use crate::drawing::RECORD;

/// No lone device is near.
pub const NONE: &str = "";
/// A drawing of n = 1 and m = 0, or a row of the one record 0, 0.
pub const LONE: &str = ": lone";
/// A drawing of n = 1 with cables, and one of greater n without.
pub const CABLES: &str = ": one device, cables";
pub const NO_CABLE: &str = ": devices, no cable";
/// Record 0, 0 as the first of several, and behind others.
pub const IN_FRONT: &str = ": 0, 0 in front";
pub const BEHIND: &str = ": 0, 0 behind";
/// Of two drawings or codes.
pub const FIRST_LONE: &str = ": the first lone";
pub const SECOND_LONE: &str = ": the second lone";
pub const BOTH_LONE: &str = ": both lone";
/// Of the drawings of a survey.
pub const SOME_LONE: &str = ": some lone";
pub const ALL_LONE: &str = ": all lone";

/// What is lone about the drawing or the record that a refusal comes from, or about all that an answer comes from.
pub fn near(call: &str, first: &[u8], second: &[u8], answer: &Answer) -> &'static str {
    let refused = answer.refused;
    let at_fault = if answer.said == SECOND { second } else { first };
    let two = |is_lone: fn(&[u8]) -> bool| of_two(is_lone(first), is_lone(second), second);
    match (call, refused.number) {
        (_, 1 | 9 | 12 | 13 | 14) | ("book", _) => NONE,
        ("check_code" | "decode" | "is_least" | "compare", 0) => two(is_lone_code),
        ("check_code" | "decode" | "is_least" | "compare", _) => of_record(at_fault, refused.at),
        ("check_survey" | "catalogue" | "write_catalogue" | "usual_catalogue", 0 | 15) => {
            of_survey(first)
        }
        ("check_list" | "check_usual" | "check_four", 0 | 18) => of_survey(first),
        (_, 0) => two(is_lone_drawing),
        _ => of_drawing(&at_fault[RECORD * refused.at..][..RECORD]),
    }
}

fn of_drawing(record: &[u8]) -> &'static str {
    match record {
        [1, 0, ..] => LONE,
        [1, ..] => CABLES,
        [2..=10, 0, ..] => NO_CABLE,
        _ => NONE,
    }
}

fn of_record(bytes: &[u8], at: usize) -> &'static str {
    match bytes.chunks(code::RECORD).nth(at) {
        Some([0, 0, ..]) if bytes.len() == code::RECORD => LONE,
        Some([0, 0, ..]) if at == 0 => IN_FRONT,
        Some([0, 0, ..]) => BEHIND,
        _ => NONE,
    }
}

fn is_lone_drawing(record: &[u8]) -> bool {
    of_drawing(record) == LONE
}

fn is_lone_code(bytes: &[u8]) -> bool {
    of_record(bytes, 0) == LONE
}

/// A call that takes one alone has nothing as its second.
fn of_two(first_lone: bool, second_lone: bool, second: &[u8]) -> &'static str {
    match (first_lone, second_lone) {
        (false, false) => NONE,
        (true, false) if second.is_empty() => LONE,
        (true, false) => FIRST_LONE,
        (false, true) => SECOND_LONE,
        (true, true) => BOTH_LONE,
    }
}

fn of_survey(survey: &[u8]) -> &'static str {
    let drawings = || survey.chunks(RECORD);
    if drawings().all(is_lone_drawing) {
        ALL_LONE
    } else if drawings().any(is_lone_drawing) {
        SOME_LONE
    } else {
        NONE
    }
}
