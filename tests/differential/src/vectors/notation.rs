//! Drawings and codes as text: a digit stands for its value, any other character for its byte, and a blank for nothing.
use crate::drawing::{CRANE_AT, RECORD};

fn values(text: &str) -> Vec<u8> {
    let value = |character: u8| match character {
        b'0'..=b'9' => character - b'0',
        _ => character,
    };
    text.bytes().filter(|&c| c != b' ').map(value).collect()
}

/// Records as i, j, kind, cable kind, kind.
pub fn code(text: &str) -> Vec<u8> {
    values(text)
}

pub fn map(text: &str) -> Vec<u8> {
    values(text)
}

/// The record of a drawing: its device kinds, and its cables as end, end, kind. Its crane is 0.
pub fn drawing(kinds: &str, cables: &str) -> Vec<u8> {
    let (kinds, cables) = (values(kinds), values(cables));
    let mut record = vec![kinds.len() as u8, (cables.len() / 3) as u8];
    record.extend(kinds);
    record.resize(12, 0);
    record.extend(cables);
    record.resize(RECORD, 0);
    record
}

/// A drawing's record as a sheet of this crane.
pub fn sheet(record: &[u8], crane: u8) -> Vec<u8> {
    let mut sheet = record.to_vec();
    sheet[CRANE_AT] = crane;
    sheet
}

/// Records as a survey: drawing d is crane d.
pub fn survey(records: &[&[u8]]) -> Vec<u8> {
    let sheets = records.iter().zip(0..=u8::MAX);
    sheets
        .flat_map(|(record, crane)| sheet(record, crane))
        .collect()
}
