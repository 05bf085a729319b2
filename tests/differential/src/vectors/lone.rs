//! Lone devices, request R-1: their codes and order, rows that are none, matching and sameness, counts that do not go together, lent
//! output that is short, and surveys that have some or nothing else.
use super::checks::Asked;
use super::notation::{code, drawing, map, survey};
use super::{Call, List};
use crate::answers;
use crate::catalogue::{Entry, ENTRY};
use crate::drawing::RECORD;

/// A name, a drawing of one device and its code.
fn lone_drawings() -> [(&'static str, Vec<u8>, Vec<u8>); 4] {
    let mut greatest = drawing("0", "");
    greatest[2] = 255;
    [
        ("lone 0", drawing("0", ""), code("00000")),
        ("lone 7", drawing("7", ""), code("00707")),
        ("lone 8", drawing("8", ""), code("00808")),
        ("lone 255", greatest, vec![0, 0, 255, 0, 255]),
    ]
}

fn put_codes(list: &mut List) {
    for (name, record, least) in lone_drawings() {
        list.put(name, Call::CheckDrawing(&record));
        list.put_code(name, &record, &least);
        list.put_least(name, &least);
        let decoded = answers::decode(&least, &[0; RECORD]);
        assert_eq!(decoded.output, record, "{name}");
    }
    let [zero, seven, eight, greatest] = lone_drawings().map(|(_, _, least)| least);
    list.put_order("lone 7 and 8", &seven, &eight, 0);
    list.put_order("lone 0 and 255", &zero, &greatest, 0);
    // The least of all codes with cables.
    list.put_order("lone 255 and a cable", &greatest, &code("01000"), 0);
    list.put_order("lone 0 and D4", &zero, &code("01151 12151 20151"), 0);
}

/// A record 0, 0 is a code only alone, without a cable kind, and with equal kinds.
fn put_refused_rows(list: &mut List) {
    for (name, row, number, at) in [
        ("lone with a cable kind", "00717", 10, 0),
        ("lone with unequal kinds", "00708", 11, 0),
        ("lone with a cable kind and unequal kinds", "00718", 10, 0),
        ("lone twice", "00707 00707", 10, 0),
        ("lone before a cable", "00101 01151", 10, 0),
        ("lone behind a cable", "01101 00101", 10, 1),
        ("lone 1 1", "11707", 10, 0),
    ] {
        list.put_refused_code(name, &code(row), number, at);
    }
}

fn put_maps(list: &mut List) {
    let (one, seven, eight) = (drawing("1", ""), drawing("7", ""), drawing("8", ""));
    let (d2, d3) = (drawing("123", "019 024"), drawing("111", "015 125"));
    list.put_map("lone 1 in D3", &one, &d3, &map("0"), 3);
    list.put_map("lone 7 in D3", &seven, &d3, &[], 0);
    list.put_map("D3 in lone 1", &d3, &one, &[], 0);
    list.put_map("lone 3 in D2", &drawing("3", ""), &d2, &map("2"), 1);
    let last_two = drawing("2711", "015 125 235");
    list.put_map("lone 1 behind others", &one, &last_two, &map("2"), 2);
    list.put_map("lone 7 in lone 7", &seven, &seven, &map("0"), 1);
    list.put_map("lone 7 in lone 8", &seven, &eight, &[], 0);
    list.put_same("lone 7 and 7", &seven, &seven, true);
    list.put_same("lone 7 and 8", &seven, &eight, false);
    list.put_same("lone 1 and D3", &one, &d3, false);
}

/// A lone device has no cable, more devices have some; nothing else of such a drawing is looked at.
fn put_counts(list: &mut List) {
    let fine = drawing("7", "");
    let changed = |at: usize, value: u8| {
        let mut record = fine.clone();
        record[at] = value;
        record
    };
    for (name, record, number) in [
        ("one device with a loop", drawing("7", "005"), 3),
        ("two devices, m 0", drawing("77", ""), 3),
        ("lone with an unused kind", changed(3, 1), 7),
        ("lone with an unused cable", changed(71, 1), 7),
    ] {
        list.put_refused_drawing(name, &record, &fine, number);
        list.put_refused_in_survey(name, &record, &fine, number);
    }
    for (name, record, number) in [
        ("n 0, m 0", changed(0, 0), 2),
        ("n 11, m 0", changed(0, 11), 2),
        ("n 10, m 0", changed(0, 10), 3),
        ("n 1, m 1, an end", drawing("7", "015"), 3),
        ("n 1, m 20", changed(1, 20), 3),
        ("n 1, m 21", changed(1, 21), 3),
        ("n 1, m 255", changed(1, 255), 3),
        ("lone with the first unused end", changed(12, 1), 7),
        ("lone with the last unused kind", changed(11, 255), 7),
    ] {
        let answer = list.put(name, Call::CheckDrawing(&record));
        assert_eq!(answer.refused.number, number, "{name}");
    }
}

/// One byte short, just enough, and more.
fn put_lent(list: &mut List) {
    let (record, least) = (drawing("7", ""), code("00707"));
    let number = |enough: bool| if enough { 0 } else { 15 };
    for lent in [0, 4, 5, 9] {
        let name = format!("lone 7, {lent} bytes lent");
        let answer = list.put(&name, Call::CodeDrawing(&record, lent));
        assert_eq!(answer.refused.number, number(lent >= 5), "{name}");
    }
    for lent in [RECORD - 1, RECORD] {
        let name = format!("lone 7, {lent} bytes lent");
        let answer = list.put(&name, Call::Decode(&least, lent));
        assert_eq!(answer.refused.number, number(lent >= RECORD), "{name}");
    }
    // The room for a map is checked before the search.
    for lent in [0, 1] {
        for (name, other) in [("lone 7", &record), ("lone 8", &drawing("8", ""))] {
            let name = format!("lone 7 in {name}, {lent} bytes lent");
            let answer = list.put(&name, Call::MatchDrawing(&record, other, lent));
            assert_eq!(answer.refused.number, number(lent >= 1), "{name}");
        }
    }
}

/// Lone devices count as drawings and add no entry. The drawings among them are 1 and 4, as examples too.
fn put_surveys(list: &mut List) {
    let (one, seven) = (drawing("1", ""), drawing("7", ""));
    let (d3, d4) = (drawing("111", "015 125"), drawing("111", "015 125 205"));
    let among = survey(&[&one, &d3, &seven, &one, &d4, &one]);
    let counted = list.put("D12 among lone", Call::CheckSurvey(&among));
    assert_eq!((counted.refused.number, counted.count), (0, 6));
    for (threshold, entries) in [(1, 3), (2, 2), (3, 0)] {
        let without = survey(&[&d3, &d4]);
        let [among, without] = [&among, &without].map(|survey| Asked {
            survey,
            threshold,
            limit: 4,
        });
        let numbered = |entry: Entry| Entry {
            example: [1, 4][entry.example],
            ..entry
        };
        let due = list.entries(&without).into_iter().map(numbered);
        assert!(due.eq(list.entries(&among)));
        let name = format!("D12 among lone, s {threshold}");
        assert_eq!(list.put_catalogue(&name, &among), entries, "{name}");
    }
    list.put(
        "D12 among lone",
        Call::UsualCatalogue(&among, 2 * ENTRY + 2),
    );
    list.put(
        "D12 among lone, 85 bytes lent",
        Call::UsualCatalogue(&among, 85),
    );
    list.put_fetches("D12 among lone", &among, [2, 5, 6]);

    let alone = survey(&[&seven, &one, &seven]);
    list.put("lone alone", Call::CheckSurvey(&alone));
    for call in [
        Call::WriteCatalogue(&alone, 1, 8, 0),
        Call::WriteCatalogue(&alone, 2, 1, 3),
        Call::UsualCatalogue(&alone, 3),
        Call::WriteCatalogue(&seven.repeat(32), 1, 1, 3),
    ] {
        let none = list.put("lone alone", call);
        assert_eq!((none.refused.number, none.count), (0, 0));
    }
}

pub fn put(list: &mut List) {
    put_codes(list);
    put_refused_rows(list);
    put_maps(list);
    put_counts(list);
    put_lent(list);
    put_surveys(list);
}
