//! Cranes, request R-4: drawings that are sheets of any crane, surveys whose cranes repeat, and drawings without the byte.
use super::checks::Asked;
use super::notation::{code, drawing, map, sheet, survey};
use super::{Call, List};
use crate::catalogue::ENTRY;
use crate::cranes::OLD_RECORD;
use crate::drawing::CRANE_AT;
use crate::refused::Refused;

const D3: &str = "015 125";
const D4: &str = "015 125 205";

/// D3 or D4.
fn of(cables: &str) -> Vec<u8> {
    drawing("111", cables)
}

/// Every crane is accepted, and no other check is held up by it: 7 is of the bytes before it, 8 comes after 7.
fn put_drawings(list: &mut List) {
    for crane in [1, 255] {
        let name = format!("D3 of crane {crane}");
        list.put(&name, Call::CheckDrawing(&sheet(&of(D3), crane)));
        list.put_code(&name, &sheet(&of(D3), crane), &code("01151 12151"));
    }
    let lone = sheet(&drawing("7", ""), 255);
    list.put_code("lone 7 of crane 255", &lone, &code("00707"));

    let mut unused = sheet(&of(D3), 255);
    unused[CRANE_AT - 1] = 1;
    let apart = sheet(&drawing("1111", "015 235"), 255);
    for (name, record, number) in [
        ("unused byte before crane 255", unused, 7),
        ("not connected, of crane 255", apart, 8),
    ] {
        let answer = list.put(name, Call::CheckDrawing(&record));
        assert_eq!(answer.refused, Refused::of(number), "{name}");
        let behind = [sheet(&of(D3), 9), record].concat();
        let answer = list.put(name, Call::CheckSurvey(&behind));
        assert_eq!(answer.refused, Refused { number, at: 1 }, "{name}");
    }
}

/// Two drawings are matched, and the same or not, whatever their cranes are.
fn put_two(list: &mut List) {
    let (d3, d4) = (sheet(&of(D3), 0), sheet(&of(D4), 255));
    let otherwise = sheet(&drawing("111", "205 015"), 255);
    list.put_map("D3 in D4 of crane 255", &d3, &d4, &map("012"), 6);
    list.put_map("D4 of crane 255 in D3", &d4, &d3, &[], 0);
    list.put_same("D3 with other numbers and crane", &d3, &otherwise, true);
    list.put_same("D3 and D4 of crane 255", &d3, &d4, false);
    let d3 = sheet(&d3, 255);
    list.put_same("D3 and D4, both of crane 255", &d3, &d4, false);
}

/// The support of the one cable, of the path and of the triangle that D3 and D4 contain.
type Supports = [usize; 3];

/// Drawings of these cranes: all their patterns, those that as many cranes have as there are drawings, and the usual catalogue. The example of the
/// triangle is the first D4, that of the others drawing 0.
fn put_supports(list: &mut List, sheets: &[(&str, u8)], supports: Supports) -> Vec<u8> {
    let records = sheets
        .iter()
        .map(|&(cables, crane)| sheet(&of(cables), crane));
    let survey: Vec<u8> = records.flatten().collect();
    let cranes: Vec<String> = sheets.iter().map(|(_, crane)| crane.to_string()).collect();
    let name = format!("cranes {}", cranes.join(" "));
    let asked = |threshold| Asked {
        survey: &survey,
        threshold,
        limit: 3,
    };
    let reach = |threshold| supports.iter().filter(|&&s| s >= threshold).count();
    let patterns = ["01151", "01151 12151", "01151 12151 20151"];
    let first_d4 = sheets.iter().position(|&(cables, _)| cables == D4);
    let examples = [0, 0, first_d4.expect("a D4")];
    for ((pattern, support), example) in patterns.iter().zip(supports).zip(examples) {
        list.assert_entry(&asked(1), &code(pattern), support, None);
        list.assert_example(&asked(1), &code(pattern), example);
    }
    for threshold in [1, sheets.len()] {
        let name = format!("{name}, s {threshold}");
        let entries = list.put_catalogue(&name, &asked(threshold as u16));
        assert_eq!(entries, reach(threshold), "{name}");
    }
    let usual = list.put(&name, Call::UsualCatalogue(&survey, 3 * ENTRY));
    assert_eq!((usual.refused.number, usual.count), (0, reach(2)), "{name}");
    survey
}

/// D3 and D4 as one crane; as cranes 0 and 1 they are D12. Then further sheets of theirs: apart, side by side, crane 0 and crane 255 among
/// others, numbers with equal low bits.
fn put_surveys(list: &mut List) {
    let one = put_supports(list, &[(D3, 0), (D4, 0)], [1, 1, 1]);
    let apart = put_supports(list, &[(D3, 5), (D4, 9), (D3, 5)], [2, 2, 1]);
    put_supports(list, &[(D4, 7), (D3, 0), (D4, 0)], [2, 2, 2]);
    put_supports(list, &[(D4, 255), (D3, 0), (D4, 255)], [2, 2, 1]);
    put_supports(list, &[(D4, 1), (D4, 33), (D4, 129)], [3, 3, 3]);
    // Of crane 5 the first sheet has the triangle and so has the third, but the second and the last have not.
    let some = [(D4, 5), (D3, 5), (D4, 5), (D4, 9), (D3, 5)];
    put_supports(list, &some, [2, 2, 2]);
    for (name, survey) in [("cranes 0 0", one), ("cranes 5 9 5", apart)] {
        list.put(name, Call::CheckSurvey(&survey));
        list.put_fetches(name, &survey, [0, 1, 2]);
    }
}

/// A drawing that does not contain a pattern brings no crane to it.
fn put_further_crane(list: &mut List) {
    let d1 = drawing("21", "017");
    let survey = survey(&[&of(D3), &of(D4), &d1]);
    let asked = Asked {
        survey: &survey,
        threshold: 1,
        limit: 4,
    };
    assert_eq!(list.put_catalogue("D12 and D1", &asked), 4);
    list.assert_entry(&asked, &code("01151"), 2, None);
    list.assert_entry(&asked, &code("01172"), 1, None);
}

/// As many drawings as there may be: of one crane, and of eight with four sheets each, which take turns. The last one alone is D4, so that the
/// triangle has example 31.
fn put_thirty_two(list: &mut List) {
    let of_cranes = |crane: fn(u8) -> u8| -> Vec<u8> {
        let cables = |d: u8| if d == 31 { D4 } else { D3 };
        (0..32)
            .flat_map(|d| sheet(&of(cables(d)), crane(d)))
            .collect()
    };
    for (name, survey, cranes, entries) in [
        ("thirty-two of one crane", of_cranes(|_| 7), 1, 3),
        ("thirty-two of eight cranes", of_cranes(|d| d % 8), 8, 2),
    ] {
        let asked = |threshold| Asked {
            survey: &survey,
            threshold,
            limit: 3,
        };
        list.assert_entry(&asked(1), &code("01151"), cranes, None);
        list.assert_example(&asked(1), &code("01151 12151"), 0);
        list.assert_example(&asked(1), &code("01151 12151 20151"), 31);
        assert!(list.entries(&asked(cranes as u16 + 1)).is_empty(), "{name}");
        let listed = list.put_catalogue(name, &asked(cranes as u16));
        assert_eq!(listed, entries, "{name}");
    }
}

/// Drawings as they were before they had a crane.
fn put_old(list: &mut List) {
    let old = |record: Vec<u8>| record[..OLD_RECORD].to_vec();
    let two = [old(of(D3)), old(of(D4))].concat();
    list.put_refused_survey("D12 without cranes", &two, Refused::of(1));
    list.put_fetches("D12 without cranes", &two, [0, 1, 2]);
}

pub fn put(list: &mut List) {
    put_drawings(list);
    put_two(list);
    put_surveys(list);
    put_further_crane(list);
    put_thirty_two(list);
    put_old(list);
}
