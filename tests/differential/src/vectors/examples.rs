//! An example for each pattern, request R-8: examples that are numbers of drawings and not of cranes, those of shorter codes or later ones; lists
//! with another example, and lists from before there were any.
use super::checks::{Named, NAMED};
use super::lists::{asked, changed, d12, d3, d4, NO, YES};
use super::notation::{code, drawing, sheet, survey};
use super::{Call, List};
use crate::catalogue::{ENTRY, EXAMPLE_AT};
use crate::rules::old_form;

/// The cable, the path and the triangle that D3 and D4 contain.
const PATTERNS: [&str; 3] = ["01151", "01151 12151", "01151 12151 20151"];

/// D3 and D4 as cranes 7 and 9; D4 and D3; sheets of one crane, of which the second is the first with the triangle.
fn put_paper(list: &mut List) {
    for (name, sheets, thresholds, examples) in [
        (
            "D3 D4 of 7 9",
            &[(d3(), 7), (d4(), 9)][..],
            &[1, 2][..],
            [0, 0, 1],
        ),
        ("D4 D3 of 9 7", &[(d4(), 9), (d3(), 7)], &[1], [0, 0, 0]),
        (
            "D3 D4 D4 of 5",
            &[(d3(), 5), (d4(), 5), (d4(), 5)],
            &[1],
            [0, 0, 1],
        ),
    ] {
        let records = sheets.iter().map(|(record, crane)| sheet(record, *crane));
        let survey: Vec<u8> = records.flatten().collect();
        for (pattern, example) in PATTERNS.iter().zip(examples) {
            list.assert_example(&asked(&survey, 1, 4), &code(pattern), example);
        }
        for &s in thresholds {
            list.put_catalogue(&format!("{name}, s {s}"), &asked(&survey, s, 4));
        }
    }
}

/// Both paths begin with cable 5, and the second alone goes on with 7.
fn put_own(list: &mut List) {
    let [first, second] = ["015 126", "015 127"].map(|cables| drawing("111", cables));
    let survey = survey(&[&first, &second]);
    let asked = asked(&survey, 1, 4);
    assert_eq!(list.put_catalogue("paths 5 6 and 5 7", &asked), 5);
    for (pattern, example) in [
        ("01151", 0),
        ("01151 12161", 0),
        ("01151 12171", 1),
        ("01161", 0),
        ("01171", 1),
    ] {
        list.assert_example(&asked, &code(pattern), example);
    }
}

/// A list with one example as another number: the entry, and the number.
fn with_example(right: &[u8], entry: usize, value: u8) -> Vec<u8> {
    changed(right, entry * ENTRY + EXAMPLE_AT, value)
}

/// A list with all examples counted from 1.
fn from_one(right: &[u8]) -> Vec<u8> {
    let mut list = right.to_vec();
    for entry in list.chunks_mut(ENTRY) {
        entry[EXAMPLE_AT] += 1;
    }
    list
}

/// D12's examples are 0, 0 and 1, its first support is 2. Drawing 1 contains every pattern, drawing 0 not the last one.
fn put_list(list: &mut List) {
    let d12 = d12();
    let asked = asked(&d12, 1, 4);
    let right = list.right(&asked);
    for (entry, value) in [(0, 1), (1, 1), (2, 0), (0, 2)] {
        let name = format!("D12, example {value} at {entry}");
        let wrong = with_example(&right, entry, value);
        list.put_check(&name, &asked, &wrong, NO);
    }
    list.put_check("D12, examples from 1", &asked, &from_one(&right), NO);
    list.put_check("D12, 43 bytes", &asked, &right[..ENTRY], NO);
    let old = old_form(&right);
    list.put_refused_list("D12 without examples", &asked, &old, 18);
}

/// Of D3 and two D4, each its own crane, the usual list and the former one have the same three entries; the last has example 1, and drawing 2
/// contains it too.
fn put_named(list: &mut List) {
    let three = survey(&[&d3(), &d4(), &d4()]);
    let usual = list.put("D3 D4 D4", Call::UsualCatalogue(&three, 3 * ENTRY));
    let right = usual.output;
    assert_eq!(right[2 * ENTRY + EXAMPLE_AT], 1);
    for named in NAMED {
        let name = format!("{} list, D3 D4 D4", named.0);
        list.put_named_check(&name, named, (&three, &right), YES);
        for (entry, value) in [(0, 1), (1, 1), (2, 2)] {
            let name = format!("{name}, example {value} at {entry}");
            let wrong = with_example(&right, entry, value);
            list.put_named_check(&name, named, (&three, &wrong), NO);
        }
        put_named_d12(list, named);
    }
}

/// All examples from 1; entries without examples, one of them alone, and a byte more than one with its example.
fn put_named_d12(list: &mut List, named: Named) {
    let d12 = d12();
    let right = list.right(&asked(&d12, 2, 4));
    let name = |about| format!("{} list of D12, {about}", named.0);
    let given = (&d12[..], &from_one(&right)[..]);
    list.put_named_check(&name("examples from 1"), named, given, NO);
    for (about, given) in [
        ("without examples", &old_form(&right)[..]),
        ("42 bytes", &right[..42]),
        ("44 bytes", &right[..44]),
    ] {
        list.put_refused_named_list(&name(about), named, &d12, given);
    }
}

pub fn put(list: &mut List) {
    put_paper(list);
    put_own(list);
    put_list(list);
    put_named(list);
}
