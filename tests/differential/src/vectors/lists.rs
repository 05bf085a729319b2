//! Lists made elsewhere, request R-5: the right one, and lists that are wrong in one thing; lengths that are refused, and what is told before
//! them; lists of other settings and of other surveys; lists without entries; the checks at the usual and at the former settings, request R-6.
use super::checks::{Asked, Named, NAMED};
use super::notation::{code, drawing, sheet, survey};
use super::List;
use crate::catalogue::{self, ENTRY, EXAMPLE_AT, SUPPORT_AT};
use crate::cranes::OLD_RECORD;
use crate::generate::plain;
use crate::refused::Refused;

pub(super) const YES: &str = "yes";
pub(super) const NO: &str = "no";

pub(super) fn asked(survey: &[u8], threshold: u16, limit: u16) -> Asked<'_> {
    Asked {
        survey,
        threshold,
        limit,
    }
}

impl List {
    /// The list that a catalogue is.
    pub(super) fn right(&mut self, asked: &Asked) -> Vec<u8> {
        catalogue::bytes(&self.entries(asked))
    }
}

/// The bytes of an entry: its support, its code and its example.
pub(super) fn entry(support: u8, text: &str, example: u8) -> Vec<u8> {
    let code = code(text);
    let mut entry = vec![(code.len() / 5) as u8, support];
    entry.extend(code);
    entry.resize(EXAMPLE_AT, 0);
    entry.push(example);
    entry
}

/// The same but for one byte.
pub(super) fn changed(bytes: &[u8], at: usize, value: u8) -> Vec<u8> {
    let mut changed = bytes.to_vec();
    assert_ne!(changed[at], value);
    changed[at] = value;
    changed
}

pub(super) fn d3() -> Vec<u8> {
    drawing("111", "015 125")
}

pub(super) fn d4() -> Vec<u8> {
    drawing("111", "015 125 205")
}

pub(super) fn d12() -> Vec<u8> {
    survey(&[&d3(), &d4()])
}

/// The entries of D12 at s = 1 and L = 4.
fn d12_entries() -> [Vec<u8>; 3] {
    [
        entry(2, "01151", 0),
        entry(2, "01151 12151", 0),
        entry(1, "01151 12151 20151", 1),
    ]
}

/// D12's list with one thing changed.
fn put_changed(list: &mut List) {
    let survey = d12();
    let asked = asked(&survey, 1, 4);
    let [cable, path, triangle] = d12_entries();
    let right = [&cable[..], &path, &triangle].concat();
    assert_eq!(list.right(&asked), right);
    list.put_check("list of D12", &asked, &right, YES);
    for (name, wrong) in [
        ("first support 1", changed(&right, SUPPORT_AT, 1)),
        ("last support 2", changed(&right, 2 * ENTRY + SUPPORT_AT, 2)),
        ("support 0", changed(&right, ENTRY + SUPPORT_AT, 0)),
        ("a cable less told", changed(&right, 2 * ENTRY, 2)),
        ("another kind", changed(&right, ENTRY + 4, 2)),
        ("last padding not zero", changed(&right, 3 * ENTRY - 2, 1)),
        ("byte 7 not zero", changed(&right, 7, 1)),
        ("zeros throughout", vec![0; 3 * ENTRY]),
        (
            "first two exchanged",
            [&path[..], &cable, &triangle].concat(),
        ),
        (
            "last two exchanged",
            [&cable[..], &triangle, &path].concat(),
        ),
        (
            "another code of D3",
            [&cable[..], &entry(2, "01151 02151", 0), &triangle].concat(),
        ),
        ("last left out", [&cable[..], &path].concat()),
        ("first left out", [&path[..], &triangle].concat()),
        ("second left out", [&cable[..], &triangle].concat()),
        ("no entry", vec![]),
        ("last twice", [&right[..], &triangle].concat()),
        ("first twice", [&cable[..], &right].concat()),
        ("zeros behind", [&right[..], &[0; ENTRY]].concat()),
        ("D1 behind", [&right[..], &entry(1, "01172", 0)].concat()),
        // D12 has ten connected sets of cables, so that no catalogue of it has eleven entries.
        (
            "more than any catalogue",
            [right.clone(), triangle.repeat(8)].concat(),
        ),
    ] {
        list.put_check(&format!("list of D12, {name}"), &asked, &wrong, NO);
    }
    for (name, wrong) in [
        ("one byte more", [&right[..], &[0]].concat()),
        ("one byte less", right[..3 * ENTRY - 1].to_vec()),
        ("42 bytes", right[..42].to_vec()),
        ("44 bytes", right[..44].to_vec()),
    ] {
        list.put_refused_list(&format!("list of D12, {name}"), &asked, &wrong, 18);
    }
}

/// A list is right for its own survey, threshold and size limit, and for others with the same catalogue.
fn put_others(list: &mut List) {
    let d12 = d12();
    let of_all = d12_entries().concat();
    let [of_two, of_one] = [2, 1].map(|entries| of_all[..entries * ENTRY].to_vec());
    for (s, limit, given, wanted) in [
        (1, 8, &of_all, YES),
        (1, 2, &of_all, NO),
        (2, 4, &of_all, NO),
        (2, 4, &of_two, YES),
        (1, 4, &of_two, NO),
        (1, 2, &of_two, YES),
        (3, 4, &of_two, NO),
        (1, 1, &of_one, YES),
        (1, 2, &of_one, NO),
    ] {
        let name = format!("list of {} bytes, s {s}, L {limit}", given.len());
        list.put_check(&name, &asked(&d12, s, limit), given, wanted);
    }
    let d1 = drawing("21", "017");
    list.put_check("D1", &asked(&d1, 1, 4), &entry(1, "01172", 0), YES);
    list.put_check("D1, rubbish", &asked(&d1, 1, 4), &[77; ENTRY], NO);
    list.put_check("D1, list of D12", &asked(&d1, 1, 4), &of_all, NO);
    list.put_check("D4, list of D12", &asked(&d4(), 1, 4), &of_all, NO);
}

/// Of a list too, supports are numbers of cranes.
fn put_cranes(list: &mut List) {
    let drawings = [d3(), d4(), d4()];
    for (cranes, s) in [
        (&[7, 7][..], 1),
        (&[7, 7], 2),
        (&[0, 1, 0], 2),
        (&[5, 5, 255], 2),
    ] {
        let sheets = drawings.iter().zip(cranes);
        let survey: Vec<u8> = sheets.flat_map(|(d, &crane)| sheet(d, crane)).collect();
        let each_its_own: Vec<&[u8]> = drawings[..cranes.len()].iter().map(|d| &d[..]).collect();
        let by_drawings = super::notation::survey(&each_its_own);
        let by_drawings = list.right(&asked(&by_drawings, s, 4));
        let asked = asked(&survey, s, 4);
        let right = list.right(&asked);
        let name = format!("list of cranes {cranes:?}, s {s}");
        list.put_check(&name, &asked, &right, YES);
        list.put_check(&format!("{name}, by drawings"), &asked, &by_drawings, NO);
    }
}

/// Nothing is frequent: a list without entries is right, and no other.
fn put_empty(list: &mut List) {
    let (d12, seven) = (d12(), drawing("7", ""));
    for (name, asked) in [
        ("nothing is frequent", asked(&d12, 3, 8)),
        ("lone alone", asked(&seven, 1, 8)),
    ] {
        assert!(list.right(&asked).is_empty());
        list.put_check(name, &asked, &[], YES);
        list.put_check(&format!("{name}, zeros"), &asked, &[0; ENTRY], NO);
        let code = entry(1, "00707", 0);
        list.put_check(&format!("{name}, a code"), &asked, &code, NO);
        list.put_refused_list(name, &asked, &[0; ENTRY - 1], 18);
    }
    let among = survey(&[&seven, &drawing("11", "015")]);
    let asked = asked(&among, 1, 4);
    list.put_check("a cable among lone", &asked, &entry(1, "01151", 1), YES);
    list.put_check("a cable among lone, none", &asked, &[], NO);
    list.put_refused_list("a cable among lone", &asked, &[1, 1, 0], 18);
}

/// Entries of eight cables, behind whose records nothing is; as many drawings as there may be.
fn put_largest(list: &mut List) {
    let path = plain(&[0, 1, 2, 3, 4, 5, 6, 7].map(|v| (v, v + 1))).record();
    let eight = asked(&path, 1, 8);
    let right = list.right(&eight);
    assert_eq!(right.len(), 8 * ENTRY);
    list.put_check("path of 8 cables", &eight, &right, YES);
    let last = changed(&right, 8 * ENTRY - 2, 2);
    list.put_check("path of 8 cables, last kind", &eight, &last, NO);
    let survey: Vec<u8> = (0..32).flat_map(|crane| sheet(&d3(), crane)).collect();
    let right = [entry(32, "01151", 0), entry(32, "01151 12151", 0)].concat();
    list.put_check("thirty-two times D3", &asked(&survey, 32, 8), &right, YES);
}

/// At least two cranes. No pattern has over four cables, so that the usual and the former settings have the same list.
fn put_named(list: &mut List, named: Named) {
    let d12 = d12();
    let all = d12_entries().concat();
    let (two, last) = (all[..2 * ENTRY].to_vec(), all[ENTRY..2 * ENTRY].to_vec());
    let (d3, seven) = (d3(), drawing("7", ""));
    let among = survey(&[&d3, &seven, &d3]);
    for (name, survey, given, wanted) in [
        ("D12", &d12, two.clone(), YES),
        ("D12, s 1", &d12, all.clone(), NO),
        ("D12, first", &d12, two[..ENTRY].to_vec(), NO),
        ("D12, last", &d12, last.clone(), NO),
        ("D12, none", &d12, vec![], NO),
        ("D12, exchanged", &d12, [&last, &two[..ENTRY]].concat(), NO),
        ("D12, support 1", &d12, changed(&two, 44, 1), NO),
        ("D12, last padding", &d12, changed(&two, 84, 1), NO),
        ("D12, another kind", &d12, changed(&two, 4, 2), NO),
        ("D12, last twice", &d12, [&two[..], &last].concat(), NO),
        ("D12, zeros", &d12, [&two[..], &[0; ENTRY]].concat(), NO),
        ("D12, rubbish", &d12, vec![9; ENTRY], NO),
        ("D3", &d3, vec![], YES),
        ("one crane", &d3.repeat(2), vec![], YES),
        ("one crane, by drawings", &d3.repeat(2), two.clone(), NO),
        ("lone", &seven, vec![], YES),
        ("lone, zeros", &seven, vec![0; ENTRY], NO),
        ("D3 among lone", &among, two.clone(), YES),
        ("D3 among lone, none", &among, vec![], NO),
    ] {
        let name = format!("{} list of {name}", named.0);
        list.put_named_check(&name, named, (survey, &given), wanted);
    }
    for (name, survey, given) in [
        ("D12, a byte more", &d12, [&two[..], &[0]].concat()),
        ("D12, a byte less", &d12, two[..85].to_vec()),
        ("lone, a byte", &seven, vec![0]),
        ("D3 among lone, a byte", &among, vec![1]),
    ] {
        let name = format!("{} list of {name}", named.0);
        list.put_refused_named_list(&name, named, survey, &given);
    }
}

/// A path or a ring on two cranes has a pattern for each number of cables: the usual list has those of up to six, the former one those of up to four.
/// Each list of four entries or more is checked at both settings.
fn put_more_cables(list: &mut List) {
    let five = plain(&[0, 1, 2, 3, 4].map(|v| (v, v + 1)));
    let ring = plain(&[0, 1, 2, 3, 4, 5].map(|v| (v, (v + 1) % 6)));
    let seven = plain(&[0, 1, 2, 3, 4, 5, 6].map(|v| (v, v + 1)));
    for (name, drawing, [usual, former], most) in [
        ("path of 5 cables", five, [5, 4], 5),
        ("ring of 6 cables", ring, [6, 4], 6),
        ("path of 7 cables", seven, [6, 4], 7),
    ] {
        let record = drawing.record();
        let survey = survey(&[&record, &record]);
        let all = list.right(&asked(&survey, 2, most));
        assert_eq!(all.len(), usize::from(most) * ENTRY);
        for entries in 4..=usize::from(most) {
            let name = format!("{name}, list of {entries}");
            let given = &all[..entries * ENTRY];
            for (named, right) in NAMED.into_iter().zip([usual, former]) {
                let wanted = if entries == right { YES } else { NO };
                list.put_named_check(&name, named, (&survey, given), wanted);
            }
        }
    }
}

/// What is wrong with the settings and with the survey is told before the length of a list.
fn put_refused(list: &mut List) {
    let (d3, seven, d12) = (d3(), drawing("7", ""), d12());
    for (name, s, limit, number) in [
        ("s 0", 0, 4, 12),
        ("s 33", 33, 4, 12),
        ("s 0, L 9", 0, 9, 12),
        ("L 0", 2, 0, 13),
        ("L 9", 2, 9, 13),
    ] {
        let name = format!("list, {name}");
        list.put_refused_list(&name, &asked(&d12[..1], s, limit), &[1], number);
    }
    for (name, survey, number) in [
        ("no survey", &d3[..0], 14),
        ("survey of 72 bytes", &d3[..OLD_RECORD], 1),
        ("survey of 74 bytes", &d12[..74], 1),
    ] {
        list.put_refused_check(&format!("list, {name}"), survey, Refused::of(number));
    }
    for (name, record, number) in [
        ("n 11", changed(&d3, 0, 11), 2),
        ("m 21", changed(&d3, 1, 21), 3),
        ("an end", changed(&d3, 16, 3), 4),
        ("both ends", changed(&d3, 16, 1), 5),
        ("a pair", drawing("111", "015 105"), 6),
        ("an unused byte", changed(&d3, 71, 1), 7),
        ("not connected", drawing("1111", "015 235"), 8),
        ("n 1, m 1", changed(&seven, 1, 1), 3),
        ("n 2, m 0", changed(&seven, 0, 2), 3),
        ("lone, an unused byte", changed(&seven, 3, 1), 7),
    ] {
        let name = format!("list, {name}");
        list.put_refused_check(&name, &record, Refused::of(number));
        let behind = [&seven[..], &record].concat();
        list.put_refused_check(&name, &behind, Refused { number, at: 1 });
    }
}

pub fn put(list: &mut List) {
    put_changed(list);
    put_others(list);
    put_cranes(list);
    put_empty(list);
    put_largest(list);
    for named in NAMED {
        put_named(list, named);
    }
    put_more_cables(list);
    put_refused(list);
}
