//! The check's separate code by itself, held against plain comparing of bytes, which is what the request says.
use super::*;
use crate::catalogue::{self, Codes, Sheet, FORMER, USUAL};
use crate::generate::{self, plain, Shape};
use std::collections::BTreeSet;

/// Surveys of drawings that have much in common.
fn sheets(random: &mut Random) -> Vec<Sheet> {
    let shape = Shape {
        devices: (2, 5),
        most_cables: 7,
        kinds: 2,
    };
    let first = generate::drawing(random, shape);
    let mut drawings = vec![first.clone()];
    for _ in 0..random.below(4) {
        drawings.push(generate::neighbour(random, &first));
    }
    let survey = generate::survey(random, &drawings);
    catalogue::read_survey(&survey).expect("accepted")
}

#[test]
fn right_is_equal_byte_for_byte() {
    let random = &mut Random::new(42);
    let mut seen = BTreeSet::new();
    for _ in 0..300 {
        let sheets = sheets(random);
        let threshold = random.between(1, sheets.len() + 1);
        let limit = random.between(1, 8);
        let entries = Codes::default().catalogue(&sheets, threshold, limit);
        let right = catalogue::bytes(&entries);
        for list in spoiled(random, &right) {
            let told = told(&list, &right);
            seen.insert(told);
            if list.len() % ENTRY == 0 {
                assert_eq!(is_right(&list, &entries), list == right, "{told}");
                assert_eq!(
                    is_right(&list, &entries),
                    [RIGHT, NONE_FREQUENT].contains(&told)
                );
            } else {
                assert!(REFUSED.contains(&told));
            }
        }
    }
    let all = ANSWERS.iter().flat_map(|(_, told)| told.iter());
    let all: BTreeSet<&str> = all.chain(REFUSED).copied().collect();
    assert_eq!(seen, all);
}

/// Of a path on two cranes the first entries, one for each number of cables: those of the usual catalogue, of the former one, and no others.
#[test]
fn lists_of_settings_with_a_name() {
    for (cables, usual, former) in [(4, 4, 4), (5, 5, 4), (6, 6, 4), (8, 6, 4)] {
        let path: Vec<(usize, usize)> = (0..cables).map(|v| (v, v + 1)).collect();
        let survey = catalogue::each_its_crane(&[plain(&path), plain(&path)]);
        let mut list = |settings| {
            let entries = Codes::default().of_survey(&survey, settings);
            catalogue::bytes(&entries.ok().expect("accepted"))
        };
        let all = list([2, 8]);
        let right = [USUAL, FORMER].map(&mut list);
        for entries in 0..=cables {
            let told = told_of_settings(&all[..entries * ENTRY], &right[0], &right[1]);
            let due = match (entries == usual, entries == former) {
                (true, true) => Some(AT_BOTH),
                (true, false) => Some(AT_USUAL),
                (false, true) => Some(AT_FORMER),
                (false, false) => None,
            };
            assert_eq!(told, due, "{entries} of {cables}");
        }
    }
    assert_eq!(told_of_settings(&[], &[], &[]), None);
}

/// The entries of few cables stay as they are and where they are.
#[test]
fn lists_of_few_cables() {
    let star = plain(&[(0, 1), (1, 2), (1, 3)]);
    let entries = Codes::default().catalogue_of_drawings(&[star], 1, 4);
    let list = catalogue::bytes(&entries);
    let cables: Vec<usize> = entries.iter().map(|entry| entry.code.len()).collect();
    assert_eq!(cables, [1, 2, 3]);
    let turned: Vec<u8> = list.chunks(ENTRY).rev().flatten().copied().collect();
    assert_eq!(few_cables(&list, 0), []);
    assert_eq!(few_cables(&list, 2), list[..2 * ENTRY]);
    assert_eq!(few_cables(&turned, 2), turned[ENTRY..]);
    assert_eq!(few_cables(&list, 3), list);
}

/// D12, entry by entry.
#[test]
fn entries_that_are_read() {
    let path = plain(&[(0, 1), (1, 2)]);
    let entries = Codes::default().catalogue_of_drawings(&[path.clone(), path], 2, 4);
    let right = catalogue::bytes(&entries);
    let parts: Vec<Entry> = right.chunks(ENTRY).filter_map(read).collect();
    assert_eq!(parts, entries);
    for (at, value) in [(0, 0), (0, 9), (0, 2), (3, 2), (EXAMPLE_AT - 1, 1)] {
        let mut part = right[..ENTRY].to_vec();
        part[at] = value;
        assert_eq!(read(&part), None, "{at}");
    }
    // Any support and any example can be read, and is wrong.
    for (at, value, numbers) in [(SUPPORT_AT, 255, (255, 0)), (EXAMPLE_AT, 1, (2, 1))] {
        let mut other = right.clone();
        other[at] = value;
        let entry = read(&other[..ENTRY]).expect("an entry");
        assert_eq!((entry.support, entry.example), numbers);
        assert!(is_right(&right, &entries) && !is_right(&other, &entries));
    }
    assert!(is_right(&[], &[]) && !is_right(&[], &entries));
}

/// Of three entries one has another example, or several have; and none has any.
#[test]
fn lists_with_other_examples() {
    let star = plain(&[(0, 1), (1, 2), (1, 3)]);
    let entries = Codes::default().catalogue_of_drawings(&[star], 1, 4);
    let right = catalogue::bytes(&entries);
    for (changed, due) in [
        (&[0][..], FIRST_EXAMPLE),
        (&[1], MIDDLE_EXAMPLE),
        (&[2], LAST_EXAMPLE),
        (&[0, 2], EXAMPLES),
    ] {
        let mut list = right.clone();
        for entry in changed {
            list[ENTRY * entry + EXAMPLE_AT] = 31;
        }
        assert_eq!(told(&list, &right), due);
        assert!(!is_right(&list, &entries), "{changed:?}");
    }
    let old = old_form(&right);
    assert_eq!((old.len(), told(&old, &right)), (3 * 42, OLD_FORM));
}

/// Of 43 entries the old form has the length of 42.
#[test]
fn lists_of_43_patterns() {
    for settings in [[1, 8], USUAL, FORMER] {
        let entries = Codes::default().of_survey(&of_43_patterns(), settings);
        let entries = entries.ok().expect("accepted");
        let right = catalogue::bytes(&entries);
        let old = old_form(&right);
        assert_eq!([right.len(), old.len()], [43 * ENTRY, 42 * ENTRY]);
        assert_eq!(told(&old, &right), OLD_FORM);
        assert!(!is_right(&old, &entries));
    }
}

/// The code of a lone device can be read; no catalogue has it.
#[test]
fn an_entry_of_a_lone_device() {
    let mut part = vec![1, 1, 0, 0, 7, 0, 7];
    part.resize(ENTRY, 0);
    assert!(read(&part).is_some());
    assert!(!is_right(&part, &[]));
}
