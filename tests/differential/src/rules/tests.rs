//! The rules by themselves: their numbers of one set, and that each wrong one is seen to be wrong.
use super::*;
use crate::examples;
use crate::random::Random;
use std::collections::BTreeSet;

/// Of drawings 2, 4, 6 and 7, whose cranes are 5, 9, 3 and 5.
#[test]
fn numbers_of_a_set() {
    let cranes = [9, 5, 5, 3, 9, 9, 3, 5];
    let rules: [(Rule, usize); 17] = [
        (drawings, 4),
        (different, 3),
        (|d, cranes| different_by(d, cranes, 4), 2),
        (|d, cranes| different_without(d, cranes, 9), 2),
        (changes, 4),
        (last_sheets, 2),
        (before_next_sheets, 3),
        (last_apart, 3),
        (lowest, 2),
        (highest, 7),
        (second, 4),
        (crane, 5),
        (from_one, 3),
        (zero, 0),
        (last_of_its_crane, 4),
        (first_of_its_crane, 1),
        (of_the_lowest_crane, 6),
    ];
    for (at, (rule, number)) in rules.into_iter().enumerate() {
        assert_eq!(rule(&[2, 4, 6, 7], &cranes), number, "rule {at}");
    }
    assert_eq!(four_bits(&[18, 31], &cranes), 2);
    assert_eq!(second(&[3], &cranes), 3);
}

/// Every wrong way gives some survey another list, which has the right codes and supports.
#[test]
fn wrong_examples_are_wrong() {
    let surveys = examples::surveys(&mut Random::new(43));
    let mut wrong = BTreeSet::new();
    let mut ways = 0;
    for survey in &surveys {
        let right = RIGHT.list(survey, [1, 3]);
        let lists = with_wrong_examples(survey, [1, 3]);
        ways = lists.len();
        for (way, list) in lists.iter().enumerate() {
            assert_eq!(old_form(list), old_form(&right));
            if *list != right {
                wrong.insert(way);
            }
        }
    }
    assert_eq!(wrong, (0..ways).collect());
}

/// The paper's rules are those of the catalogue.
#[test]
fn right_rules() {
    for survey in examples::surveys(&mut Random::new(8)) {
        let entries = Codes::default().of_survey(&survey, [2, 8]);
        let entries = entries.ok().expect("accepted");
        assert_eq!(RIGHT.list(&survey, [2, 8]), catalogue::bytes(&entries));
    }
}
