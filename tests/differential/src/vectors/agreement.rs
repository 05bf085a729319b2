//! How far codes agree, request R-7: two that part at the first record, at a later one, at the last of twenty or nowhere, that begin one another, and
//! that have equal records behind the one on which they part; and codes that are not the least, each beside the least of what it describes.
use super::notation::code as notation;
use super::{Call, List};
use crate::code::{self, bytes, described, read, RECORD};

const D3: &str = "01151 12151";
const D4: &str = "01151 12151 20151";
const D5: &str = "01151 12151 20151 23151";
const D6: &str = "01151 12151 23151 30151";

/// The first of the two comes before the second.
fn put_two(list: &mut List) {
    for (name, first, second, agreement) in [
        ("D3 and D8", D3, "01151 02151", 1),
        ("D2 and D1", "01143 02192", "01172", 0),
        ("D3 and D4", D3, D4, 2),
        ("D4 and D5", D4, D5, 3),
        ("D5 and D6", D5, D6, 2),
        ("all but a kind of j", "01151 12151", "01151 12152", 1),
        ("equal behind no record", "01142 12251", "01152 12251", 0),
        ("equal behind one record", D4, "01151 12161 20151", 1),
    ] {
        list.put_order(name, &notation(first), &notation(second), agreement);
    }
}

/// Seven devices, each joined with each but for one pair, told in the order of their numbers: twenty records.
fn clique_without([i, j]: [u8; 2]) -> (String, Vec<u8>) {
    let of_device = |i: u8| {
        let back = (0..i - 1).map(move |j| [i, j]);
        [[i - 1, i]].into_iter().chain(back)
    };
    let pairs = (1..7).flat_map(of_device).filter(|pair| *pair != [i, j]);
    let code = pairs.flat_map(|[i, j]| [i, j, 1, 5, 1]).collect();
    (format!("clique without {i}-{j}"), code)
}

/// The pair that these miss in their least code.
const LEAST: [u8; 2] = [6, 4];

fn put_twenty(list: &mut List) {
    let (name, least) = clique_without(LEAST);
    list.put_agreement(&name, Call::IsLeast(&least), "yes", 20);
    let (name, last) = clique_without([6, 3]);
    list.put_order(&name, &least, &last, 19);
    let (name, early) = clique_without([2, 0]);
    list.put_agreement(&name, Call::Compare(&early, &least), "after", 2);
    let begin = &least[..19 * RECORD];
    let name = "nineteen of twenty";
    list.put_agreement(name, Call::Compare(begin, &least), "before", 19);
    list.put_agreement(name, Call::Compare(&least, begin), "after", 19);
}

/// So many records of a code are those of the least, which is this.
fn put_not_least(list: &mut List, name: &str, other: &[u8], least: &[u8], agreement: usize) {
    let drawing = described(&read(other).expect("a code"));
    assert_eq!(bytes(&code::least(&drawing)), least, "{name}");
    list.put_agreement(name, Call::IsLeast(other), "no", agreement);
}

fn put_others(list: &mut List) {
    let tails = "01151 12151 20151 23151 14151";
    for (name, other, least, agreement) in [
        ("D1 from its other end", "01271", "01172", 0),
        ("D2 by its greater cable", "01192 02143", "01143 02192", 0),
        ("greater kind of j first", "01153 02152", "01152 02153", 0),
        (
            "path of four from within",
            "01151 02151 23151",
            "01151 12151 23151",
            1,
        ),
        ("D5 from its tail", "01151 12151 23151 31151", D5, 2),
        ("D5 ending in 13", "01151 12151 20151 13151", D5, 3),
        // The least of those that start at the same device parts from these two later, after four records and after three.
        (
            "two tails, from one",
            "01151 12151 23151 31151 24151",
            tails,
            2,
        ),
        (
            "two tails, from one, the other early",
            "01151 12151 23151 24151 41151",
            tails,
            2,
        ),
    ] {
        put_not_least(list, name, &notation(other), &notation(least), agreement);
    }
    let (_, least) = clique_without(LEAST);
    for (missing, agreement) in [
        ([2, 0], 2),
        ([3, 1], 5),
        ([4, 2], 9),
        ([5, 3], 14),
        ([6, 3], 19),
    ] {
        let (name, other) = clique_without(missing);
        put_not_least(list, &name, &other, &least, agreement);
    }
}

pub fn put(list: &mut List) {
    put_two(list);
    put_twenty(list);
    put_others(list);
}
