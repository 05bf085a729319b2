//! Lists made elsewhere, request R-5. Whether one is the catalogue is told without writing a catalogue: every part of 43 bytes is read as an
//! entry, and the list is right if each is that of a frequent pattern, their codes rise, and there are as many as there are such patterns.
//! Then lists that are wrong, each in its own way, and what there is to tell of one: every way is seen to occur. Last, lists that are right at the
//! usual or at the former settings alone, request R-6. Of request R-8 are lists with other examples, and lists from before entries had one.
#[cfg(test)]
mod tests;

use crate::catalogue::{Entry, ENTRY, EXAMPLE_AT, RECORDS_AT, SUPPORT_AT};
use crate::code::{self, Code};
use crate::drawing::Drawing;
use crate::generate::plain;
use crate::random::Random;
use crate::rules::old_form;
use std::cmp::Ordering;
use std::collections::HashMap;

const MOST_RECORDS: usize = 8;

/// The entry in 43 bytes: as many records of a code as its first byte says, zeros behind them, and the example.
fn read(part: &[u8]) -> Option<Entry> {
    let records = usize::from(part[0]);
    if !(1..=MOST_RECORDS).contains(&records) {
        return None;
    }
    let (code, rest) = part[RECORDS_AT..EXAMPLE_AT].split_at(code::RECORD * records);
    let padded = rest.iter().all(|&byte| byte == 0);
    Some(Entry {
        code: code::read(code).ok().filter(|_| padded)?,
        support: part[SUPPORT_AT].into(),
        example: part[EXAMPLE_AT].into(),
    })
}

/// Whether a list of whole entries is right for the patterns that are frequent, in whatever order these are given.
pub fn is_right(list: &[u8], frequent: &[Entry]) -> bool {
    if list.len() != frequent.len() * ENTRY {
        return false;
    }
    let Some(listed) = list.chunks(ENTRY).map(read).collect::<Option<Vec<_>>>() else {
        return false;
    };
    let numbers = |entry: &Entry| (entry.support, entry.example);
    let known: HashMap<&Code, (usize, usize)> =
        frequent.iter().map(|e| (&e.code, numbers(e))).collect();
    let rise = listed.is_sorted_by(|a, b| code::order(&a.code, &b.code) == Ordering::Less);
    let has = |entry: &Entry| known.get(&entry.code) == Some(&numbers(entry));
    rise && listed.iter().all(has)
}

/// Of a list that is right.
pub const RIGHT: &str = ": the catalogue";
pub const NONE_FREQUENT: &str = ": no entry, and nothing is frequent";
/// Of one that lacks entries: all of them, the last ones, others.
pub const EMPTY: &str = ": no entry, though some are due";
pub const CUT: &str = ": the last entries left out";
pub const GAP: &str = ": other entries left out";
/// Of one that has the catalogue in front: what stands behind it.
pub const TWICE: &str = ": the last entry twice";
pub const ZEROS: &str = ": zeros behind it";
pub const FURTHER: &str = ": something else behind it";
/// Of one with as many entries.
pub const SUPPORT: &str = ": another support";
/// Another example: where, if it is one alone.
pub const FIRST_EXAMPLE: &str = ": another example at the first entry";
pub const MIDDLE_EXAMPLE: &str = ": another example between";
pub const LAST_EXAMPLE: &str = ": another example at the last entry";
pub const EXAMPLES: &str = ": other examples";
pub const PADDING: &str = ": something behind an entry's records";
pub const ORDER: &str = ": another order";
pub const OTHERS: &str = ": other entries";
/// Of the catalogue as it was before entries had an example; its length may be that of whole entries.
pub const OLD_FORM: &str = ": without examples";
/// Of any other one of whole entries.
pub const ANOTHER: &str = ": another list";
/// Of one that has no whole entries.
pub const BYTE_MORE: &str = ": the catalogue and a byte";
pub const BYTE_LESS: &str = ": the catalogue less a byte";
pub const NOT_WHOLE: &str = ": another length";
/// Of one with entries that is right at the usual settings, at the former ones or at both, where no pattern of more than four cables is frequent.
pub const AT_BOTH: &str = ": right at the usual and the former settings";
pub const AT_USUAL: &str = ": right at the usual settings alone";
pub const AT_FORMER: &str = ": right at the former settings alone";

/// The calls that check a list.
pub const CHECKS: [&str; 3] = ["check_list", "check_usual", "check_four"];

/// Every answer that the check of a list gives beside a list of which this can be told.
pub const ANSWERS: &[(&str, &[&str])] = &[
    ("yes", &[RIGHT, NONE_FREQUENT]),
    (
        "no",
        &[
            EMPTY,
            CUT,
            GAP,
            TWICE,
            ZEROS,
            FURTHER,
            SUPPORT,
            FIRST_EXAMPLE,
            MIDDLE_EXAMPLE,
            LAST_EXAMPLE,
            EXAMPLES,
            PADDING,
            ORDER,
            OTHERS,
            ANOTHER,
        ],
    ),
];

/// The same of refusal 18.
pub const REFUSED: &[&str] = &[BYTE_MORE, BYTE_LESS, OLD_FORM, NOT_WHOLE];

/// Every answer beside a list that is right at settings with a name: the call, the answer, what can be told.
pub const NAMED_ANSWERS: &[(&str, &str, &[&str])] = &[
    ("check_usual", "yes", &[AT_BOTH, AT_USUAL]),
    ("check_usual", "no", &[AT_FORMER]),
    ("check_four", "yes", &[AT_BOTH, AT_FORMER]),
    ("check_four", "no", &[AT_USUAL]),
];

/// What there is to tell of a list, beside the bytes that it should have.
pub fn told(list: &[u8], right: &[u8]) -> &'static str {
    if !list.is_empty() && list == old_form(right) {
        return OLD_FORM;
    }
    if list.len() % ENTRY != 0 {
        return of_length(list, right);
    }
    if list == right {
        return if right.is_empty() {
            NONE_FREQUENT
        } else {
            RIGHT
        };
    }
    match list.strip_prefix(right) {
        Some(behind) if behind.len() == ENTRY && right.ends_with(behind) => TWICE,
        Some(behind) if behind.iter().all(|&byte| byte == 0) => ZEROS,
        Some(_) => FURTHER,
        None if list.is_empty() => EMPTY,
        None if right.starts_with(list) => CUT,
        None if list.len() == right.len() => of_entries(list, right),
        None if is_part(list, right) => GAP,
        None => ANOTHER,
    }
}

/// The same beside the bytes that it should have at the usual and at the former settings, if it has entries and is right at one of them.
pub fn told_of_settings(list: &[u8], usual: &[u8], former: &[u8]) -> Option<&'static str> {
    match (list == usual, list == former) {
        _ if list.is_empty() => None,
        (true, true) => Some(AT_BOTH),
        (true, false) => Some(AT_USUAL),
        (false, true) => Some(AT_FORMER),
        (false, false) => None,
    }
}

/// The entries of a list that have at most so many cables, in their order.
pub fn few_cables(list: &[u8], cables: u32) -> Vec<u8> {
    let entries = list.chunks(ENTRY);
    let few = entries.filter(|entry| u32::from(entry[0]) <= cables);
    few.flatten().copied().collect()
}

fn of_length(list: &[u8], right: &[u8]) -> &'static str {
    if list.len() == right.len() + 1 && list.starts_with(right) {
        BYTE_MORE
    } else if list.len() + 1 == right.len() && right.starts_with(list) {
        BYTE_LESS
    } else {
        NOT_WHOLE
    }
}

fn of_entries(list: &[u8], right: &[u8]) -> &'static str {
    let differ = || (0..list.len()).filter(|&at| list[at] != right[at]);
    let is_padding = |at: usize| {
        let entry = at - at % ENTRY;
        (padding(&right[entry..])..EXAMPLE_AT).contains(&(at - entry))
    };
    let sorted = |bytes: &[u8]| {
        let mut entries: Vec<Vec<u8>> = bytes.chunks(ENTRY).map(<[u8]>::to_vec).collect();
        entries.sort();
        entries
    };
    if differ().all(|at| at % ENTRY == SUPPORT_AT) {
        SUPPORT
    } else if differ().all(|at| at % ENTRY == EXAMPLE_AT) {
        of_examples(differ().map(|at| at / ENTRY), list.len() / ENTRY)
    } else if differ().all(is_padding) {
        PADDING
    } else if sorted(list) == sorted(right) {
        ORDER
    } else {
        OTHERS
    }
}

/// The place behind the records of the entry that stands in front.
fn padding(entry: &[u8]) -> usize {
    RECORDS_AT + code::RECORD * usize::from(entry[0])
}

/// Of the entries, out of so many, that have another example.
fn of_examples(mut others: impl Iterator<Item = usize>, entries: usize) -> &'static str {
    match (others.next(), others.next()) {
        (Some(0), None) => FIRST_EXAMPLE,
        (Some(other), None) if other + 1 == entries => LAST_EXAMPLE,
        (Some(_), None) => MIDDLE_EXAMPLE,
        _ => EXAMPLES,
    }
}

/// Whether the entries of a list are some of the right ones, in their order.
fn is_part(list: &[u8], right: &[u8]) -> bool {
    let mut right = right.chunks(ENTRY);
    list.chunks(ENTRY)
        .all(|entry| right.any(|other| other == entry))
}

/// The right list, and lists that are wrong, each in its own way: too short, too long, with another byte, in another order. Of a list
/// without entries some of them are right after all.
pub fn spoiled(random: &mut Random, right: &[u8]) -> Vec<Vec<u8>> {
    let entries = right.len() / ENTRY;
    let no_entry = random_length(random);
    let mut lists = vec![
        right.to_vec(),
        Vec::new(),
        [right, &[0; ENTRY]].concat(),
        [right, &random.bytes(ENTRY)].concat(),
        [right, right].concat(),
        [right, &[0]].concat(),
        [right, &random.bytes(no_entry)].concat(),
        random.bytes(ENTRY),
        random.bytes(right.len()),
        random.bytes(right.len() + ENTRY),
        old_form(right),
    ];
    if entries > 0 {
        lists.extend(changed(random, right));
        lists.extend(other_examples(random, right));
        lists.extend(without(random, right));
    }
    if entries > 1 {
        lists.extend(exchanged(random, right));
    }
    lists
}

/// More than no byte and less than an entry.
fn random_length(random: &mut Random) -> usize {
    random.between(1, ENTRY - 1)
}

/// A byte of an entry, often the first or the last of all, is another: a support, one behind the records, the last of all, any.
fn changed(random: &mut Random, right: &[u8]) -> Vec<Vec<u8>> {
    let entries = right.len() / ENTRY;
    let mut entry = || match random.below(3) {
        0 => 0,
        1 => entries - 1,
        _ => random.below(entries),
    };
    let places = [entry(), entry(), entry(), entry(), entry()];
    let padding = padding(&right[ENTRY * places[0]..]);
    let mut lists = Vec::new();
    let mut put = |entry: usize, at: usize, change: u8| {
        let mut list = right.to_vec();
        let byte = &mut list[ENTRY * entry + at];
        *byte = byte.wrapping_add(change);
        lists.push(list);
    };
    put(places[0], SUPPORT_AT, 1);
    put(places[1], SUPPORT_AT, 255);
    put(places[2], 0, 1);
    put(
        places[3],
        random.between(RECORDS_AT, EXAMPLE_AT - 1),
        1 + random.byte() % 255,
    );
    put(places[4], EXAMPLE_AT - 1, 1);
    if padding < EXAMPLE_AT {
        put(places[0], random.between(padding, EXAMPLE_AT - 1), 1);
    }
    lists
}

/// The example of the first entry, of the last, of any, of all is another: the next one, or that before it.
fn other_examples(random: &mut Random, right: &[u8]) -> Vec<Vec<u8>> {
    let last = right.len() / ENTRY - 1;
    let any = random.between(0, last);
    [0..=0, last..=last, any..=any, 0..=last]
        .map(|changed| {
            let change = *random.pick(&[1, 255]);
            let mut list = right.to_vec();
            for entry in changed {
                let byte = &mut list[ENTRY * entry + EXAMPLE_AT];
                *byte = byte.wrapping_add(change);
            }
            list
        })
        .to_vec()
}

/// An entry is left out: the first, the last, any; all but the first; a byte of the last.
fn without(random: &mut Random, right: &[u8]) -> Vec<Vec<u8>> {
    let entries = right.len() / ENTRY;
    let mut lists = vec![
        right[..right.len() - 1].to_vec(),
        right[..right.len() - random_length(random)].to_vec(),
        right[..ENTRY].to_vec(),
        [right, &right[right.len() - ENTRY..]].concat(),
    ];
    for entry in [0, entries - 1, random.below(entries)] {
        let (front, rest) = right.split_at(ENTRY * entry);
        lists.push([front, &rest[ENTRY..]].concat());
    }
    lists
}

/// Two entries are exchanged: the first two, the last two, any; the whole list is turned round; the last one stands in the place of another.
fn exchanged(random: &mut Random, right: &[u8]) -> Vec<Vec<u8>> {
    let entries: Vec<&[u8]> = right.chunks(ENTRY).collect();
    let last = entries.len() - 1;
    let mut orders = vec![entries.clone(); 5];
    orders[0].swap(0, 1);
    orders[1].swap(last - 1, last);
    orders[2].swap(random.below(last), last);
    orders[3].reverse();
    orders[4][random.below(last)] = entries[last];
    orders.iter().map(|entries| entries.concat()).collect()
}

/// Drawings on two cranes that have 43 patterns together, none of over four cables: no two cables are of one kind, so that two stars of four have 15
/// each, a path of four 10, and one of two 3.
pub fn of_43_patterns() -> Vec<u8> {
    let star = [(0, 1), (0, 2), (0, 3), (0, 4)];
    let path = [(0, 1), (1, 2), (2, 3), (3, 4)];
    let mut drawings = [&star[..], &star, &path, &path[..2]].map(plain);
    let cables = drawings.iter_mut().flat_map(|drawing| &mut drawing.cables);
    for (cable, kind) in cables.zip(0..) {
        cable.kind = kind;
    }
    let on_two = |drawing: &Drawing| [drawing.sheet(0), drawing.sheet(1)].concat();
    drawings.iter().flat_map(on_two).collect()
}
