//! Every call of the proved library against another implementation by other algorithms, on seeded inputs: answers, refusals
//! and every byte of the lent output. Each outcome that a call can have is counted and has to occur.
//!
//! The proofs speak of the program as the prover reads it. This looks at what the compiler made of it and at how other
//! languages call it, and it reads the paper a second time.
mod calls;

use calls::{of_limits, refused, Calls, Seen, ALL_KEPT, LEFT_OUT};
use holvreiz_differential::agreement;
use holvreiz_differential::answers::{FIRST, LATER, SECOND};
use holvreiz_differential::catalogue::{each_its_crane, ENTRY, FORMER, USUAL};
use holvreiz_differential::code;
use holvreiz_differential::cranes;
use holvreiz_differential::drawing::{self, Drawing, RECORD};
use holvreiz_differential::examples;
use holvreiz_differential::generate::{self, sheet, Shape};
use holvreiz_differential::lists::{self, CHECKS};
use holvreiz_differential::lone;
use holvreiz_differential::pairs;
use holvreiz_differential::random::Random;
use holvreiz_differential::rules;
use holvreiz_differential::shims::SHIMS;
use std::collections::HashSet;
use std::process::ExitCode;

/// Others may be given as the program's arguments.
const SEEDS: [u64; 2] = [20_240_615, 65_537];

/// The fewest times that each outcome has to occur.
const TIMES: usize = 2;

const SMALL: Shape = Shape {
    devices: (2, 6),
    most_cables: 9,
    kinds: 2,
};
const MIDDLE: Shape = Shape {
    devices: (5, 8),
    most_cables: 14,
    kinds: 3,
};
const LARGE: Shape = Shape {
    devices: (9, 10),
    most_cables: 20,
    kinds: 3,
};
const PLAIN: Shape = Shape {
    devices: (2, 7),
    most_cables: 12,
    kinds: 1,
};
const LONE: Shape = Shape {
    devices: (1, 1),
    most_cables: 0,
    kinds: 2,
};

/// Mostly small drawings, which take little time; now and then one as large as they get, or a lone device.
fn any_shape(random: &mut Random) -> Shape {
    match random.below(100) {
        0 => LARGE,
        1..=10 => MIDDLE,
        11..=40 => PLAIN,
        41..=50 => LONE,
        _ => SMALL,
    }
}

/// A small drawing, now and then a lone device.
fn small(random: &mut Random) -> Drawing {
    let shape = if random.once_in(5) { LONE } else { SMALL };
    generate::drawing(random, shape)
}

/// Just enough bytes, one too few, more, or none.
fn room(random: &mut Random, needed: usize) -> usize {
    match random.below(8) {
        0 => needed.saturating_sub(1),
        1 => random.below(needed + 1),
        2 | 3 => needed,
        _ => needed + random.below(40),
    }
}

/// Drawings that are accepted, drawn twice: coding, sameness, and both ways through a code.
fn accepted_drawings(calls: &mut Calls, random: &mut Random, drawings: &[Drawing]) {
    for drawing in drawings {
        let other = generate::redrawn(random, drawing);
        let near = generate::neighbour(random, &other);
        for drawn in [drawing, &other] {
            let needed = code::size(drawn);
            let room = room(random, needed);
            calls.code(&sheet(random, drawn), room);
            calls.code(&sheet(random, drawn), needed);
        }
        let device = generate::device(random, drawing);
        for (first, second) in [
            (drawing, &other),
            (drawing, &near),
            (drawing, &device),
            (&device, drawing),
        ] {
            calls.same(&sheet(random, first), &sheet(random, second));
        }
        calls.is_least(&code::bytes(&code::least(drawing)));
    }
}

/// Records with faults, alone and as one of two.
fn damaged_drawings(calls: &mut Calls, random: &mut Random, times: usize) {
    for _ in 0..times {
        let drawing = small(random);
        let fine = small(random);
        let fine = sheet(random, &fine);
        let damaged = match random.below(8) {
            0 => generate::apart(random),
            _ => generate::damaged_record(random, &drawing),
        };
        let room = random.below(60);
        calls.code(&damaged, room);
        let other = if random.once_in(2) { &fine } else { &damaged };
        calls.same(&damaged, other);
        calls.same(other, &damaged);
        calls.match_drawing(&damaged, other, room);
        calls.match_drawing(other, &damaged, room);
    }
}

/// A drawing as large as they get, with one of its pairs joined twice.
fn joined_twice(calls: &mut Calls, random: &mut Random) {
    let drawing = generate::drawing_of(random, 10, 20, 3);
    for record in pairs::every_two_places(&drawing) {
        calls.code(&record, 0);
    }
}

/// Codes that are least, codes that are not, and codes with faults.
fn codes(calls: &mut Calls, random: &mut Random, times: usize) {
    for _ in 0..times {
        let shape = any_shape(random);
        let drawing = generate::drawing(random, shape);
        let code = generate::any_code(random, &drawing);
        let fine = code::bytes(&code);
        let begin = code::bytes(&code[..random.between(1, code.len())]);
        let other = code::bytes(&generate::any_code(random, &drawing));
        let damaged = generate::damaged_code(random, &code);
        let lone = code::bytes(&code::least(&generate::drawing(random, LONE)));
        for bytes in [&fine, &begin, &damaged] {
            let room = room(random, RECORD);
            calls.decode(bytes, room);
            calls.is_least(bytes);
        }
        let all = [&fine, &begin, &other, &damaged, &lone];
        for first in all {
            let second = random.pick(&all);
            calls.compare(first, second);
        }
    }
}

/// Codes of a drawing that agree with its least code in every number of records that there is. Each is tested, and compared with the least code, with
/// beginnings of that which are as long as the agreement, shorter and longer, and with itself where one cable has another kind.
fn agreements(calls: &mut Calls, random: &mut Random, drawings: &[Drawing]) {
    for drawing in drawings {
        let least = code::least(drawing);
        for code in generate::codes_by_agreement(random, drawing) {
            let agreement = agreement::of(&code, &least);
            let lengths = agreement.saturating_sub(1)..=agreement + 1;
            let begins = lengths.filter_map(|records| least.get(..records));
            let begins = begins.filter(|begin| !begin.is_empty());
            let other = generate::other_cable_kind(random, &code);
            let fine = code::bytes(&code);
            calls.is_least(&fine);
            for second in begins.chain([&least[..], &other]) {
                let second = code::bytes(second);
                calls.compare(&fine, &second);
                calls.compare(&second, &fine);
            }
        }
    }
}

/// Drawings with cables, of every size and some as large as they get, for the agreement of their codes.
fn with_cables(random: &mut Random) -> Vec<Drawing> {
    let clique = generate::near_clique();
    let mut drawings = vec![generate::turned_over(&clique), clique];
    drawings.extend(generate::symmetric());
    // Stars of many leaves have few codes, but nearly a million numberings.
    drawings.retain(|drawing| drawing.devices() < 8 || drawing.cables.len() >= drawing.devices());
    for (shape, times) in [(SMALL, 200), (PLAIN, 100), (MIDDLE, 40), (LARGE, 2)] {
        drawings.extend((0..times).map(|_| generate::drawing(random, shape)));
    }
    drawings.extend([1, 2, 3, 256].map(|kinds| generate::drawing_of(random, 10, 20, kinds)));
    drawings
}

/// Every code of few records: each is tested, and the shorter ones are compared with each other.
fn every_small_code(calls: &mut Calls) {
    for (records, cable_kinds) in [(6, &[5][..]), (4, &[5, 6])] {
        for code in generate::every_code(records, cable_kinds) {
            calls.is_least(&code::bytes(&code));
        }
        let shorter = generate::every_code(records - 2, cable_kinds);
        let shorter: Vec<Vec<u8>> = shorter.iter().map(|code| code::bytes(code)).collect();
        for first in &shorter {
            for second in &shorter {
                calls.compare(first, second);
            }
        }
    }
}

/// Patterns that are parts of a drawing, drawn otherwise; such parts with one thing changed; any two drawings; and a device alone, of
/// a kind that the drawing has, and of one that it may lack.
fn matches(calls: &mut Calls, random: &mut Random, times: usize) {
    for _ in 0..times {
        let shape = any_shape(random);
        let drawing = generate::drawing(random, shape);
        let part = generate::part(random, &drawing);
        let part = generate::redrawn(random, &part);
        let near = generate::neighbour(random, &part);
        let any = generate::drawing(random, PLAIN);
        let device = generate::device(random, &drawing);
        let other = generate::neighbour(random, &device);
        for pattern in [&part, &near, &any, &device, &other] {
            let room = room(random, pattern.devices());
            calls.match_drawing(&sheet(random, pattern), &sheet(random, &drawing), room);
        }
    }
}

/// Patterns of many maps into drawings of many maps.
fn symmetric_matches(calls: &mut Calls, random: &mut Random, drawings: &[Drawing]) {
    for pattern in drawings {
        let drawing = random.pick(drawings);
        let other = generate::redrawn(random, drawing);
        let again = generate::redrawn(random, pattern);
        for (pattern, drawing) in [(pattern, &other), (&again, pattern)] {
            calls.match_drawing(
                &sheet(random, pattern),
                &sheet(random, drawing),
                drawing::MOST_DEVICES,
            );
        }
    }
}

/// As large as the format allows: ten devices and twenty cables, of few kinds and of kinds up to 255.
fn largest(calls: &mut Calls, random: &mut Random, times: usize) {
    for _ in 0..times {
        let kinds = *random.pick(&[2, 3, 4, 256]);
        let mut drawing = generate::drawing_of(random, 10, 20, kinds);
        if random.once_in(2) {
            drawing = generate::turned_over(&drawing);
        }
        accepted_drawings(calls, random, std::slice::from_ref(&drawing));
        let least = code::least(&drawing);
        let any = generate::any_code(random, &drawing);
        for code in [&least, &any] {
            calls.decode(&code::bytes(code), RECORD + 1);
            calls.is_least(&code::bytes(code));
            calls.compare(&code::bytes(code), &code::bytes(&least[..19]));
        }
        let other = generate::redrawn(random, &drawing);
        calls.match_drawing(
            &sheet(random, &other),
            &sheet(random, &drawing),
            drawing::MOST_DEVICES + 1,
        );
    }
}

mod surveys {
    use super::*;

    /// Large drawings at the largest size limit, 32 of them, kinds up to 255, and more entries than anyone reads. In all but one survey each
    /// is its own crane, so that nothing falls below the threshold for that alone.
    pub fn largest(calls: &mut Calls, random: &mut Random) {
        for (drawings, devices, cables, kinds) in [(2, 9, 11, 4), (3, 10, 12, 256), (2, 10, 11, 3)]
        {
            let survey = survey_of(random, drawings, devices, cables, kinds);
            for (threshold, room) in [(1, 50), (2, 0)] {
                calls.catalogue(&survey, threshold, 8, |needed| needed + room);
            }
        }
        let ring = generate::plain(&[0, 1, 2, 3, 4, 5, 6, 7].map(|v| (v, (v + 1) % 8)));
        let two_rings = each_its_crane(&[ring.clone(), ring]);
        calls.catalogue(&two_rings, 2, 8, |needed| needed);
        let all_alike = vec![generate::drawing_of(random, 10, 12, 2); 32];
        calls.catalogue(&each_its_crane(&all_alike), 32, 6, |needed| needed);
        let sheets = all_alike.iter().zip(0..);
        let of_eight: Vec<u8> = sheets.flat_map(|(d, number)| d.sheet(number % 8)).collect();
        calls.catalogue(&of_eight, 8, 6, |needed| needed);
        // No two are alike, which makes over 20,000 entries certain.
        let many: Vec<Drawing> = (0..32)
            .map(|_| generate::drawing_of(random, 10, 20, 16))
            .collect();
        calls.catalogue(&each_its_crane(&many), 1, 4, |needed| {
            assert!(20_000 * ENTRY < needed);
            needed + 1
        });
        let mut last_at_fault = survey_of(random, 32, 10, 20, 3);
        last_at_fault[31 * RECORD + 1] = 0;
        calls.catalogue(&last_at_fault, 2, 4, |needed| needed);
        calls.catalogue(&last_at_fault, 0, 9, |needed| needed);
    }

    /// As many labels as a number of 32 bits has room for as a set, one fewer and one more: all devices of one kind, each cable kind
    /// a label. The last labels are in two drawings, so that what has them is listed for either threshold.
    pub fn label_counts(calls: &mut Calls, random: &mut Random) {
        for labels in [31, 32, 33] {
            let mut drawing = |first: usize| {
                let mut drawing = generate::drawing_of(random, 10, 20, 1);
                for (cable, kind) in drawing.cables.iter_mut().zip(first..) {
                    cable.kind = 7 * kind as u8;
                }
                drawing
            };
            let survey = [drawing(0), drawing(labels - 20), drawing(labels - 20)];
            let kinds: HashSet<u8> = survey
                .iter()
                .flat_map(|drawing| drawing.cables.iter().map(|cable| cable.kind))
                .collect();
            assert_eq!(kinds.len(), labels);
            for threshold in [1, 2] {
                calls.catalogue(&each_its_crane(&survey), threshold, 4, |needed| needed + 1);
            }
        }
    }

    fn survey_of(
        random: &mut Random,
        drawings: usize,
        devices: usize,
        cables: usize,
        kinds: usize,
    ) -> Vec<u8> {
        let mut survey = vec![generate::drawing_of(random, devices, cables, kinds)];
        while survey.len() < drawings {
            let next = match random.once_in(2) {
                true => generate::redrawn(random, &survey[0]),
                false => generate::drawing_of(random, devices, cables, kinds),
            };
            survey.push(next);
        }
        each_its_crane(&survey)
    }

    /// Drawings that have much in common, neighbours of a few, and some lone devices, in any order.
    pub fn survey(random: &mut Random, drawings: usize, shape: Shape) -> Vec<Drawing> {
        let mut survey = vec![generate::drawing(random, shape)];
        while survey.len() < drawings {
            let last = &survey[random.below(survey.len())];
            let next = match random.below(12) {
                0 => generate::drawing(random, LONE),
                1..=4 => generate::drawing(random, shape),
                _ => generate::neighbour(random, last),
            };
            survey.push(generate::redrawn(random, &next));
        }
        random.shuffle(&mut survey);
        survey
    }

    /// Surveys that are accepted, with enough bytes or too few.
    pub fn accepted(
        calls: &mut Calls,
        random: &mut Random,
        times: usize,
        shape: Shape,
        most_drawings: usize,
    ) {
        for _ in 0..times {
            let drawings = random.between(1, most_drawings);
            let survey = survey(random, drawings, shape);
            let survey = generate::survey(random, &survey);
            let most = match random.once_in(2) {
                true => drawings + 1,
                false => cranes::different(&cranes::of_drawings(&survey)),
            };
            let threshold = random.between(1, most).min(32) as u32;
            let limit = random.between(1, 8) as u32;
            let lent = random.below(8);
            let room = |needed: usize| match lent {
                0 => needed.saturating_sub(1),
                1 => needed / 2,
                2 => 0,
                3 | 4 => needed,
                _ => needed + 50,
            };
            calls.catalogue(&survey, threshold, limit, room);
        }
    }

    /// Drawings whose cranes repeat in every way: apart, side by side, crane 0 or 255 among others, all one crane. Each threshold is tried, those
    /// too that enough drawings reach and too few cranes.
    pub fn repeated_cranes(calls: &mut Calls, random: &mut Random) {
        for cranes in [
            &[3, 9, 3][..],
            &[9, 3, 3],
            &[0, 5, 0, 5],
            &[5, 5, 0, 0],
            &[0, 255, 255, 0, 255],
            &[1, 33, 65, 129, 1, 33],
            &[200, 0, 199, 200, 198, 0, 197],
        ] {
            let bytes = of_cranes(random, cranes);
            for threshold in 1..=cranes.len() as u32 {
                calls.catalogue(&bytes, threshold, 4, |needed| needed + 1);
            }
        }
        for crane in [0, 1, 255] {
            let bytes = of_cranes(random, &[crane; 32]);
            for threshold in [1, 2, 32] {
                calls.catalogue(&bytes, threshold, 3, |needed| needed);
            }
        }
        for different in [2, 3, 8, 16, 31] {
            let mut cranes: Vec<u8> = (0..32).map(|d| 255 - d % different).collect();
            random.shuffle(&mut cranes);
            let bytes = of_cranes(random, &cranes);
            for threshold in [1, 2, different.into()] {
                calls.catalogue(&bytes, threshold, 4, |needed| needed);
            }
        }
    }

    /// Drawings that have much in common, as sheets of these cranes.
    pub fn of_cranes(random: &mut Random, cranes: &[u8]) -> Vec<u8> {
        let drawings = survey(random, cranes.len(), SMALL);
        let sheets = drawings.iter().zip(cranes);
        sheets.flat_map(|(d, &crane)| d.sheet(crane)).collect()
    }

    /// Examples of every kind, at thresholds that all reach and that not all do.
    pub fn examples(calls: &mut Calls, random: &mut Random) {
        for survey in examples::surveys(random) {
            for threshold in [1, 2] {
                calls.catalogue(&survey, threshold, 8, |needed| needed + 1);
            }
        }
    }

    /// Surveys from before drawings had cranes. As they stand each is refused; converted, drawing d as crane d, they have the catalogues that they
    /// had, of drawings counted one by one.
    pub fn old(calls: &mut Calls, random: &mut Random, times: usize) {
        for _ in 0..times {
            let drawings = random.between(1, 12);
            let drawings = survey(random, drawings, SMALL);
            let threshold = random.between(1, drawings.len()) as u32;
            let limit = random.between(1, 6) as u32;
            calls.old_catalogue(&drawings, threshold, limit);
        }
        for drawings in 1..=32 {
            let drawings = survey(random, drawings, SMALL);
            let records = drawings.iter().map(Drawing::record);
            let old: Vec<u8> = records
                .flat_map(|r| r[..cranes::OLD_RECORD].to_vec())
                .collect();
            calls.catalogue(&old, 1, 4, |needed| needed);
        }
    }

    /// Settings out of range, lengths out of range, and drawings with faults, at any place of the survey.
    pub fn damaged(calls: &mut Calls, random: &mut Random, times: usize) {
        for _ in 0..times {
            let drawings = *random.pick(&[0, 1, 2, 3, 32, 33]);
            let mut bytes: Vec<u8> = (0..drawings).flat_map(|_| record(random)).collect();
            if random.once_in(10) {
                bytes.push(0);
            }
            let threshold = *random.pick(&[0, 1, 2, 32, 33, u32::MAX, 2, 2, 3, 3]);
            let limit = *random.pick(&[0, 1, 2, 3, 9, u32::MAX, 2, 2, 3, 3]);
            calls.catalogue(&bytes, threshold, limit, |needed| needed);
        }
    }

    /// A drawing's record, now and then with faults, but of the right length.
    pub fn record(random: &mut Random) -> Vec<u8> {
        let drawing = small(random);
        let mut record = match random.below(12) {
            0 => generate::damaged_record(random, &drawing),
            1 if random.once_in(4) => generate::apart(random),
            _ => sheet(random, &drawing),
        };
        record.resize(RECORD, 0);
        record
    }
}

mod checks {
    use super::*;

    /// No survey has more entries.
    const MOST_ENTRIES: usize = 8_446_368;

    /// Surveys that are accepted, with the right list and with lists that are wrong in every way; then for the settings that have a name.
    pub fn accepted(
        calls: &mut Calls,
        random: &mut Random,
        times: usize,
        shape: Shape,
        most_drawings: usize,
    ) {
        for _ in 0..times {
            let drawings = random.between(1, most_drawings);
            let survey = surveys::survey(random, drawings, shape);
            let survey = generate::survey(random, &survey);
            let threshold = random.between(1, drawings + 1).min(32) as u32;
            let limit = random.between(1, 8) as u32;
            for settings in [[threshold, limit], USUAL, FORMER] {
                calls.check_lists(&survey, settings, |right| lists::spoiled(random, right));
            }
        }
    }

    /// Drawings whose cranes repeat: the right list, and the one of the same drawings with each its own crane.
    pub fn repeated_cranes(calls: &mut Calls, random: &mut Random) {
        for cranes in [
            &[3, 9, 3][..],
            &[9, 3, 3],
            &[0, 5, 0, 5],
            &[0, 255, 255, 0, 255],
            &[200, 0, 199, 200, 198, 0, 197],
            &[7, 7, 7],
            &[7; 32],
        ] {
            let survey = surveys::of_cranes(random, cranes);
            let sheets = survey.chunks(RECORD).zip(0..);
            let own: Vec<u8> = sheets
                .flat_map(|(d, crane)| [&d[..RECORD - 1], &[crane]].concat())
                .collect();
            for settings in [[1, 3], USUAL, FORMER, [3, 4]] {
                let by_drawings = calls.list_of(&own, settings).expect("accepted");
                calls.check_lists(&survey, settings, |right| vec![right.to_vec(), by_drawings]);
            }
        }
    }

    /// The lists of other settings, of the survey without its last drawing, and of another survey: some of them are equal.
    pub fn of_others(calls: &mut Calls, random: &mut Random, times: usize) {
        for _ in 0..times {
            let drawings = random.between(2, 8);
            let [survey, other] = [0, 1].map(|_| {
                let survey = surveys::survey(random, drawings, SMALL);
                generate::survey(random, &survey)
            });
            for [s, limit] in [USUAL, FORMER, [random.between(1, 4) as u32, 3]] {
                let lists = [
                    calls.list_of(&survey, [s + 1, limit]),
                    calls.list_of(&survey, [s - 1, limit]),
                    calls.list_of(&survey, [s, limit + 1]),
                    calls.list_of(&survey, [s, limit - 1]),
                    calls.list_of(&survey[..(drawings - 1) * RECORD], [s, limit]),
                    calls.list_of(&other, [s, limit]),
                ];
                let lists = lists.into_iter().flatten().collect();
                calls.check_lists(&survey, [s, limit], |_| lists);
            }
        }
    }

    /// The lists of both settings that have a name, each beside either of them, and what the library writes at these: of paths and rings on two
    /// cranes, which have a pattern for each number of cables up to theirs, and of drawings that have much in common.
    pub fn of_named_settings(calls: &mut Calls, random: &mut Random, times: usize) {
        let path = |cables: usize| (0..cables).map(|v| (v, v + 1)).collect();
        let ring = |cables: usize| (0..cables).map(|v| (v, (v + 1) % cables)).collect();
        let paths = (1..=9).map(path);
        let pairs: Vec<Vec<(usize, usize)>> = paths.chain((3..=10).map(ring)).collect();
        let twice =
            |pairs: &Vec<_>| each_its_crane(&[generate::plain(pairs), generate::plain(pairs)]);
        let mut all: Vec<Vec<u8>> = pairs.iter().map(twice).collect();
        for shape in [SMALL, PLAIN].repeat(times) {
            let drawings = random.between(2, 8);
            let survey = surveys::survey(random, drawings, shape);
            all.push(generate::survey(random, &survey));
        }
        for survey in &all {
            let lists = [USUAL, FORMER].map(|settings| calls.list_of(survey, settings));
            let lists: Vec<Vec<u8>> = lists.into_iter().flatten().collect();
            for [threshold, limit] in [USUAL, FORMER] {
                calls.check_lists(survey, [threshold, limit], |_| lists.clone());
                calls.catalogue(survey, threshold, limit, |needed| needed);
            }
        }
    }

    /// Lists that are right but for their examples, which are by other rules.
    pub fn of_other_examples(calls: &mut Calls, random: &mut Random, times: usize) {
        let mut all = examples::surveys(random);
        for shape in [SMALL, PLAIN].repeat(times) {
            let drawings = random.between(2, 8);
            let survey = surveys::survey(random, drawings, shape);
            all.push(generate::survey(random, &survey));
        }
        for survey in &all {
            for settings in [[1, 3], USUAL, FORMER] {
                let lists = rules::with_wrong_examples(survey, settings);
                calls.check_lists(survey, settings, |_| lists);
            }
        }
    }

    /// Lists from before entries had an example, of 43 patterns too, where their length is one of whole entries; the drawings in both orders.
    pub fn without_examples(calls: &mut Calls) {
        let survey = lists::of_43_patterns();
        let turned: Vec<u8> = survey.chunks(RECORD).rev().flatten().copied().collect();
        for survey in [survey, turned] {
            for part in (RECORD..=survey.len()).step_by(RECORD) {
                for settings in [[1, 8], USUAL, FORMER] {
                    calls.check_lists(&survey[..part], settings, |right| {
                        vec![right.to_vec(), rules::old_form(right)]
                    });
                }
            }
        }
    }

    /// Settings out of range, lengths out of range and drawings with faults, beside lists of any length.
    pub fn damaged(calls: &mut Calls, random: &mut Random, times: usize) {
        for _ in 0..times {
            let drawings = *random.pick(&[0, 1, 2, 3, 32, 33]);
            let mut survey: Vec<u8> = (0..drawings)
                .flat_map(|_| surveys::record(random))
                .collect();
            match random.below(10) {
                0 => survey.push(0),
                1 => survey.truncate(drawings * cranes::OLD_RECORD),
                _ => {}
            }
            let threshold = *random.pick(&[0, 1, 2, 3, 32, 33, u32::MAX]);
            let limit = *random.pick(&[0, 1, 2, 3, 9, u32::MAX]);
            let no_entry = random.between(1, ENTRY - 1);
            let lists = vec![random.bytes(no_entry), Vec::new(), random.bytes(ENTRY)];
            for settings in [[threshold, limit], USUAL, FORMER] {
                calls.check_lists(&survey, settings, |_| lists.clone());
            }
        }
    }

    /// As many drawings as there may be, all alike; entries of eight cables; more entries than anyone reads, wrong in the last one alone; lists
    /// longer than any catalogue, with the right one in front and for a survey in which nothing is frequent.
    pub fn largest(calls: &mut Calls, random: &mut Random) {
        let alike = vec![generate::drawing_of(random, 7, 8, 2); 32];
        let alike = each_its_crane(&alike);
        calls.check_lists(&alike, [32, 8], |right| lists::spoiled(random, right));

        let many: Vec<Drawing> = (0..32)
            .map(|_| generate::drawing_of(random, 10, 20, 16))
            .collect();
        calls.check_lists(&each_its_crane(&many), [1, 4], |right| {
            assert!(20_000 * ENTRY < right.len());
            let mut last = right.to_vec();
            *last.last_mut().expect("an entry") ^= 1;
            let (front, end) = right.split_at(right.len() - ENTRY);
            vec![right.to_vec(), last, front.to_vec(), [right, end].concat()]
        });

        let longest = (MOST_ENTRIES + 1) * ENTRY;
        for settings in [[1, 2], USUAL, FORMER] {
            calls.check_lists(&alike[..RECORD], settings, |right| {
                let mut list = vec![0; longest];
                list[..right.len()].copy_from_slice(right);
                vec![list]
            });
        }
    }
}

mod books {
    use super::*;

    /// Permitted, and out of range by a little, by a lot, and where only the low bits are looked at.
    const NUMBERS: [u32; 11] = [1, 2, 3, 0, 4, 5, 255, 256, 257, 65_537, u32::MAX];

    fn settings(numbers: &[u32]) -> Vec<[u32; 3]> {
        let pairs = numbers
            .iter()
            .flat_map(|&a| numbers.iter().map(move |&b| (a, b)));
        let with_limit = |(a, b)| numbers.iter().map(move |&limit| [a, b, limit]);
        pairs.flat_map(with_limit).collect()
    }

    /// All there are: with just enough bytes, with more, one byte short, an entry short, and with none.
    pub fn accepted(calls: &mut Calls) {
        for settings in settings(&NUMBERS[..3]) {
            calls.book(settings, |needed| {
                vec![
                    needed,
                    needed + 1,
                    needed + 50,
                    needed - 1,
                    needed - ENTRY,
                    0,
                ]
            });
        }
    }

    /// One setting out of range, two, and all three, with any room.
    pub fn refused(calls: &mut Calls) {
        for settings in settings(&NUMBERS) {
            if settings.iter().any(|number| !(1..=3).contains(number)) {
                calls.book(settings, |_| vec![0, 1, ENTRY - 1, ENTRY, 5 * ENTRY]);
            }
        }
    }
}

const OF_A_DRAWING: &[u8] = &[1, 2, 3, 4, 5, 6, 7, 8];
const OF_A_CODE: &[u8] = &[9, 10, 11];
const OF_THE_OUTPUT: &[u8] = &[15];

/// Every outcome of every call.
fn outcomes() -> Vec<(&'static str, String)> {
    let mut outcomes = Vec::new();
    let mut answers = |call: &'static str, answers: &[&str]| {
        outcomes.extend(answers.iter().map(|answer| (call, answer.to_string())));
    };
    answers("code", &["written"]);
    answers("decode", &["written"]);
    answers("is_least", &["yes", "no"]);
    answers("compare", &["equal", "before", "after"]);
    answers("match", &["map", "not contained"]);
    answers("same", &["yes", "no"]);
    answers("catalogue", &["entries", "no entry"]);
    answers("book", &["entries"]);
    for call in CHECKS {
        answers(call, &["yes", "no"]);
    }

    let mut refusals = |call: &'static str, numbers: &[u8], whose: &str| {
        outcomes.extend(numbers.iter().map(|&number| (call, refused(number, whose))));
    };
    refusals("code", OF_A_DRAWING, FIRST);
    refusals("code", OF_THE_OUTPUT, FIRST);
    refusals("decode", OF_A_CODE, FIRST);
    refusals("decode", OF_THE_OUTPUT, FIRST);
    refusals("is_least", OF_A_CODE, FIRST);
    for whose in [FIRST, SECOND] {
        refusals("compare", OF_A_CODE, whose);
        refusals("match", OF_A_DRAWING, whose);
        refusals("same", OF_A_DRAWING, whose);
    }
    refusals("match", OF_THE_OUTPUT, FIRST);
    {
        refusals("catalogue", OF_A_DRAWING, FIRST);
        refusals("catalogue", &OF_A_DRAWING[1..], LATER);
        refusals("catalogue", &[12, 13, 14], FIRST);
        refusals("catalogue", OF_THE_OUTPUT, FIRST);
    }
    refusals("book", &[16, 17], FIRST);
    refusals("book", OF_THE_OUTPUT, FIRST);
    for call in CHECKS {
        refusals(call, OF_A_DRAWING, FIRST);
        refusals(call, &OF_A_DRAWING[1..], LATER);
        refusals(call, &[14, 18], FIRST);
    }
    refusals("check_list", &[12, 13], FIRST);
    outcomes.extend(lone_outcomes());
    outcomes
}

/// Those that lone devices bring, and what is refused near them: 3 where the counts do not go together, 10 and 11 of record 0, 0.
fn lone_outcomes() -> Vec<(&'static str, String)> {
    let mut outcomes = Vec::new();
    let mut answers = |call: &'static str, answers: &[&str], near: &str| {
        outcomes.extend(answers.iter().map(|said| (call, format!("{said}{near}"))));
    };
    answers("code", &["written"], lone::LONE);
    answers("decode", &["written"], lone::LONE);
    answers("is_least", &["yes"], lone::LONE);
    answers("compare", &["equal", "before", "after"], lone::BOTH_LONE);
    answers("compare", &["before"], lone::FIRST_LONE);
    answers("compare", &["after"], lone::SECOND_LONE);
    answers("match", &["map", "not contained"], lone::BOTH_LONE);
    answers("match", &["map", "not contained"], lone::FIRST_LONE);
    answers("match", &["not contained"], lone::SECOND_LONE);
    answers("same", &["yes", "no"], lone::BOTH_LONE);
    answers("same", &["no"], lone::FIRST_LONE);
    answers("same", &["no"], lone::SECOND_LONE);
    answers("catalogue", &["entries", "no entry"], lone::SOME_LONE);
    answers("catalogue", &["no entry"], lone::ALL_LONE);
    for call in CHECKS {
        answers(call, &["yes", "no"], lone::SOME_LONE);
        answers(call, &["yes", "no"], lone::ALL_LONE);
    }

    let mut refusals = |call: &'static str, number: u8, whose: &str, near: &str| {
        outcomes.push((call, refused(number, whose) + near));
    };
    let of_surveys = CHECKS.iter().chain(&["catalogue"]);
    let of_surveys = of_surveys.flat_map(|call| [(*call, FIRST), (*call, LATER)]);
    let of_drawings = [
        ("code", FIRST),
        ("match", FIRST),
        ("match", SECOND),
        ("same", FIRST),
        ("same", SECOND),
    ];
    for (call, whose) in of_surveys.chain(of_drawings) {
        refusals(call, 3, whose, lone::CABLES);
        refusals(call, 3, whose, lone::NO_CABLE);
        refusals(call, 7, whose, lone::LONE);
    }
    for (call, whose) in [
        ("decode", FIRST),
        ("is_least", FIRST),
        ("compare", FIRST),
        ("compare", SECOND),
    ] {
        refusals(call, 10, whose, lone::LONE);
        refusals(call, 11, whose, lone::LONE);
        refusals(call, 10, whose, lone::IN_FRONT);
        refusals(call, 10, whose, lone::BEHIND);
    }
    for call in ["code", "decode", "match"] {
        refusals(call, 15, FIRST, lone::LONE);
    }
    refusals("catalogue", 15, FIRST, lone::SOME_LONE);
    for call in CHECKS {
        refusals(call, 18, FIRST, lone::SOME_LONE);
        refusals(call, 18, FIRST, lone::ALL_LONE);
    }
    outcomes
}

/// What is answered beside cranes of every kind.
fn crane_outcomes() -> Vec<(&'static str, String)> {
    let mut outcomes = Vec::new();
    let mut answers = |call: &'static str, answers: &[&str], cranes: &[&str]| {
        for said in answers {
            outcomes.extend(cranes.iter().map(|near| (call, format!("{said}{near}"))));
        }
    };
    let of_a_drawing = [cranes::CRANE_0, cranes::CRANE_BETWEEN, cranes::CRANE_255];
    let of_a_survey = [
        cranes::EACH_ITS_OWN,
        cranes::ONE_CRANE,
        cranes::SIDE_BY_SIDE,
        cranes::SCATTERED,
        cranes::AMONG_OTHERS,
        cranes::GREATEST,
    ];
    answers("code", &["written"], &of_a_drawing);
    answers("decode", &["written"], &[cranes::OVERWRITTEN]);
    answers("decode", &[&refused(15, FIRST)], &[cranes::SHORT_OF_CRANE]);
    for (call, said) in [("match", ["map", "not contained"]), ("same", ["yes", "no"])] {
        answers(call, &said, &[cranes::ALIKE, cranes::DIFFER]);
        for whose in [FIRST, SECOND] {
            answers(call, &[&refused(1, whose)], &[cranes::OLD]);
        }
    }
    answers("catalogue", &["entries", "no entry"], &of_a_survey);
    answers("catalogue", &["no entry"], &[cranes::TOO_FEW]);
    for call in CHECKS {
        answers(call, &["yes", "no"], &of_a_survey);
        answers(call, &["yes", "no"], &[cranes::TOO_FEW]);
    }
    for call in CHECKS.into_iter().chain(["code", "catalogue"]) {
        answers(call, &[&refused(1, FIRST)], &[cranes::OLD]);
    }
    outcomes
}

/// What is answered beside lists of every kind.
fn list_outcomes() -> Vec<(&'static str, String)> {
    let mut outcomes = Vec::new();
    for call in CHECKS {
        for (said, told) in lists::ANSWERS {
            outcomes.extend(told.iter().map(|near| (call, format!("{said}{near}"))));
        }
        let refused = |near: &&str| (call, refused(18, FIRST) + near);
        outcomes.extend(lists::REFUSED.iter().map(refused));
        // Of 43 entries, whose length without examples is that of 42.
        outcomes.push((call, format!("no{}", lists::OLD_FORM)));
    }
    for &(call, said, told) in lists::NAMED_ANSWERS {
        outcomes.extend(told.iter().map(|near| (call, format!("{said}{near}"))));
    }
    outcomes
}

/// What is answered beside agreements of every kind.
fn agreement_outcomes() -> Vec<(&'static str, String)> {
    let mut outcomes = Vec::new();
    for &(call, said, told) in agreement::ANSWERS {
        let told = told.iter().copied().flatten();
        outcomes.extend(told.map(|near| (call, format!("{said}{near}"))));
    }
    outcomes
}

/// What is answered beside examples of every kind. A book has example 0 alone.
fn example_outcomes() -> Vec<(&'static str, String)> {
    let answered = |call, kind| (call, format!("entries{kind}"));
    let of_catalogues = examples::kinds().map(|kind| answered("catalogue", kind));
    of_catalogues
        .chain([answered("book", examples::OVER)])
        .collect()
}

/// What the library wrote at each limit, held against what it wrote at each greater one, whatever the threshold; and the former against the usual.
fn limit_outcomes() -> Vec<(&'static str, String)> {
    let lesser = |greater: u32| (1..greater).map(move |lesser| ([1, lesser], [1, greater]));
    let pairs = (1..=8).flat_map(lesser).chain([(FORMER, USUAL)]);
    let told =
        |(lesser, greater)| [LEFT_OUT, ALL_KEPT].map(|told| of_limits(lesser, greater, told));
    let outcomes = pairs.flat_map(told);
    outcomes.map(|outcome| ("limits", outcome)).collect()
}

/// Prints how often each outcome was seen, and gives the number of all.
fn print_seen(seen: &Seen) -> usize {
    for ((call, outcome), times) in seen {
        println!("{call:11} {outcome:58} {times:7}");
    }
    seen.values().sum()
}

/// Prints how often each outcome occurred, and each beside cranes, a list, an agreement or examples of which there is something to tell, and at two
/// limits; the ones that did not occur often enough.
fn report(calls: &Calls) -> Vec<(&'static str, String)> {
    let total = print_seen(calls.seen());
    println!("of these beside cranes:");
    print_seen(calls.seen_beside_cranes());
    println!("of these beside lists:");
    print_seen(calls.seen_beside_lists());
    println!("of these beside agreements:");
    print_seen(calls.seen_beside_agreements());
    println!("of these beside examples:");
    print_seen(calls.seen_beside_examples());
    println!("what the library wrote at a limit, of what it wrote at a greater one:");
    let limits = print_seen(calls.seen_limits());
    println!("{total} calls, each as expected");
    let written = calls.written_checked();
    println!("{written} checks of what the library had written, each yes");
    println!("{limits} comparisons of what it had written at two limits, each time the lesser a part of the greater");
    let mut missing = Vec::new();
    for (seen, wanted) in [
        (calls.seen(), outcomes()),
        (calls.seen_beside_cranes(), crane_outcomes()),
        (calls.seen_beside_lists(), list_outcomes()),
        (calls.seen_beside_agreements(), agreement_outcomes()),
        (calls.seen_beside_examples(), example_outcomes()),
        (calls.seen_limits(), limit_outcomes()),
    ] {
        let rare = |outcome: &_| seen.get(outcome).copied().unwrap_or(0) < TIMES;
        missing.extend(wanted.into_iter().filter(rare));
    }
    missing
}

/// All inputs that come from one seed.
fn run(calls: &mut Calls, seed: u64) {
    let random = &mut Random::new(seed);
    let any: Vec<Drawing> = (0..1500)
        .map(|_| {
            let shape = any_shape(random);
            generate::drawing(random, shape)
        })
        .collect();
    accepted_drawings(calls, random, &any);
    accepted_drawings(calls, random, &generate::symmetric());
    damaged_drawings(calls, random, 2500);
    joined_twice(calls, random);
    codes(calls, random, 1200);
    matches(calls, random, 1200);
    symmetric_matches(calls, random, &generate::symmetric());
    largest(calls, random, 8);
    surveys::accepted(calls, random, 200, SMALL, 12);
    surveys::accepted(calls, random, 100, PLAIN, 12);
    surveys::accepted(calls, random, 20, MIDDLE, 32);
    surveys::accepted(calls, random, 20, LONE, 32);
    surveys::damaged(calls, random, 3000);
    surveys::largest(calls, random);
    surveys::label_counts(calls, random);
    surveys::repeated_cranes(calls, random);
    surveys::examples(calls, random);
    surveys::old(calls, random, 100);
    checks::accepted(calls, random, 100, SMALL, 8);
    checks::accepted(calls, random, 40, PLAIN, 8);
    checks::accepted(calls, random, 20, LONE, 8);
    checks::repeated_cranes(calls, random);
    checks::of_others(calls, random, 40);
    checks::of_named_settings(calls, random, 20);
    checks::of_other_examples(calls, random, 20);
    checks::damaged(calls, random, 1500);
    checks::largest(calls, random);
    let drawings = with_cables(random);
    agreements(calls, random, &drawings);
}

fn main() -> ExitCode {
    let given: Vec<u64> = std::env::args()
        .skip(1)
        .map(|seed| seed.parse().expect("a number"))
        .collect();
    let seeds = if given.is_empty() { &SEEDS } else { &given[..] };
    let mut calls = Calls::new(!seeds[0]);
    for &seed in seeds {
        run(&mut calls, seed);
    }
    for record in pairs::every_two_pairs() {
        calls.code(&record, 0);
    }
    checks::without_examples(&mut calls);
    books::accepted(&mut calls);
    books::refused(&mut calls);
    every_small_code(&mut calls);

    let missing = report(&calls);
    let unnoticed = calls.unnoticed();
    println!(
        "{} of {} spoiled libraries noticed",
        SHIMS.len() - unnoticed.len(),
        SHIMS.len()
    );
    if missing.is_empty() && unnoticed.is_empty() {
        return ExitCode::SUCCESS;
    }
    println!("too rare: {missing:?}; not noticed: {unnoticed:?}");
    ExitCode::FAILURE
}
