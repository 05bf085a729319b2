//! As large as drawings and surveys get: ten devices and twenty cables, kinds up to 255, thirty-two drawings.
use super::checks::Asked;
use super::{Call, List};
use crate::catalogue::{each_its_crane, ENTRY};
use crate::code;
use crate::drawing::{Cable, Drawing, RECORD};
use crate::generate::{self, plain, Shape};
use crate::random::Random;

const SEED: u64 = 32;

/// A ring of ten devices, each joined too to the one so many places on, with kinds by their numbers.
fn ring(
    step: usize,
    kind: impl Fn(usize) -> u8,
    cable_kind: impl Fn(usize, usize) -> u8,
) -> Drawing {
    let pairs = (0..10).flat_map(|a| [(a, (a + 1) % 10), (a, (a + step) % 10)]);
    Drawing {
        kinds: (0..10).map(kind).collect(),
        cables: pairs
            .map(|(a, b)| Cable {
                a,
                b,
                kind: cable_kind(a, b),
            })
            .collect(),
    }
}

fn put_drawing(list: &mut List, random: &mut Random, name: &str, drawing: &Drawing) {
    let record = drawing.record();
    let other = generate::redrawn(random, drawing);
    let least = code::bytes(&code::least(drawing));
    list.put(name, Call::CheckDrawing(&record));
    list.put_code(name, &record, &least);
    list.put_code(&format!("{name}, drawn otherwise"), &other.record(), &least);
    list.put(
        &format!("{name}, 99 bytes lent"),
        Call::CodeDrawing(&record, 99),
    );
    list.put_least(name, &least);
    let any = code::bytes(&generate::any_code(random, drawing));
    list.put(&format!("{name}, some code"), Call::IsLeast(&any));
    list.put(&format!("{name}, some code"), Call::Compare(&least, &any));
    list.put_same(
        &format!("{name}, drawn otherwise"),
        &record,
        &other.record(),
        true,
    );
    list.put(
        &format!("{name}, drawn otherwise"),
        Call::MatchDrawing(&record, &other.record(), 10),
    );
    let part = generate::part(random, drawing);
    let part = generate::redrawn(random, &part);
    list.put(
        &format!("{name}, a part"),
        Call::MatchDrawing(&part.record(), &record, 12),
    );
    let mut near = other.clone();
    near.cables[19].kind ^= 1;
    list.put_same(
        &format!("{name}, another cable kind"),
        &record,
        &near.record(),
        false,
    );
    list.put(
        &format!("{name}, another cable kind"),
        Call::MatchDrawing(&near.record(), &record, 12),
    );
}

/// Drawings that have much in common: each is one before it, changed a little and drawn otherwise.
fn survey(random: &mut Random, first: Drawing, drawings: usize) -> Vec<u8> {
    let mut survey = vec![first];
    while survey.len() < drawings {
        let last = random.pick(&survey).clone();
        let next = generate::neighbour(random, &last);
        survey.push(generate::redrawn(random, &next));
    }
    each_its_crane(&survey)
}

pub fn put(list: &mut List) {
    let random = &mut Random::new(SEED);
    let one_kind = ring(2, |_| 1, |_, _| 5);
    let some_kinds = ring(4, |d| (d % 3) as u8, |a, b| ((a + b) % 2) as u8);
    let high_kinds = ring(3, |d| [255, 0, 254][d % 3], |a, b| [255, 0][(a * b) % 2]);
    put_drawing(list, random, "one kind", &one_kind);
    put_drawing(list, random, "some kinds", &some_kinds);
    put_drawing(list, random, "kinds up to 255", &high_kinds);

    put_ten_devices(list, random, &[one_kind, some_kinds, high_kinds]);
    put_thirty_two(list, random);
    put_many_embeddings(list, random);
}

fn asked(survey: &[u8], threshold: u16, limit: u16) -> Asked<'_> {
    Asked {
        survey,
        threshold,
        limit,
    }
}

fn put_ten_devices(list: &mut List, random: &mut Random, drawings: &[Drawing]) {
    let all = each_its_crane(drawings);
    list.put_catalogue("ten devices, s 1, L 2", &asked(&all, 1, 2));
    list.put_catalogue("one kind, s 1, L 6", &asked(&all[..RECORD], 1, 6));
    let near = survey(random, drawings[1].clone(), 4);
    list.put_catalogue("ten devices that are near, s 4, L 3", &asked(&near, 4, 3));
}

/// Of one kind: patterns have more embeddings in these drawings than there is room to list.
fn put_many_embeddings(list: &mut List, random: &mut Random) {
    let drawings = (0..32).map(|d| generate::drawing_of(random, 10, 9 + d % 6, 1));
    let survey = each_its_crane(&drawings.collect::<Vec<_>>());
    list.put_catalogue("many embeddings, s 2, L 4", &asked(&survey, 2, 4));
}

fn put_thirty_two(list: &mut List, random: &mut Random) {
    let d3 = plain(&[(0, 1), (1, 2)]);
    let d3: Vec<u8> = (224..=255)
        .rev()
        .flat_map(|crane| d3.sheet(crane))
        .collect();
    let greatest = list.put_catalogue("thirty-two times D3, s 32, L 8", &asked(&d3, 32, 8));
    assert_eq!(greatest, 2);
    let shape = Shape {
        devices: (7, 7),
        most_cables: 10,
        kinds: 2,
    };
    let first = generate::drawing(random, shape);
    let survey = survey(random, first, 32);
    list.put("thirty-two", Call::CheckSurvey(&survey));
    list.put_fetches("thirty-two", &survey, [31, 32, 0]);
    list.put_catalogue("thirty-two, s 2, L 3", &asked(&survey, 2, 3));
    list.put_catalogue("thirty-two, s 16, L 8", &asked(&survey, 16, 8));
    list.put("thirty-two", Call::UsualCatalogue(&survey, ENTRY));
}
