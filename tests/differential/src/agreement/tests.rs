//! The separate code for agreements by itself: held against bytes, and against all codes of a drawing.
use super::*;
use crate::answers;
use crate::generate::{self, Shape};
use crate::random::Random;
use std::collections::BTreeSet;

/// Few kinds, so that codes agree in many records.
const SHAPE: Shape = Shape {
    devices: (2, 6),
    most_cables: 9,
    kinds: 2,
};

/// The whole records in the bytes that both begin with.
fn by_bytes(first: &[u8], second: &[u8]) -> usize {
    let alike = first.iter().zip(second).take_while(|(a, b)| a == b);
    alike.count() / code::RECORD
}

const D3: &[u8] = &[0, 1, 1, 5, 1, 1, 2, 1, 5, 1];
const D4: &[u8] = &[0, 1, 1, 5, 1, 1, 2, 1, 5, 1, 2, 0, 1, 5, 1];
const D8: &[u8] = &[0, 1, 1, 5, 1, 0, 2, 1, 5, 1];
const D1: &[u8] = &[0, 1, 1, 7, 2];
const LONE_7: &[u8] = &[0, 0, 7, 0, 7];
const LONE_8: &[u8] = &[0, 0, 8, 0, 8];

#[test]
fn counts_of_compare() {
    for (first, second, count) in [
        (D3, D3, 2 * 256),
        (D3, D8, 256 + 1),
        (D8, D3, 256 + 2),
        (D3, D4, 2 * 256 + 1),
        (D4, D3, 2 * 256 + 2),
        (D3, D1, 1),
        (D1, D3, 2),
        (LONE_7, LONE_7, 256),
        (LONE_7, LONE_8, 1),
        (LONE_8, LONE_7, 2),
        (LONE_8, D3, 1),
        (D3, LONE_8, 2),
    ] {
        let answer = answers::compare(first, second);
        assert_eq!((answer.refused.number, answer.count), (0, count));
        assert_eq!(answer.returned(), count as u64);
    }
    for (first, second, number) in [(&D3[..9], D3, 9), (D3, &D3[5..], 10)] {
        let answer = answers::compare(first, second);
        assert_eq!(answer.returned(), number << 32);
    }
}

#[test]
fn counts_of_is_least() {
    for (code, count) in [
        (D1, 256 + 1),
        (D3, 2 * 256 + 1),
        (D4, 3 * 256 + 1),
        (D8, 256),
        (&[0, 1, 2, 7, 1], 0),
        (LONE_7, 256 + 1),
    ] {
        let answer = answers::is_least(code);
        assert_eq!((answer.refused.number, answer.count), (0, count));
    }
    assert_eq!(answers::is_least(&D3[..9]).returned(), 9 << 32);
    assert_eq!(answers::is_least(&D3[5..]).returned(), 10 << 32);
}

/// Two ways to count, the order in which codes are given, and equality.
#[test]
fn agreement_by_bytes() {
    let random = &mut Random::new(7);
    let (mut none, mut some, mut all) = (0, 0, 0);
    for _ in 0..2000 {
        let drawing = generate::drawing(random, SHAPE);
        let first = generate::any_code(random, &drawing);
        let second = match random.below(3) {
            0 => generate::any_code(random, &drawing),
            1 => generate::other_cable_kind(random, &first),
            _ => first[..random.between(1, first.len())].to_vec(),
        };
        let agreement = of(&first, &second);
        let bytes = [&first, &second].map(|code| code::bytes(code));
        assert_eq!(agreement, by_bytes(&bytes[0], &bytes[1]));
        assert_eq!(agreement, of(&second, &first));
        let longer = first.len().max(second.len());
        assert_eq!(agreement == longer, first == second);
        match agreement {
            0 => none += 1,
            _ if agreement == longer => all += 1,
            _ => some += 1,
        }
    }
    assert!(none > 100 && some > 100 && all > 100);
}

/// Of all codes before it the least agrees with a code in the fewest records, so that whichever other one is looked at tells no fewer; and the least
/// is the only one that agrees with itself in all.
#[test]
fn the_least_agrees_in_the_fewest() {
    let random = &mut Random::new(77);
    let mut longer = 0;
    for _ in 0..200 {
        let drawing = generate::drawing(random, SHAPE);
        let least = code::least(&drawing);
        for code in generate::codes_by_agreement(random, &drawing) {
            let agreement = of(&code, &least);
            assert_eq!(agreement == code.len(), code == least);
            code::for_each_code(&drawing, &mut |other| {
                if code::order(&other, &code) == Ordering::Less {
                    assert!(of(&code, &other) >= agreement);
                }
            });
            longer += usize::from(longest_before(&code, &drawing) > agreement);
        }
    }
    assert!(longer > 100, "{longer}");
}

/// One code for each agreement, none twice, the least among them.
#[test]
fn codes_for_each_agreement() {
    let random = &mut Random::new(777);
    let clique = generate::near_clique();
    let least = code::least(&clique);
    let codes = generate::codes_by_agreement(random, &clique);
    let agreements: Vec<usize> = codes.iter().map(|code| of(code, &least)).collect();
    assert!(agreements.is_sorted_by(|a, b| a < b));
    assert_eq!(agreements[agreements.len() - 2..], [19, 20]);
    for code in &codes {
        assert!(code::read(&code::bytes(code)).is_ok());
    }
}

/// Of few records, counted by the steps that a depth-first walk may take: from each device on the path forward, and back where no record was yet.
#[test]
fn every_small_code() {
    let mut numbers = [0; 5];
    for code in generate::every_code(4, &[5]) {
        numbers[code.len()] += 1;
    }
    assert_eq!(numbers, [0, 1, 2, 6, 21]);
    assert_eq!(generate::every_code(2, &[5, 6]).len(), 2 + 2 * 4);
}

/// The triangle with two tails, told from one of them: its own start has a code before it that parts from it after four records, the least of all
/// parts after two.
#[test]
fn another_start_parts_earlier() {
    let pairs = [(0, 1), (1, 2), (2, 3), (3, 1), (2, 4)];
    let record = |(i, j)| [i, j, 1, 5, 1];
    let code = code::read(&pairs.map(record).concat()).expect("a code");
    let drawing = code::described(&code);
    assert_eq!(of(&code, &code::least_from(&drawing, 0)), 4);
    assert_eq!(of(&code, &code::least(&drawing)), 2);
    assert_eq!(longest_before(&code, &drawing), 4);
    let told = of_one(&code);
    assert_eq!(told, [SEVERAL, PARTING[1], OWN_LONGER, SOME_LONGER]);
}

/// Whatever is told of codes stands in the table, and all that stands there is told of some.
#[test]
fn every_way_is_told() {
    let random = &mut Random::new(7777);
    let mut drawings = vec![generate::near_clique()];
    drawings.extend((0..150).map(|_| generate::drawing(random, SHAPE)));
    let mut seen = BTreeSet::new();
    for drawing in &drawings {
        let least = code::bytes(&code::least(drawing));
        for code in generate::codes_by_agreement(random, drawing) {
            let kind = generate::other_cable_kind(random, &code);
            let begin = code[..random.between(1, code.len())].to_vec();
            let [code, kind, begin] = [code, kind, begin].map(|code| code::bytes(&code));
            let mut see = |call, first: &[u8], second: &[u8], answer: Answer| {
                let given = Given {
                    call,
                    first,
                    second,
                    settings: &[],
                };
                let told = told(&given, &answer);
                seen.extend(told.into_iter().map(|told| (call, answer.said, told)));
            };
            see("is_least", &code, &[], answers::is_least(&code));
            for second in [&least, &kind, &begin] {
                see("compare", &code, second, answers::compare(&code, second));
                see("compare", second, &code, answers::compare(second, &code));
            }
        }
    }
    let all: BTreeSet<_> = ANSWERS
        .iter()
        .flat_map(|&(call, said, told)| {
            let told = told.iter().copied().flatten();
            told.map(move |&told| (call, said, told))
        })
        .collect();
    assert_eq!(seen, all);
}
