//! The book's separate code by itself: its numbers of entries counted a second way, its codes, and the table of docs/BOOK.md.
use super::*;
use crate::catalogue::Codes;
use crate::code::Code;
use crate::map;
use std::cmp::Ordering;

/// A pattern of at most 3 cables is one of these.
#[derive(Clone, Copy, Debug, PartialEq, Eq)]
enum Shape {
    Cable,
    TwoCables,
    Star,
    Path,
    Triangle,
}

const SHAPES: [Shape; 5] = [
    Shape::Cable,
    Shape::TwoCables,
    Shape::Star,
    Shape::Path,
    Shape::Triangle,
];

fn shape(pattern: &Drawing) -> Shape {
    let ends = |device: usize| {
        let at = |cable: &&Cable| cable.has_end(device);
        pattern.cables.iter().filter(at).count()
    };
    let most = (0..pattern.devices()).map(ends).max();
    match (pattern.cables.len(), pattern.devices(), most) {
        (1, 2, _) => Shape::Cable,
        (2, 3, _) => Shape::TwoCables,
        (3, 3, _) => Shape::Triangle,
        (3, 4, Some(3)) => Shape::Star,
        (3, 4, Some(2)) => Shape::Path,
        _ => panic!("{pattern:?}"),
    }
}

/// Patterns of a shape by Burnside's lemma: the mean, over the maps of the shape onto itself, of the ways to give kinds that the map keeps.
fn by_formula(shape: Shape, a: usize, b: usize) -> usize {
    // A cable of a star and the device at its end are chosen together.
    let leaf = a * b;
    match shape {
        Shape::Cable => b * a * (a + 1) / 2,
        Shape::TwoCables => a * leaf * (leaf + 1) / 2,
        Shape::Star => a * leaf * (leaf + 1) * (leaf + 2) / 6,
        Shape::Path => (a.pow(4) * b.pow(3) + a.pow(2) * b.pow(2)) / 2,
        Shape::Triangle => (a.pow(3) * b.pow(3) + 3 * a.pow(2) * b.pow(2) + 2 * a * b) / 6,
    }
}

/// The shapes that have at most `limit` cables.
fn shapes(limit: usize) -> &'static [Shape] {
    &SHAPES[..[1, 2, 5][limit - 1]]
}

/// All 27.
fn settings() -> impl Iterator<Item = [usize; 3]> {
    (0..27).map(|number| [number / 9 + 1, number / 3 % 3 + 1, number % 3 + 1])
}

fn codes(a: usize, b: usize, limit: usize) -> Vec<Code> {
    let entries = entries(a as u8, b as u8, limit);
    entries.into_iter().map(|entry| entry.code).collect()
}

#[test]
fn as_many_patterns_of_each_shape_as_burnside_counts() {
    for [a, b, limit] in settings() {
        let found: Vec<Shape> = codes(a, b, limit)
            .iter()
            .map(|code| shape(&code::described(code)))
            .collect();
        for wanted in shapes(limit) {
            let count = found.iter().filter(|shape| *shape == wanted).count();
            let name = format!("{wanted:?} of {a} and {b} kinds");
            assert_eq!(count, by_formula(*wanted, a, b), "{name}");
        }
        let sum: usize = shapes(limit).iter().map(|&s| by_formula(s, a, b)).sum();
        assert_eq!(found.len(), sum, "{a} {b} {limit}");
    }
}

/// Worked out by hand.
#[test]
fn the_largest_book() {
    let counts = SHAPES.map(|shape| by_formula(shape, 3, 3));
    assert_eq!(counts, [18, 135, 495, 1134, 165]);
    assert_eq!(codes(3, 3, 3).len(), 1947);
}

/// The numbers of a line of a table, if it has nothing else.
fn numbers(line: &str) -> Option<Vec<usize>> {
    let cells = line.strip_prefix("| ")?.strip_suffix(" |")?.split(" | ");
    cells
        .map(|cell| cell.replace(',', "").parse().ok())
        .collect()
}

#[test]
fn the_table_of_the_document() {
    let document = include_str!("../../../../docs/BOOK.md");
    let stored: Vec<Vec<usize>> = document.lines().filter_map(numbers).collect();
    let counts = |number: usize| {
        let (a, b) = (number / 3 + 1, number % 3 + 1);
        let [one, two, three] = [1, 2, 3].map(|limit| codes(a, b, limit).len());
        vec![a, b, one, two, three]
    };
    assert_eq!(stored, (0..9).map(counts).collect::<Vec<_>>());
    assert!(document.contains("1,947 entries, 83,721 bytes"));
    assert_eq!(codes(3, 3, 3).len() * catalogue::ENTRY, 83_721);
}

#[test]
fn codes_rise_and_are_least() {
    for [a, b, limit] in settings() {
        let codes = codes(a, b, limit);
        assert!(codes.is_sorted_by(|one, other| code::order(one, other) == Ordering::Less));
        for code in &codes {
            assert_eq!(code::read(&code::bytes(code)).as_ref(), Ok(code));
            assert_eq!(&code::least(&code::described(code)), code);
        }
    }
}

/// A book is the part of the largest one that its settings permit.
#[test]
fn smaller_books_are_parts() {
    let largest = codes(3, 3, 3);
    for [a, b, limit] in settings() {
        let permitted = |code: &&Code| {
            let kinds = |kind: u8| usize::from(kind) < a;
            let record = |r: &code::Record| kinds(r.ki) && kinds(r.kj) && usize::from(r.c) < b;
            code.len() <= limit && code.iter().all(record)
        };
        let part: Vec<Code> = largest.iter().filter(permitted).cloned().collect();
        assert_eq!(codes(a, b, limit), part, "{a} {b} {limit}");
    }
}

/// The other code for maps tells the patterns apart, and the other code for catalogues finds no further one in them.
#[test]
fn patterns_by_the_other_ways() {
    let patterns = patterns(2, 2, 3);
    for (at, one) in patterns.iter().enumerate() {
        assert!(!patterns[..at].iter().any(|other| map::same(one, other)));
    }
    let found = Codes::default().catalogue_of_drawings(&patterns, 1, 3);
    let found: Vec<Code> = found.into_iter().map(|entry| entry.code).collect();
    assert_eq!(found, codes(2, 2, 3));
}

#[test]
fn settings_that_are_refused() {
    let refusal = |a, b, limit| of_settings(a, b, limit).err().map(|r| (r.number, r.at));
    assert_eq!(refusal(3, 3, 1), None);
    for (a, b) in [(0, 1), (1, 0), (4, 3), (3, 4), (257, 1), (1, u32::MAX)] {
        assert_eq!(refusal(a, b, 3), Some((16, 0)));
        assert_eq!(refusal(a, b, 4), Some((16, 0)));
    }
    for limit in [0, 4, 257, u32::MAX] {
        assert_eq!(refusal(1, 3, limit), Some((17, 0)));
    }
}

/// Request R-8: no survey stands behind a book.
#[test]
fn no_entry_has_support_or_example() {
    for [a, b, limit] in settings() {
        let entries = entries(a as u8, b as u8, limit);
        let bytes = catalogue::bytes(&entries);
        for entry in bytes.chunks(catalogue::ENTRY) {
            let zeros = [entry[catalogue::SUPPORT_AT], entry[catalogue::EXAMPLE_AT]];
            assert_eq!(zeros, [0, 0], "{a} {b} {limit}");
        }
    }
}

#[test]
fn texts() {
    assert_eq!(text(1, 1, 1), "0 @0 0-1:0.0.0\n1 patterns\n");
    assert_eq!(text(0, 1, 0), "refused 16\n");
    assert_eq!(text(1, 1, 0), "refused 17\n");
    assert_eq!(
        text(2, 2, 2),
        include_str!("../../../../crates/book/stdout")
    );
}
