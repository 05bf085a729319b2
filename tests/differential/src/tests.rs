//! The other implementation by itself, on the drawings that the paper works out.
use crate::catalogue::{self, each_its_crane, Codes, Entry, Sheet, FORMER, USUAL};
use crate::code::{self, Code, Record};
use crate::cranes::OLD_RECORD;
use crate::drawing::{Cable, Drawing, CRANE_AT, RECORD};
use crate::generate::{self, plain, Shape};
use crate::map;
use crate::pairs;
use crate::random::Random;
use std::cmp::Ordering;
use std::collections::BTreeSet;
use std::{fs, path::Path};

const PATH: &[(usize, usize)] = &[(0, 1), (1, 2)];
const TRIANGLE: &[(usize, usize)] = &[(0, 1), (1, 2), (2, 0)];

/// Kind 1 and cable 5 throughout.
fn plain_code(pairs: &[(usize, usize)]) -> Code {
    pairs
        .iter()
        .map(|&(i, j)| Record {
            i,
            j,
            ki: 1,
            c: 5,
            kj: 1,
        })
        .collect()
}

#[test]
fn least_codes_of_the_paper() {
    let d1 = Drawing {
        kinds: vec![2, 1],
        cables: vec![Cable {
            a: 0,
            b: 1,
            kind: 7,
        }],
    };
    assert_eq!(code::bytes(&code::least(&d1)), [0, 1, 1, 7, 2]);

    let cables = vec![
        Cable {
            a: 0,
            b: 1,
            kind: 9,
        },
        Cable {
            a: 0,
            b: 2,
            kind: 4,
        },
    ];
    let d2 = Drawing {
        kinds: vec![1, 2, 3],
        cables,
    };
    assert_eq!(
        code::bytes(&code::least(&d2)),
        [0, 1, 1, 4, 3, 0, 2, 1, 9, 2]
    );

    let tail = [(0, 1), (1, 2), (2, 0), (2, 3)];
    let ring = [(0, 1), (1, 2), (2, 3), (3, 0)];
    let star = [(0, 1), (1, 2), (1, 3)];
    for pairs in [PATH, TRIANGLE, &tail, &ring, &star] {
        assert_eq!(code::least(&plain(pairs)), plain_code(pairs));
    }
}

#[test]
fn codes_that_are_refused() {
    let refusal = |pairs: &[(usize, usize)]| {
        let read = code::read(&code::bytes(&plain_code(pairs)));
        read.err().map(|refused| (refused.number, refused.at))
    };
    assert_eq!(refusal(&[(0, 1), (0, 2)]), None);
    assert_eq!(refusal(&[(0, 1), (1, 2), (0, 3), (1, 4)]), Some((10, 3)));
    assert_eq!(refusal(&[(0, 1), (1, 0)]), Some((10, 1)));
    assert_eq!(refusal(&[]), Some((9, 0)));
}

/// Request R-1.
#[test]
fn codes_of_lone_devices() {
    let lone = |kind: u8| Drawing {
        kinds: vec![kind],
        cables: Vec::new(),
    };
    let codes = [0, 7, 8, 255].map(|kind| code::least(&lone(kind)));
    assert_eq!(code::bytes(&codes[1]), [0, 0, 7, 0, 7]);
    for code in &codes {
        assert_eq!(code::read(&code::bytes(code)), Ok(code.clone()));
        assert_eq!(code::described(code), lone(code[0].ki));
        assert_eq!(code::order(code, &plain_code(PATH)), Ordering::Less);
        assert_eq!(code::order(&plain_code(PATH), code), Ordering::Greater);
    }
    assert!(codes.is_sorted_by(|a, b| code::order(a, b) == Ordering::Less));
    let refusal = |row: &[u8]| code::read(row).err().map(|refused| refused.number);
    assert_eq!(refusal(&[0, 0, 7, 1, 7]), Some(10));
    assert_eq!(refusal(&[0, 0, 7, 0, 8]), Some(11));
    assert_eq!(refusal(&[0, 0, 7, 1, 8]), Some(10));
    assert_eq!(refusal(&[0, 0, 7, 0, 7].repeat(2)), Some(10));
}

#[test]
fn maps_of_the_paper() {
    assert_eq!(
        map::least_map(&plain(PATH), &plain(TRIANGLE)),
        Some(vec![0, 1, 2])
    );
    assert_eq!(map::least_map(&plain(TRIANGLE), &plain(PATH)), None);
}

/// D3 and D4 as sheets of these cranes.
fn d12(cranes: [u8; 2]) -> Vec<Sheet> {
    let sheet = |(pairs, crane)| Sheet {
        drawing: plain(pairs),
        crane,
    };
    [PATH, TRIANGLE]
        .into_iter()
        .zip(cranes)
        .map(sheet)
        .collect()
}

#[test]
fn the_catalogue_of_the_paper() {
    let survey = d12([0, 1]);
    let entries: Vec<Entry> = [(&PATH[..1], 2, 0), (PATH, 2, 0), (TRIANGLE, 1, 1)]
        .map(|(pairs, support, example)| Entry {
            code: plain_code(pairs),
            support,
            example,
        })
        .to_vec();
    assert_eq!(Codes::default().catalogue(&survey, 1, 4), entries);
    assert_eq!(Codes::default().catalogue(&survey, 2, 4), entries[..2]);

    let written = catalogue::bytes(&entries);
    assert_eq!(written.len(), 3 * catalogue::ENTRY);
    assert_eq!(written[43..57], [2, 2, 0, 1, 1, 5, 1, 1, 2, 1, 5, 1, 0, 0]);
    assert_eq!([written[42], written[85], written[128]], [0, 0, 1]);
}

#[test]
fn surveys_that_are_refused() {
    let survey = each_its_crane(&[plain(PATH), plain(TRIANGLE)]);
    let refusal = |survey: &[u8], s: u32, l: u32| {
        catalogue::read(survey, s, l)
            .err()
            .map(|r| (r.number, r.at))
    };
    assert_eq!(refusal(&survey, 2, 4), None);
    assert_eq!(refusal(&survey[1..], 33, 0), Some((12, 0)));
    assert_eq!(refusal(&survey[1..], 32, 9), Some((13, 0)));
    assert_eq!(refusal(&survey[1..], 32, 8), Some((1, 0)));
    assert_eq!(refusal(&[], 1, 1), Some((14, 0)));
    assert_eq!(refusal(&survey.repeat(17), 1, 1), Some((14, 0)));
    assert_eq!(
        refusal(&[&survey[..], &[11; RECORD]].concat(), 1, 1),
        Some((2, 2))
    );
    for drawings in 1..=32 {
        let old = vec![0; drawings * OLD_RECORD];
        assert_eq!(refusal(&old, 1, 1), Some((1, 0)));
    }
}

/// Request R-4: D3 and D4 as two cranes, whichever they are, and as one.
#[test]
fn the_catalogue_of_one_crane() {
    let supports = |cranes, threshold| {
        let entries = Codes::default().catalogue(&d12(cranes), threshold, 4);
        let supports = entries.iter().map(|entry| entry.support);
        supports.collect::<Vec<_>>()
    };
    for cranes in [[0, 1], [1, 0], [0, 255], [255, 7]] {
        assert_eq!(supports(cranes, 1), [2, 2, 1]);
        assert_eq!(supports(cranes, 2), [2, 2]);
    }
    for crane in [0, 7, 255] {
        assert_eq!(supports([crane, crane], 1), [1, 1, 1]);
        assert_eq!(supports([crane, crane], 2), []);
    }
}

/// Request R-8: D3 and D4, as they are and exchanged; the examples are drawings, whichever their cranes are.
#[test]
fn the_examples_of_the_paper() {
    for cranes in [[0, 1], [7, 9], [9, 7], [5, 5]] {
        let survey = d12(cranes);
        let exchanged: Vec<Sheet> = survey.iter().rev().cloned().collect();
        for (survey, due) in [(survey, [0, 0, 1]), (exchanged, [0, 0, 0])] {
            let entries = Codes::default().catalogue(&survey, 1, 4);
            let examples = entries.iter().map(|entry| entry.example);
            assert!(examples.eq(due), "{cranes:?}");
        }
    }
}

/// Request R-8: both paths begin with cable 5, and the second alone goes on with 7.
#[test]
fn an_example_of_its_own() {
    let path = |kind| Drawing {
        kinds: vec![1; 3],
        cables: [(0, 1, 5), (1, 2, kind)]
            .map(|(a, b, kind)| Cable { a, b, kind })
            .to_vec(),
    };
    let text = |threshold| {
        let survey = each_its_crane(&[path(6), path(7)]);
        let entries = Codes::default().of_survey(&survey, [threshold, 4]).ok();
        catalogue::text(&entries.expect("accepted"))
    };
    let lines = [
        "2 @0 0-1:1.5.1",
        "1 @0 0-1:1.5.1 1-2:1.6.1",
        "1 @1 0-1:1.5.1 1-2:1.7.1",
        "1 @0 0-1:1.6.1",
        "1 @1 0-1:1.7.1",
        "5 patterns",
        "",
    ];
    assert_eq!(text(1), lines.join("\n"));
    assert_eq!(text(2), "2 @0 0-1:1.5.1\n1 patterns\n");
}

/// Drawings with much in common.
fn alike(random: &mut Random, drawings: usize) -> Vec<Drawing> {
    let shape = Shape {
        devices: (2, 5),
        most_cables: 6,
        kinds: 2,
    };
    let first = generate::drawing(random, shape);
    let near = |random: &mut Random| {
        let near = generate::neighbour(random, &first);
        generate::redrawn(random, &near)
    };
    (0..drawings).map(|_| near(random)).collect()
}

/// Each support is the number of cranes by the search for maps too, each example the first drawing that has one, and a pattern that reaches the
/// threshold is listed.
#[test]
fn supports_and_examples_by_maps() {
    let random = &mut Random::new(73);
    for threshold in [1, 1, 2, 2, 3, 3, 4, 4] {
        let drawings = alike(random, 8);
        let survey = generate::survey(random, &drawings);
        let sheets = catalogue::read_survey(&survey).expect("accepted");
        let has = |entry: &Entry, sheet: &Sheet| {
            map::least_map(&code::described(&entry.code), &sheet.drawing).is_some()
        };
        let cranes = |entry: &Entry| {
            let containing = sheets.iter().filter(|sheet| has(entry, sheet));
            let cranes: BTreeSet<u8> = containing.map(|sheet| sheet.crane).collect();
            cranes.len()
        };
        let entries = Codes::default().catalogue(&sheets, threshold, 4);
        for entry in &entries {
            assert_eq!(entry.support, cranes(entry));
            let first = sheets.iter().position(|sheet| has(entry, sheet));
            assert_eq!(Some(entry.example), first);
        }
        let all = Codes::default().catalogue_of_drawings(&drawings, 1, 4);
        let enough = all.iter().filter(|entry| cranes(entry) >= threshold);
        assert_eq!(entries.len(), enough.count());
    }
}

/// Drawing d as crane d: the catalogue of drawings counted one by one.
#[test]
fn old_surveys_keep_their_catalogues() {
    let random = &mut Random::new(72);
    for threshold in [1, 2, 3, 7] {
        let drawings = alike(random, 7);
        let sheets = catalogue::read_survey(&each_its_crane(&drawings)).expect("accepted");
        let codes = &mut Codes::default();
        let old = codes.catalogue_of_drawings(&drawings, threshold, 4);
        assert_eq!(codes.catalogue(&sheets, threshold, 4), old);
    }
}

#[test]
fn the_crane_is_no_part_of_a_drawing() {
    let path = plain(PATH);
    for crane in 0..=255 {
        let sheet = path.sheet(crane);
        assert_eq!((sheet.len(), sheet[CRANE_AT]), (RECORD, crane));
        assert_eq!(Drawing::read(&sheet), Ok(path.clone()));
    }
    let mut unused = path.sheet(0);
    unused[CRANE_AT - 1] = 1;
    assert_eq!(Drawing::read(&unused), Err(7));
    assert_eq!(Drawing::read(&path.record()[..OLD_RECORD]), Err(1));
}

/// The text of the other implementation's usual catalogue.
fn usual_text(survey: &[u8]) -> String {
    let entries = Codes::default().of_survey(survey, USUAL).ok();
    catalogue::text(&entries.expect("accepted"))
}

/// Request R-8: the first line is the paper's.
#[test]
fn the_usual_catalogue_of_the_paper() {
    let text = usual_text(&each_its_crane(&[plain(PATH), plain(TRIANGLE)]));
    let lines = [
        "2 @0 0-1:1.5.1",
        "2 @0 0-1:1.5.1 1-2:1.5.1",
        "2 patterns",
        "",
    ];
    assert_eq!(text, lines.join("\n"));
    assert_eq!(text, include_str!("../../../crates/catalogue/stdout"));
}

/// Request R-6: of drawings on two cranes the numbers of cables of the patterns that are listed, at the usual and at the former settings.
#[test]
fn the_usual_and_the_former_catalogue() {
    let cables = |drawing: &Drawing, settings| {
        let survey = each_its_crane(&[drawing.clone(), drawing.clone()]);
        let entries = Codes::default().of_survey(&survey, settings).ok();
        let codes = entries.expect("accepted").into_iter();
        codes.map(|entry| entry.code.len()).collect::<Vec<_>>()
    };
    let path = |cables: usize| plain(&(0..cables).map(|v| (v, v + 1)).collect::<Vec<_>>());
    let ring = plain(&[0, 1, 2, 3, 4, 5].map(|v| (v, (v + 1) % 6)));
    for (drawing, usual, former) in [
        (path(3), 3, 3),
        (path(4), 4, 4),
        (path(5), 5, 4),
        (path(6), 6, 4),
        (path(7), 6, 4),
        (ring, 6, 4),
    ] {
        assert_eq!(cables(&drawing, USUAL), (1..=usual).collect::<Vec<_>>());
        assert_eq!(cables(&drawing, FORMER), (1..=former).collect::<Vec<_>>());
    }
}

/// The example that ships.
#[test]
fn the_catalogue_of_the_cranes() {
    let text = usual_text(include_bytes!("../../../examples/cranes.survey"));
    assert_eq!(text, include_str!("../../../examples/cranes.catalogue"));
}

/// The old survey that ships: its drawings without cranes, counted one by one.
#[test]
fn the_catalogue_of_the_old_survey() {
    let survey = include_bytes!("../../../examples/old.survey");
    let records = survey.chunks(OLD_RECORD);
    let drawing = |record: &[u8]| Drawing::read(&[record, &[0]].concat()).expect("accepted");
    let drawings: Vec<Drawing> = records.map(drawing).collect();
    let [threshold, limit] = USUAL.map(|number| number as usize);
    let entries = Codes::default().catalogue_of_drawings(&drawings, threshold, limit);
    let text = catalogue::text(&entries);
    assert_eq!(text, include_str!("../../../examples/old.catalogue"));
    assert_eq!(text, usual_text(&each_its_crane(&drawings)));
}

/// What the program reads at most, and the most entries that it has room for.
const READ: usize = 33 * RECORD;
const ROOM: usize = 1560;

/// What the program has to print of its input.
fn printed(input: &[u8]) -> String {
    let survey = &input[..input.len().min(READ)];
    match Codes::default().of_survey(survey, USUAL) {
        Err(refused) if (2..=8).contains(&refused.number) => {
            format!("refused {} drawing {}\n", refused.number, refused.at)
        }
        Err(refused) => format!("refused {}\n", refused.number),
        Ok(entries) if entries.len() > ROOM => "refused 15\n".to_string(),
        Ok(entries) => catalogue::text(&entries),
    }
}

/// What is stored as the program's text is what the other implementation expects.
#[test]
fn every_case_of_the_program() {
    let cases = Path::new(env!("CARGO_MANIFEST_DIR")).join("../program/cases");
    let files = fs::read_dir(cases).expect("the folder");
    let inputs = files.map(|file| file.expect("a file").path());
    let mut tried = 0;
    for input in inputs.filter(|path| path.extension().is_some_and(|end| end == "in")) {
        let bytes = fs::read(&input).expect("the input");
        let stored = fs::read_to_string(input.with_extension("out")).expect("the text");
        assert!(printed(&bytes) == stored, "{}", input.display());
        tried += 1;
    }
    assert!(tried > 0);
}

/// Surveys with as many patterns as the program has room for, and with one more; and one that had as many while four cables were usual.
#[test]
fn the_most_patterns() {
    let patterns = |survey: &[u8], settings| {
        let entries = Codes::default().of_survey(survey, settings).ok();
        entries.expect("accepted").len()
    };
    let most = include_bytes!("../../program/cases/most_patterns.in");
    let too_many = include_bytes!("../../program/cases/too_many_patterns.in");
    let fits_four = include_bytes!("../../program/cases/fits_four_cables.in");
    assert_eq!(patterns(most, USUAL), ROOM);
    assert_eq!(patterns(too_many, USUAL), ROOM + 1);
    assert_eq!(patterns(fits_four, FORMER), ROOM);
    assert!(patterns(fits_four, USUAL) > ROOM);
}

#[test]
fn pairs_joined_twice() {
    let refusals = |records: Vec<Vec<u8>>| -> Vec<Result<Drawing, u8>> {
        records.iter().map(|record| Drawing::read(record)).collect()
    };
    let two = refusals(pairs::every_two_pairs());
    let (twice, others): (Vec<_>, Vec<_>) = two.into_iter().partition(|read| *read == Err(6));
    // 45 pairs, each cable of the two from either end; no two cables connect ten devices.
    assert_eq!((twice.len(), others.len()), (45 * 4, 45 * 44 * 4));
    assert!(others.iter().all(|read| *read == Err(8)));
    let places = refusals(pairs::every_two_places(&plain(TRIANGLE)));
    assert_eq!(places, vec![Err(6); 3 * 4]);
}
