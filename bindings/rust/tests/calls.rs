//! Each call once with an answer and once with a refusal: that slices arrive and numbers are taken apart rightly.
use holvreiz::{Compared, Refusal, Verdict};
use std::cmp::Ordering;

/// A drawing's record: the kinds of its devices, then its cables.
fn drawing(kinds: &[u8], cables: &[[u8; 3]]) -> [u8; holvreiz::DRAWING_BYTES] {
    let mut record = [0; holvreiz::DRAWING_BYTES];
    record[0] = kinds.len() as u8;
    record[1] = cables.len() as u8;
    record[2..][..kinds.len()].copy_from_slice(kinds);
    record[12..][..3 * cables.len()].copy_from_slice(&cables.concat());
    record
}

/// The same drawing as a sheet of this crane.
fn of_crane(mut record: [u8; holvreiz::DRAWING_BYTES], crane: u8) -> [u8; holvreiz::DRAWING_BYTES] {
    record[holvreiz::CRANE_AT] = crane;
    record
}

/// Kind 1 and cable 5 throughout.
fn plain(devices: usize, pairs: &[[u8; 2]]) -> [u8; holvreiz::DRAWING_BYTES] {
    let cables: Vec<[u8; 3]> = pairs.iter().map(|&[a, b]| [a, b, 5]).collect();
    drawing(&vec![1; devices], &cables)
}

fn plain_code(pairs: &[[u8; 2]]) -> Vec<u8> {
    pairs.iter().flat_map(|&[i, j]| [i, j, 1, 5, 1]).collect()
}

#[test]
fn the_least_code_of_a_drawing() {
    let mut output = [9; 12];
    let star = drawing(&[1, 2, 3], &[[0, 1, 9], [2, 0, 4]]);
    assert_eq!(holvreiz::code(&star, &mut output), Ok(10));
    assert_eq!(output, [0, 1, 1, 4, 3, 0, 2, 1, 9, 2, 9, 9]);
    assert_eq!(
        holvreiz::code(&star, &mut output[..9]),
        Err(Refusal::OutputLength)
    );
    assert_eq!(
        holvreiz::code(&[], &mut output),
        Err(Refusal::DrawingLength)
    );
}

#[test]
fn the_drawing_of_a_code() {
    let mut output = [9; holvreiz::DRAWING_BYTES];
    let code = plain_code(&[[0, 1], [1, 2], [2, 0]]);
    assert_eq!(
        holvreiz::decode(&code, &mut output[..holvreiz::CRANE_AT]),
        Err(Refusal::OutputLength)
    );
    assert_eq!(output, [9; holvreiz::DRAWING_BYTES]);
    assert_eq!(
        holvreiz::decode(&code, &mut output),
        Ok(holvreiz::DRAWING_BYTES)
    );
    assert_eq!(output, plain(3, &[[0, 1], [1, 2], [2, 0]]));
    assert_eq!(
        holvreiz::decode(&plain_code(&[[0, 1], [1, 0]]), &mut output),
        Err(Refusal::Step)
    );
}

fn verdict(least: bool, agreement: usize) -> Result<Verdict, Refusal> {
    Ok(Verdict { least, agreement })
}

#[test]
fn whether_a_code_is_the_least() {
    for (pairs, least, agreement) in [
        (&[[0, 1], [1, 2]][..], true, 2),
        (&[[0, 1], [0, 2]], false, 1),
        (&[[0, 1], [1, 2], [2, 0]], true, 3),
        (&[[0, 1], [1, 2], [2, 0], [2, 3]], true, 4),
        (&[[0, 1], [1, 2], [2, 0], [0, 3]], false, 3),
        // of the codes from the same start the least parts after four records, the least of all after two
        (&[[0, 1], [1, 2], [2, 3], [3, 1], [2, 4]], false, 2),
    ] {
        let tested = holvreiz::is_least(&plain_code(pairs));
        assert_eq!(tested, verdict(least, agreement), "{pairs:?}");
    }
    assert_eq!(holvreiz::is_least(&[0, 1, 2, 7, 1]), verdict(false, 0));
    assert_eq!(
        holvreiz::is_least(&[0, 1, 1, 5, 1, 1, 2, 2, 5, 1]),
        Err(Refusal::Kind)
    );
}

fn compared(order: Ordering, agreement: usize) -> Result<Compared, Refusal> {
    Ok(Compared { order, agreement })
}

/// Both ways round.
#[test]
fn the_order_of_two_codes() {
    let [cable, path, fork, triangle] = [
        &[[0, 1]][..],
        &[[0, 1], [1, 2]],
        &[[0, 1], [0, 2]],
        &[[0, 1], [1, 2], [2, 0]],
    ]
    .map(plain_code);
    let other = vec![0, 1, 1, 7, 2];
    for (first, second, agreement) in [
        (&path, &fork, 1),
        (&cable, &path, 1),
        (&path, &triangle, 2),
        (&triangle, &fork, 1),
        (&path, &other, 0),
    ] {
        let before = holvreiz::compare(first, second);
        assert_eq!(before, compared(Ordering::Less, agreement));
        let after = holvreiz::compare(second, first);
        assert_eq!(after, compared(Ordering::Greater, agreement));
    }
    for code in [&cable, &path, &fork, &triangle, &other] {
        let equal = holvreiz::compare(code, code);
        assert_eq!(equal, compared(Ordering::Equal, code.len() / 5));
    }
    assert_eq!(holvreiz::compare(&fork, &[]), Err(Refusal::CodeLength));
}

/// Twenty records: seven devices, each joined with each but for one pair.
#[test]
fn agreements_of_the_longest_codes() {
    let without = |missing: [u8; 2]| {
        let of_device = |i: u8| {
            [[i - 1, i]]
                .into_iter()
                .chain((0..i - 1).map(move |j| [i, j]))
        };
        let pairs = (1..7).flat_map(of_device).filter(|pair| *pair != missing);
        plain_code(&pairs.collect::<Vec<_>>())
    };
    let least = without([6, 4]);
    assert_eq!(least.len(), holvreiz::CODE_BYTES);
    assert_eq!(holvreiz::is_least(&least), verdict(true, 20));
    assert_eq!(
        holvreiz::compare(&least, &least),
        compared(Ordering::Equal, 20)
    );
    assert_eq!(
        holvreiz::compare(&least[..95], &least),
        compared(Ordering::Less, 19)
    );
    for (missing, agreement) in [([2, 0], 2), ([4, 2], 9), ([6, 3], 19)] {
        let other = without(missing);
        assert_eq!(holvreiz::is_least(&other), verdict(false, agreement));
        assert_eq!(
            holvreiz::compare(&other, &least),
            compared(Ordering::Greater, agreement)
        );
    }
}

#[test]
fn the_least_map_of_a_pattern() {
    let (path, triangle) = (
        plain(3, &[[0, 1], [1, 2]]),
        plain(3, &[[0, 1], [1, 2], [2, 0]]),
    );
    let mut output = [9; 4];
    assert_eq!(
        holvreiz::match_drawing(&path, &triangle, &mut output),
        Ok(Some(3))
    );
    assert_eq!(output, [0, 1, 2, 9]);
    assert_eq!(
        holvreiz::match_drawing(&triangle, &path, &mut output),
        Ok(None)
    );
    assert_eq!(
        holvreiz::match_drawing(&path, &plain(11, &[[0, 1]]), &mut output),
        Err(Refusal::DeviceCount)
    );
}

#[test]
fn whether_two_drawings_are_the_same() {
    let (path, turned) = (plain(3, &[[0, 1], [1, 2]]), plain(3, &[[2, 0], [0, 1]]));
    assert_eq!(holvreiz::same(&path, &turned), Ok(true));
    assert_eq!(
        holvreiz::same(&path, &plain(3, &[[0, 1], [1, 2], [2, 0]])),
        Ok(false)
    );
    assert_eq!(
        holvreiz::same(&path, &plain(3, &[[0, 1]])),
        Err(Refusal::NotConnected)
    );
}

#[test]
fn the_catalogue_of_a_survey() {
    let survey = [
        plain(3, &[[0, 1], [1, 2]]),
        of_crane(plain(3, &[[0, 1], [1, 2], [2, 0]]), 1),
    ]
    .concat();
    let mut output = [9; 3 * holvreiz::ENTRY_BYTES];
    assert_eq!(holvreiz::catalogue(&survey, 2, 4, &mut output), Ok(2));
    assert_eq!(output[..7], [1, 2, 0, 1, 1, 5, 1]);
    assert_eq!(output[7..holvreiz::ENTRY_BYTES], [0; 36]);
    assert_eq!(
        output[2 * holvreiz::ENTRY_BYTES..],
        [9; holvreiz::ENTRY_BYTES]
    );

    let refused = holvreiz::catalogue(
        &[survey, plain(3, &[[0, 1]]).to_vec()].concat(),
        2,
        4,
        &mut output,
    )
    .unwrap_err();
    assert_eq!(
        (refused.refusal, refused.drawing),
        (Refusal::NotConnected, Some(2))
    );
    assert_eq!(
        refused.to_string(),
        "refused 8 drawing 2: cables do not lead from each device to every other"
    );
}

/// The path and the triangle of the paper, as sheets of one crane and of two.
#[test]
fn cranes() {
    let (path, triangle) = (
        plain(3, &[[0, 1], [1, 2]]),
        plain(3, &[[0, 1], [1, 2], [2, 0]]),
    );
    for (cranes, supports) in [
        ([0, 1], [2, 2, 1]),
        ([255, 0], [2, 2, 1]),
        ([4, 4], [1, 1, 1]),
    ] {
        let survey = [of_crane(path, cranes[0]), of_crane(triangle, cranes[1])].concat();
        let mut output = [9; 3 * holvreiz::ENTRY_BYTES];
        assert_eq!(holvreiz::catalogue(&survey, 1, 4, &mut output), Ok(3));
        let entries = output.chunks(holvreiz::ENTRY_BYTES);
        assert!(entries.map(|entry| entry[1]).eq(supports));
        let frequent = supports.iter().filter(|&&support| support >= 2).count();
        let of_two = holvreiz::catalogue(&survey, 2, 4, &mut output);
        assert_eq!(of_two, Ok(frequent));
    }

    let elsewhere = of_crane(triangle, 255);
    let (mut code, mut same) = ([0; 15], [0; 15]);
    assert_eq!(holvreiz::code(&triangle, &mut code), Ok(15));
    assert_eq!(holvreiz::code(&elsewhere, &mut same), Ok(15));
    assert_eq!(code, same);
    assert_eq!(holvreiz::same(&triangle, &elsewhere), Ok(true));
    assert_eq!(
        holvreiz::match_drawing(&path, &elsewhere, &mut code),
        Ok(Some(3))
    );

    let without = [&path[..holvreiz::CRANE_AT], &triangle[..holvreiz::CRANE_AT]].concat();
    let refused = holvreiz::catalogue(&without, 1, 4, &mut code).unwrap_err();
    assert_eq!(
        (refused.refusal, refused.drawing),
        (Refusal::DrawingLength, None)
    );
    assert_eq!(
        holvreiz::code(&path[..holvreiz::CRANE_AT], &mut code),
        Err(Refusal::DrawingLength)
    );
}

fn examples_of(entries: &[u8]) -> Vec<u8> {
    let entries = entries.chunks(holvreiz::ENTRY_BYTES);
    entries.map(|entry| entry[holvreiz::EXAMPLE_AT]).collect()
}

/// The lowest drawings that contain the cable, the path and the triangle, whatever the cranes are; the last of 32 behind lone devices.
#[test]
fn examples() {
    let (path, triangle, lone) = (
        plain(3, &[[0, 1], [1, 2]]),
        plain(3, &[[0, 1], [1, 2], [2, 0]]),
        drawing(&[7], &[]),
    );
    let last = [vec![lone, path], vec![lone; 29], vec![triangle]].concat();
    for (drawings, examples) in [
        (vec![of_crane(path, 7), of_crane(triangle, 9)], [0, 0, 1]),
        (vec![of_crane(triangle, 9), of_crane(path, 7)], [0, 0, 0]),
        (vec![path, triangle, triangle], [0, 0, 1]),
        (last, [1, 1, 31]),
    ] {
        let survey = drawings.concat();
        let mut list = [9; 3 * holvreiz::ENTRY_BYTES];
        assert_eq!(holvreiz::catalogue(&survey, 1, 4, &mut list), Ok(3));
        assert_eq!(examples_of(&list), examples);
        for entry in 0..3 {
            let mut other = list;
            other[entry * holvreiz::ENTRY_BYTES + holvreiz::EXAMPLE_AT] ^= 1;
            let checked = [&list, &other].map(|list| holvreiz::check_list(&survey, 1, 4, list));
            assert_eq!(checked, [Ok(true), Ok(false)]);
        }
    }
}

/// The checks that are given no settings.
const SHORTER: [fn(&[u8], &[u8]) -> Result<bool, holvreiz::SurveyRefusal>; 2] =
    [holvreiz::check_usual, holvreiz::check_four];

/// The list of the path and the triangle as two cranes: right, wrong and refused.
#[test]
fn lists_made_elsewhere() {
    let survey = [
        plain(3, &[[0, 1], [1, 2]]),
        of_crane(plain(3, &[[0, 1], [1, 2], [2, 0]]), 1),
    ]
    .concat();
    let mut list = [9; 3 * holvreiz::ENTRY_BYTES];
    assert_eq!(holvreiz::catalogue(&survey, 1, 4, &mut list), Ok(3));
    let (two, last) = list.split_at(2 * holvreiz::ENTRY_BYTES);
    let check =
        |threshold, limit, list: &[u8]| holvreiz::check_list(&survey, threshold, limit, list);
    assert_eq!(check(1, 4, &list), Ok(true));
    assert_eq!(check(1, 4, two), Ok(false));
    assert_eq!(check(1, 4, &[&list[..], last].concat()), Ok(false));
    assert_eq!(check(1, 4, &[255; 3 * holvreiz::ENTRY_BYTES]), Ok(false));
    let (mut support, mut example) = (list, list);
    support[1] = 1;
    example[holvreiz::EXAMPLE_AT] = 1;
    assert_eq!(check(1, 4, &support), Ok(false));
    assert_eq!(check(1, 4, &example), Ok(false));
    assert_eq!(check(2, 4, two), Ok(true));
    assert_eq!(check(1, 2, two), Ok(true));
    assert_eq!(check(3, 4, &[]), Ok(true));
    assert_eq!(check(3, 4, two), Ok(false));

    let alone = &survey[..holvreiz::DRAWING_BYTES];
    for check in SHORTER {
        assert_eq!(check(&survey, two), Ok(true));
        assert_eq!(check(&survey, &list), Ok(false));
        assert_eq!(check(&survey, &support[..two.len()]), Ok(false));
        assert_eq!(check(&survey, &example[..two.len()]), Ok(false));
        assert_eq!(check(&survey, &[]), Ok(false));
        assert_eq!(check(alone, &[]), Ok(true));
    }
}

/// A path of eight devices on two cranes has an entry for each number of cables from 1 to 7; its usual list ends with six, the one of before with
/// four.
#[test]
fn usual_and_former_lists() {
    let pairs: Vec<[u8; 2]> = (0..7).map(|device| [device, device + 1]).collect();
    let path = plain(8, &pairs);
    let survey = [path, of_crane(path, 1)].concat();
    let mut list = [9; 7 * holvreiz::ENTRY_BYTES];
    assert_eq!(holvreiz::catalogue(&survey, 2, 7, &mut list), Ok(7));
    for entries in 0..=7 {
        let list = &list[..entries * holvreiz::ENTRY_BYTES];
        assert_eq!(holvreiz::check_usual(&survey, list), Ok(entries == 6));
        assert_eq!(holvreiz::check_four(&survey, list), Ok(entries == 4));
        assert_eq!(holvreiz::check_list(&survey, 2, 7, list), Ok(entries == 7));
    }
}

/// The settings and the survey are told before the length of the list.
#[test]
fn checks_that_are_refused() {
    let path = plain(3, &[[0, 1], [1, 2]]);
    let behind = [path, plain(3, &[[0, 1]])].concat();
    let refused = |refusal, drawing| Err(holvreiz::SurveyRefusal { refusal, drawing });
    for (survey, threshold, limit, list, refusal, drawing) in [
        (&path[..], 0, 9, 1, Refusal::Threshold, None),
        (&path[..], 1, 9, 1, Refusal::SizeLimit, None),
        (&path[..72], 1, 4, 1, Refusal::DrawingLength, None),
        (&path[..0], 1, 4, 1, Refusal::SurveyLength, None),
        (&behind, 1, 4, 1, Refusal::NotConnected, Some(1)),
        (&path[..], 1, 4, 1, Refusal::ListLength, None),
        (&path[..], 1, 4, 42, Refusal::ListLength, None),
        (&path[..], 1, 4, 44, Refusal::ListLength, None),
    ] {
        let list = vec![1; list];
        assert_eq!(
            holvreiz::check_list(survey, threshold, limit, &list),
            refused(refusal, drawing)
        );
        if (1..=8).contains(&limit) {
            for check in SHORTER {
                assert_eq!(check(survey, &list), refused(refusal, drawing));
            }
        }
    }
    for check in SHORTER {
        assert_eq!(
            check(&path, &[1]).unwrap_err().to_string(),
            "refused 18: the length of a list is no multiple of 43"
        );
    }
}

/// Every call of devices without cables.
#[test]
fn lone_devices() {
    let (one, seven, eight) = (drawing(&[1], &[]), drawing(&[7], &[]), drawing(&[8], &[]));
    let path = plain(3, &[[0, 1], [1, 2]]);
    let mut built = holvreiz::Drawing::new();
    assert_eq!(built.device(7), Ok(0));
    assert_eq!(built.bytes(), seven);
    let mut output = [9; 7];
    assert_eq!(holvreiz::code(&seven, &mut output), Ok(5));
    assert_eq!(output, [0, 0, 7, 0, 7, 9, 9]);
    assert_eq!(
        holvreiz::code(&seven, &mut output[..4]),
        Err(Refusal::OutputLength)
    );
    assert_eq!(
        holvreiz::code(&drawing(&[7], &[[0, 0, 5]]), &mut output),
        Err(Refusal::CableCount)
    );

    let (code, greater) = ([0, 0, 7, 0, 7], [0, 0, 8, 0, 8]);
    let mut decoded = [9; holvreiz::DRAWING_BYTES];
    assert_eq!(
        holvreiz::decode(&code, &mut decoded),
        Ok(holvreiz::DRAWING_BYTES)
    );
    assert_eq!(decoded, seven);
    assert_eq!(
        holvreiz::decode(&[0, 0, 7, 1, 7], &mut decoded),
        Err(Refusal::Step)
    );
    assert_eq!(
        holvreiz::decode(&[0, 0, 7, 0, 8], &mut decoded),
        Err(Refusal::Kind)
    );
    assert_eq!(holvreiz::is_least(&code), verdict(true, 1));
    assert_eq!(
        holvreiz::compare(&code, &code),
        compared(Ordering::Equal, 1)
    );
    assert_eq!(
        holvreiz::compare(&code, &greater),
        compared(Ordering::Less, 0)
    );
    assert_eq!(
        holvreiz::compare(&plain_code(&[[0, 1]]), &greater),
        compared(Ordering::Greater, 0)
    );

    let mut map = [9; 2];
    assert_eq!(holvreiz::match_drawing(&one, &path, &mut map), Ok(Some(1)));
    assert_eq!(map, [0, 9]);
    assert_eq!(holvreiz::match_drawing(&seven, &path, &mut map), Ok(None));
    assert_eq!(holvreiz::same(&seven, &seven), Ok(true));
    assert_eq!(holvreiz::same(&seven, &eight), Ok(false));

    let mut entries = [9; 2 * holvreiz::ENTRY_BYTES];
    let survey = [seven, seven, path].concat();
    assert_eq!(
        holvreiz::catalogue(&survey[..2 * holvreiz::DRAWING_BYTES], 1, 8, &mut entries),
        Ok(0)
    );
    assert_eq!(entries, [9; 2 * holvreiz::ENTRY_BYTES]);
    assert_eq!(holvreiz::catalogue(&survey, 1, 1, &mut entries), Ok(1));
    assert_eq!(entries[..7], [1, 1, 0, 1, 1, 5, 1]);
    assert_eq!(entries[holvreiz::EXAMPLE_AT], 2);
    let alone = &survey[..2 * holvreiz::DRAWING_BYTES];
    assert_eq!(holvreiz::check_list(alone, 1, 8, &[]), Ok(true));
    assert_eq!(
        holvreiz::check_list(alone, 1, 8, &entries[holvreiz::ENTRY_BYTES..]),
        Ok(false)
    );
}

#[test]
fn the_book_of_small_patterns() {
    let mut output = [9; 3 * holvreiz::ENTRY_BYTES];
    assert_eq!(holvreiz::book(1, 1, 2, &mut output), Ok(2));
    let (one, rest) = output.split_at(holvreiz::ENTRY_BYTES);
    let (two, behind) = rest.split_at(holvreiz::ENTRY_BYTES);
    assert_eq!(one[..7], [1, 0, 0, 1, 0, 0, 0]);
    assert_eq!(two[..12], [2, 0, 0, 1, 0, 0, 0, 1, 2, 0, 0, 0]);
    assert!(one[7..].iter().chain(&two[12..]).all(|&byte| byte == 0));
    assert_eq!(behind, [9; holvreiz::ENTRY_BYTES]);

    let mut largest = vec![9; 83_721];
    assert_eq!(holvreiz::book(3, 3, 3, &mut largest), Ok(1947));
    let last = &largest[largest.len() - holvreiz::ENTRY_BYTES..];
    assert_eq!(last[..7], [3, 0, 0, 1, 2, 2, 2]);
    assert!(examples_of(&largest).iter().all(|&example| example == 0));
}

#[test]
fn books_that_are_refused() {
    let mut output = [9; 42];
    for (a, b, limit, refusal) in [
        (0, 1, 1, Refusal::KindCount),
        (1, 4, 0, Refusal::KindCount),
        (257, 1, 1, Refusal::KindCount),
        (1, 1, 4, Refusal::BookLimit),
        (3, 3, 0, Refusal::BookLimit),
    ] {
        assert_eq!(holvreiz::book(a, b, limit, &mut output), Err(refusal));
        assert_eq!(output, [9; 42]);
    }
    let short = holvreiz::book(1, 1, 1, &mut output);
    assert_eq!(short, Err(Refusal::OutputLength));
    assert_eq!(output, [0; 42]);
}

#[test]
fn refusals_have_the_numbers_of_the_format() {
    for (place, refusal) in Refusal::ALL.iter().enumerate() {
        assert_eq!(usize::from(refusal.number()), place + 1);
    }
    assert_eq!(
        Refusal::SurveyLength.to_string(),
        "refused 14: a survey has no drawing, or over 32"
    );
    assert_eq!(Refusal::KindCount.number(), 16);
    assert_eq!(
        Refusal::BookLimit.to_string(),
        "refused 17: a book's size limit is not 1 to 3"
    );
    assert_eq!(Refusal::ListLength.number(), 18);
}
