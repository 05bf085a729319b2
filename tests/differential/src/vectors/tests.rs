//! Every call has every answer and every refusal that it can have, in each place of two and of a survey.
use super::{List, Seen};
use crate::agreement;
use crate::answers::{self, Answer, FIRST, LATER, SECOND};
use crate::cranes::*;
use crate::drawing::{CRANE_AT, RECORD};
use crate::examples;
use crate::lists;
use crate::lone::*;
use crate::shims::{Came, Given, SHIMS};
use std::collections::BTreeSet;
use std::sync::OnceLock;

const OF_A_DRAWING: &[u8] = &[1, 2, 3, 4, 5, 6, 7, 8];
const IN_A_SURVEY: &[u8] = &[2, 3, 4, 5, 6, 7, 8];
const OF_A_SURVEY: &[u8] = &[1, 14];
const OF_A_CODE: &[u8] = &[9, 10, 11];
const OF_THE_SETTINGS: &[u8] = &[12, 13];
const OF_THE_OUTPUT: &[u8] = &[15];
const OF_THE_BOOK: &[u8] = &[16, 17];
const OF_A_LIST: &[u8] = &[18];

/// The list, made once for all tests.
fn list() -> &'static List {
    static LIST: OnceLock<List> = OnceLock::new();
    LIST.get_or_init(super::list)
}

/// A call, its answers, its refusals and those that come from a second argument or a later drawing.
type Row = (
    &'static str,
    &'static [&'static str],
    &'static [&'static [u8]],
    &'static [u8],
    &'static str,
);

const ROWS: &[Row] = &[
    ("check_drawing", &["accepted"], &[OF_A_DRAWING], &[], ""),
    (
        "check_survey",
        &["accepted"],
        &[OF_A_SURVEY, IN_A_SURVEY],
        IN_A_SURVEY,
        LATER,
    ),
    ("check_code", &["accepted"], &[OF_A_CODE], &[], ""),
    ("is_least", &["yes", "no"], &[OF_A_CODE], &[], ""),
    (
        "compare",
        &["before", "equal", "after"],
        &[OF_A_CODE],
        OF_A_CODE,
        SECOND,
    ),
    (
        "same",
        &["yes", "no"],
        &[OF_A_DRAWING],
        OF_A_DRAWING,
        SECOND,
    ),
    ("open", &["opened"], &[OF_A_SURVEY], &[], ""),
    ("fetch", &["fetched"], &[&[14]], &[], ""),
    (
        "code_drawing",
        &["written"],
        &[OF_A_DRAWING, OF_THE_OUTPUT],
        &[],
        "",
    ),
    ("decode", &["written"], &[OF_A_CODE, OF_THE_OUTPUT], &[], ""),
    (
        "match_drawing",
        &["map", "not contained"],
        &[OF_A_DRAWING, OF_THE_OUTPUT],
        OF_A_DRAWING,
        SECOND,
    ),
    (
        "write_catalogue",
        &["entries", "no entry"],
        &[OF_THE_SETTINGS, OF_A_SURVEY, IN_A_SURVEY, OF_THE_OUTPUT],
        IN_A_SURVEY,
        LATER,
    ),
    (
        "usual_catalogue",
        &["entries", "no entry"],
        &[OF_A_SURVEY, IN_A_SURVEY, OF_THE_OUTPUT],
        IN_A_SURVEY,
        LATER,
    ),
    ("book", &["entries"], &[OF_THE_BOOK, OF_THE_OUTPUT], &[], ""),
    (
        "check_list",
        &["yes", "no"],
        &[OF_THE_SETTINGS, OF_A_SURVEY, IN_A_SURVEY, OF_A_LIST],
        IN_A_SURVEY,
        LATER,
    ),
    (
        "check_usual",
        &["yes", "no"],
        &[OF_A_SURVEY, IN_A_SURVEY, OF_A_LIST],
        IN_A_SURVEY,
        LATER,
    ),
    (
        "check_four",
        &["yes", "no"],
        &[OF_A_SURVEY, IN_A_SURVEY, OF_A_LIST],
        IN_A_SURVEY,
        LATER,
    ),
];

/// A call, its answers of lone devices, and what is lone.
const LONE_ANSWERS: &[(&str, &[&str], &str)] = &[
    ("check_drawing", &["accepted"], LONE),
    ("check_survey", &["accepted"], SOME_LONE),
    ("check_survey", &["accepted"], ALL_LONE),
    ("check_code", &["accepted"], LONE),
    ("is_least", &["yes"], LONE),
    ("compare", &["before", "equal", "after"], BOTH_LONE),
    ("compare", &["before"], FIRST_LONE),
    ("compare", &["after"], SECOND_LONE),
    ("same", &["yes", "no"], BOTH_LONE),
    ("same", &["no"], FIRST_LONE),
    ("same", &["no"], SECOND_LONE),
    ("code_drawing", &["written"], LONE),
    ("decode", &["written"], LONE),
    ("match_drawing", &["map", "not contained"], BOTH_LONE),
    ("match_drawing", &["map", "not contained"], FIRST_LONE),
    ("match_drawing", &["not contained"], SECOND_LONE),
    ("write_catalogue", &["entries", "no entry"], SOME_LONE),
    ("write_catalogue", &["no entry"], ALL_LONE),
    ("usual_catalogue", &["entries"], SOME_LONE),
    ("usual_catalogue", &["no entry"], ALL_LONE),
    ("check_list", &["yes", "no"], SOME_LONE),
    ("check_list", &["yes", "no"], ALL_LONE),
    ("check_usual", &["yes", "no"], SOME_LONE),
    ("check_usual", &["yes", "no"], ALL_LONE),
    ("check_four", &["yes", "no"], SOME_LONE),
    ("check_four", &["yes", "no"], ALL_LONE),
];

/// Near a lone device drawings are refused with 3 and 7, codes with 10 and 11.
const LONE_DRAWINGS: &[(u8, &str)] = &[(3, CABLES), (3, NO_CABLE), (7, LONE)];
const LONE_CODES: &[(u8, &str)] = &[(10, LONE), (11, LONE), (10, IN_FRONT), (10, BEHIND)];

/// A call, its refusals near a lone device, and whose they are.
const LONE_REFUSALS: &[(&str, &[(u8, &str)], &[&str])] = &[
    ("check_drawing", LONE_DRAWINGS, &[FIRST]),
    ("check_survey", LONE_DRAWINGS, &[FIRST, LATER]),
    ("check_code", LONE_CODES, &[FIRST]),
    ("is_least", LONE_CODES, &[FIRST]),
    ("compare", LONE_CODES, &[FIRST, SECOND]),
    ("same", LONE_DRAWINGS, &[FIRST, SECOND]),
    ("code_drawing", LONE_DRAWINGS, &[FIRST]),
    ("decode", LONE_CODES, &[FIRST]),
    ("match_drawing", LONE_DRAWINGS, &[FIRST, SECOND]),
    ("write_catalogue", LONE_DRAWINGS, &[FIRST, LATER]),
    ("usual_catalogue", LONE_DRAWINGS, &[FIRST, LATER]),
    ("code_drawing", &[(15, LONE)], &[FIRST]),
    ("decode", &[(15, LONE)], &[FIRST]),
    ("match_drawing", &[(15, LONE)], &[FIRST]),
    ("usual_catalogue", &[(15, SOME_LONE)], &[FIRST]),
    ("check_list", LONE_DRAWINGS, &[FIRST, LATER]),
    ("check_usual", LONE_DRAWINGS, &[FIRST, LATER]),
    ("check_four", LONE_DRAWINGS, &[FIRST, LATER]),
    ("check_list", &[(18, SOME_LONE), (18, ALL_LONE)], &[FIRST]),
    ("check_usual", &[(18, SOME_LONE), (18, ALL_LONE)], &[FIRST]),
    ("check_four", &[(18, SOME_LONE), (18, ALL_LONE)], &[FIRST]),
];

#[test]
fn every_outcome_is_listed() {
    let mut wanted = BTreeSet::new();
    for &(call, answers, refusals, others, whose) in ROWS {
        let said = answers.iter().map(|&said| Seen::Answer(said, NONE));
        let first = refusals.iter().copied().flatten();
        let first = first.map(|&number| Seen::Refusal(number, FIRST, NONE));
        let other = others
            .iter()
            .map(|&number| Seen::Refusal(number, whose, NONE));
        wanted.extend(said.chain(first).chain(other).map(|seen| (call, seen)));
    }
    for &(call, answers, lone) in LONE_ANSWERS {
        wanted.extend(answers.iter().map(|&said| (call, Seen::Answer(said, lone))));
    }
    for &(call, refusals, sides) in LONE_REFUSALS {
        for &whose in sides {
            let seen = |&(number, lone)| (call, Seen::Refusal(number, whose, lone));
            wanted.extend(refusals.iter().map(seen));
        }
    }
    let list = list();
    let missing: Vec<_> = wanted.difference(&list.seen).collect();
    let further: Vec<_> = list.seen.difference(&wanted).collect();
    assert!(
        missing.is_empty() && further.is_empty(),
        "{missing:?} {further:?}"
    );
}

const OF_ONE: &[&str] = &[CRANE_0, CRANE_BETWEEN, CRANE_255];
const OF_TWO: &[&str] = &[ALIKE, DIFFER];
const OF_SHEETS: &[&str] = &[
    EACH_ITS_OWN,
    ONE_CRANE,
    SIDE_BY_SIDE,
    SCATTERED,
    AMONG_OTHERS,
    GREATEST,
];

/// A call, its answers beside cranes, and what there is to tell of these.
const CRANE_ANSWERS: &[(&str, &[&str], &[&str])] = &[
    ("check_drawing", &["accepted"], OF_ONE),
    ("check_survey", &["accepted"], &[ONE_CRANE, SCATTERED]),
    ("same", &["yes", "no"], OF_TWO),
    ("open", &["opened"], &[EACH_ITS_OWN, ONE_CRANE, SCATTERED]),
    ("fetch", &["fetched"], &[EACH_ITS_OWN, ONE_CRANE, SCATTERED]),
    ("code_drawing", &["written"], OF_ONE),
    ("decode", &["written"], &[OVERWRITTEN]),
    ("match_drawing", &["map", "not contained"], OF_TWO),
    ("write_catalogue", &["entries"], OF_SHEETS),
    ("write_catalogue", &["no entry"], &[TOO_FEW]),
    ("usual_catalogue", &["entries"], &[SIDE_BY_SIDE, SCATTERED]),
    ("usual_catalogue", &["no entry"], &[ONE_CRANE, TOO_FEW]),
    ("check_list", &["yes"], OF_SHEETS),
    ("check_list", &["yes", "no"], &[ONE_CRANE, TOO_FEW]),
    ("check_usual", &["yes", "no"], &[ONE_CRANE, TOO_FEW]),
    ("check_four", &["yes", "no"], &[ONE_CRANE, TOO_FEW]),
];

/// A call, its refusal beside cranes, whose it is, and what there is to tell.
const CRANE_REFUSALS: &[(&str, u8, &[&str], &str)] = &[
    ("check_drawing", 1, &[FIRST], OLD),
    ("check_survey", 1, &[FIRST], OLD),
    ("same", 1, &[FIRST, SECOND], OLD),
    ("open", 1, &[FIRST], OLD),
    ("code_drawing", 1, &[FIRST], OLD),
    ("decode", 15, &[FIRST], SHORT_OF_CRANE),
    ("match_drawing", 1, &[FIRST, SECOND], OLD),
    ("write_catalogue", 1, &[FIRST], OLD),
    ("usual_catalogue", 1, &[FIRST], OLD),
    ("check_list", 1, &[FIRST], OLD),
    ("check_usual", 1, &[FIRST], OLD),
    ("check_four", 1, &[FIRST], OLD),
];

#[test]
fn every_outcome_beside_cranes_is_listed() {
    let mut wanted = BTreeSet::new();
    for &(call, answers, told) in CRANE_ANSWERS {
        for &said in answers {
            wanted.extend(told.iter().map(|&near| (call, Seen::Answer(said, near))));
        }
    }
    for &(call, number, sides, near) in CRANE_REFUSALS {
        let seen = |&whose| (call, Seen::Refusal(number, whose, near));
        wanted.extend(sides.iter().map(seen));
    }
    let list = list();
    let missing: Vec<_> = wanted.difference(&list.beside_cranes).collect();
    assert!(missing.is_empty(), "{missing:?}");
}

/// Beside a list of every kind, in each check; beside lists that are right at settings with a name, in the checks at these.
#[test]
fn every_outcome_beside_lists_is_listed() {
    let mut wanted = BTreeSet::new();
    for &(call, said, told) in lists::NAMED_ANSWERS {
        wanted.extend(told.iter().map(|&near| (call, Seen::Answer(said, near))));
    }
    for call in lists::CHECKS {
        for &(said, told) in lists::ANSWERS {
            wanted.extend(told.iter().map(|&near| (call, Seen::Answer(said, near))));
        }
        let refused = |&near| (call, Seen::Refusal(18, FIRST, near));
        wanted.extend(lists::REFUSED.iter().map(refused));
    }
    let list = list();
    let missing: Vec<_> = wanted.difference(&list.beside_lists).collect();
    let further: Vec<_> = list.beside_lists.difference(&wanted).collect();
    assert!(
        missing.is_empty() && further.is_empty(),
        "{missing:?} {further:?}"
    );
}

/// Beside an agreement of every kind.
#[test]
fn every_outcome_beside_agreements_is_listed() {
    let mut wanted = BTreeSet::new();
    for &(call, said, told) in agreement::ANSWERS {
        let told = told.iter().copied().flatten();
        wanted.extend(told.map(|&near| (call, Seen::Answer(said, near))));
    }
    let list = list();
    let missing: Vec<_> = wanted.difference(&list.beside_agreements).collect();
    let further: Vec<_> = list.beside_agreements.difference(&wanted).collect();
    assert!(
        missing.is_empty() && further.is_empty(),
        "{missing:?} {further:?}"
    );
}

/// Beside examples of every kind, in the catalogue at any settings; in the usual one beside such as are above 0 and not those of shorter codes; in a
/// book beside the one that it has.
#[test]
fn every_outcome_beside_examples_is_listed() {
    let seen = |call, kind| (call, Seen::Answer("entries", kind));
    let of_catalogues = examples::kinds().map(|kind| seen("write_catalogue", kind));
    let mut wanted: BTreeSet<_> = of_catalogues.collect();
    for kind in [examples::ABOVE_0, examples::AFTER_SHORTER, examples::OVER] {
        wanted.insert(seen("usual_catalogue", kind));
    }
    wanted.insert(seen("book", examples::OVER));
    let list = list();
    let missing: Vec<_> = wanted.difference(&list.beside_examples).collect();
    assert!(missing.is_empty(), "{missing:?}");
}

/// The number that a spoiled library returns in place of the answer.
fn spoiled(spoil: fn(&Given, &mut Came), given: &Given, answer: &Answer) -> u64 {
    let mut returned = answer.returned();
    let came = &mut Came {
        returned: &mut returned,
        output: &mut [],
        lent: &[],
    };
    spoil(given, came);
    returned
}

/// The list alone shows every spoiled library of the calls that tell an agreement.
#[test]
fn spoiled_agreements_are_noticed() {
    let list = list();
    for &(call, spoiling, spoil) in SHIMS
        .iter()
        .filter(|shim| agreement::CALLS.contains(&shim.0))
    {
        let asked = list.agreements.iter().filter(|asked| asked.0 == call);
        let mut shows = asked.map(|(call, [first, second], answer)| {
            let given = Given {
                call,
                first,
                second,
                settings: &[],
            };
            spoiled(spoil, &given, answer) != answer.returned()
        });
        assert!(shows.any(|shows| shows), "{call}: {spoiling}");
    }
}

/// What a wrong reader gives of a survey's drawing in place of its very bytes.
type Part = fn(&[u8], usize) -> Vec<u8>;

const WRONG_READERS: &[(&str, Part)] = &[
    ("without the crane", |survey, d| {
        survey[RECORD * d..][..OLD_RECORD].to_vec()
    }),
    ("crane 0", |survey, d| {
        let mut part = survey[RECORD * d..][..RECORD].to_vec();
        part[CRANE_AT] = 0;
        part
    }),
    ("from where it was before there were cranes", |survey, d| {
        survey[OLD_RECORD * d..][..RECORD].to_vec()
    }),
];

/// The reader has no call from C, so that its spoiled libraries stand here: some fetch of the list has to show each.
#[test]
fn wrong_readers_are_noticed() {
    let list = list();
    let fetches = list.fetches.iter();
    let fetched: Vec<(&[u8], usize, Answer)> = fetches
        .map(|(survey, d)| (&survey[..], *d, answers::fetch(survey, *d)))
        .filter(|(_, _, answer)| answer.refused.number == 0)
        .collect();
    for (wrong, part) in WRONG_READERS {
        let shows =
            |(survey, d, answer): &&(&[u8], usize, Answer)| part(survey, *d) != answer.output;
        assert!(fetched.iter().any(|fetch| shows(&fetch)), "{wrong}");
    }
}
