//! One call of the library at a time, held against the answer and the output that the other implementation expects. The lent
//! output stands between guard bytes. Beside each call the shims of shims.rs spoil a copy of what came back: the same comparison has
//! to find each of them out at some call.
use holvreiz::raw;
use holvreiz_differential::agreement;
use holvreiz_differential::answers::{self, Answer};
use holvreiz_differential::book;
use holvreiz_differential::catalogue::{self, each_its_crane, Codes, Entry, ENTRY, FORMER, USUAL};
use holvreiz_differential::cranes;
use holvreiz_differential::drawing::Drawing;
use holvreiz_differential::examples;
use holvreiz_differential::lists;
use holvreiz_differential::lone;
use holvreiz_differential::random::Random;
use holvreiz_differential::refused::Refused;
use holvreiz_differential::shims::{Came, Given, SHIMS};
use std::collections::{BTreeMap, BTreeSet};

const GUARD: usize = 24;

/// Of the catalogue at a lesser limit, which is a part of the one at a greater: entries of that are left out, or none is.
pub const LEFT_OUT: &str = "entries left out";
pub const ALL_KEPT: &str = "all entries kept";
const NO_ENTRY: &str = "no entry";

pub fn refused(number: u8, whose: &str) -> String {
    format!("refused {number:2}{whose}")
}

fn said(answer: &Answer) -> String {
    match answer.refused.number {
        0 => answer.said.to_string(),
        number => refused(number, answer.said),
    }
}

/// How what is written at a lesser limit is told of beside what is written at a greater one.
pub fn of_limits(lesser: [u32; 2], greater: [u32; 2], told: &str) -> String {
    let named = match (lesser, greater) {
        (FORMER, USUAL) => ", the former of the usual",
        _ => "",
    };
    format!("{} of {}{named}: {told}", lesser[1], greater[1])
}

/// The call that checks a list at these settings alone, if they have a name.
fn named_check(settings: [u32; 2]) -> Option<&'static str> {
    match settings {
        USUAL => Some("check_usual"),
        FORMER => Some("check_four"),
        _ => None,
    }
}

fn outcome(given: &Given, answer: &Answer) -> String {
    said(answer) + lone::near(given.call, given.first, given.second, answer)
}

/// How often each call had each outcome.
pub type Seen = BTreeMap<(&'static str, String), usize>;

/// What was seen, of each call by itself and of the cranes, the list, the agreement or the examples beside it, and of what was written at two limits;
/// and where the lent bytes come from.
pub struct Calls {
    seen: Seen,
    beside_cranes: Seen,
    beside_lists: Seen,
    beside_agreements: Seen,
    beside_examples: Seen,
    limits: Seen,
    found: BTreeSet<usize>,
    written_checked: usize,
    random: Random,
    codes: Codes,
}

/// What is wrong with what came back, if something is.
fn wrong(expected: &Answer, number: u64, output: &[u8]) -> Option<&'static str> {
    if number != expected.returned() {
        return Some("another number was returned");
    }
    (output != expected.output).then_some("another output")
}

/// What a call that checks a list returns.
fn ask_check(call: &str, survey: &[u8], settings: [u32; 2], list: &[u8]) -> u64 {
    let [threshold, limit] = settings;
    match call {
        "check_usual" => raw::check_usual(survey, list),
        "check_four" => raw::check_four(survey, list),
        _ => raw::check_list(survey, threshold, limit, list),
    }
}

impl Calls {
    pub fn new(seed: u64) -> Self {
        Calls {
            seen: BTreeMap::new(),
            beside_cranes: BTreeMap::new(),
            beside_lists: BTreeMap::new(),
            beside_agreements: BTreeMap::new(),
            beside_examples: BTreeMap::new(),
            limits: BTreeMap::new(),
            found: BTreeSet::new(),
            written_checked: 0,
            random: Random::new(seed),
            codes: Codes::default(),
        }
    }

    pub fn seen(&self) -> &Seen {
        &self.seen
    }

    pub fn seen_beside_cranes(&self) -> &Seen {
        &self.beside_cranes
    }

    pub fn seen_beside_lists(&self) -> &Seen {
        &self.beside_lists
    }

    pub fn seen_beside_agreements(&self) -> &Seen {
        &self.beside_agreements
    }

    pub fn seen_beside_examples(&self) -> &Seen {
        &self.beside_examples
    }

    /// How often what the library had written at a limit was held against what it had written at a greater one.
    pub fn seen_limits(&self) -> &Seen {
        &self.limits
    }

    /// How often the check was given what the library had written.
    pub fn written_checked(&self) -> usize {
        self.written_checked
    }

    /// The shims that no call has found out.
    pub fn unnoticed(&self) -> Vec<(&'static str, &'static str)> {
        let left = (0..SHIMS.len()).filter(|shim| !self.found.contains(shim));
        left.map(|shim| (SHIMS[shim].0, SHIMS[shim].1)).collect()
    }

    /// Calls with a lent output of random bytes between guards, and compares everything. Gives the answer.
    fn hold(
        &mut self,
        given: Given,
        room: usize,
        expect: impl FnOnce(&[u8]) -> Answer,
        run: impl FnOnce(&mut [u8]) -> u64,
    ) -> Answer {
        let Given {
            call,
            first,
            second,
            settings,
        } = given;
        let before = self.random.bytes(room + 2 * GUARD);
        let expected = expect(&before[GUARD..GUARD + room]);
        let outcome = outcome(&given, &expected);
        let mut after = before.clone();
        let number = run(&mut after[GUARD..GUARD + room]);
        let output = &after[GUARD..GUARD + room];
        if let Some(wrong) = wrong(&expected, number, output) {
            panic!("{call} of {first:?}, {second:?}, {settings:?}: {outcome} expected, {wrong}: {number:#x}");
        }
        let guards = |bytes: &[u8]| [&bytes[..GUARD], &bytes[GUARD + room..]].concat();
        assert_eq!(
            guards(&after),
            guards(&before),
            "{call} of {first:?}, {second:?}, {settings:?} wrote outside its output"
        );
        let lent = &before[GUARD..][..room];
        let noticed = |number, output: &[u8]| wrong(&expected, number, output).is_some();
        self.spoil(&given, number, (output, lent), noticed);
        *self.seen.entry((call, outcome)).or_default() += 1;
        for told in cranes::told(&given, lent, &expected) {
            let outcome = said(&expected) + told;
            *self.beside_cranes.entry((call, outcome)).or_default() += 1;
        }
        for told in agreement::told(&given, &expected) {
            let outcome = said(&expected) + told;
            *self.beside_agreements.entry((call, outcome)).or_default() += 1;
        }
        if let Some(told) = examples::told_of_lent(call, lent, &expected) {
            let outcome = said(&expected) + told;
            *self.beside_examples.entry((call, outcome)).or_default() += 1;
        }
        expected
    }

    /// Each shim of this call that is not found out yet, on a copy of what came back. The lent bytes are given as they are and were.
    fn spoil(
        &mut self,
        given: &Given,
        number: u64,
        lent: (&[u8], &[u8]),
        noticed: impl Fn(u64, &[u8]) -> bool,
    ) {
        for (shim, (call, _, spoil)) in SHIMS.iter().enumerate() {
            if *call != given.call || self.found.contains(&shim) {
                continue;
            }
            let (mut returned, mut output) = (number, lent.0.to_vec());
            let came = &mut Came {
                returned: &mut returned,
                output: &mut output,
                lent: lent.1,
            };
            spoil(given, came);
            if noticed(returned, &output) {
                self.found.insert(shim);
            }
        }
    }

    pub fn code(&mut self, drawing: &[u8], room: usize) {
        let expect = |lent: &[u8]| answers::code(drawing, lent);
        let given = Given {
            call: "code",
            first: drawing,
            second: &[],
            settings: &[],
        };
        self.hold(given, room, expect, |output| raw::code(drawing, output));
    }

    pub fn decode(&mut self, bytes: &[u8], room: usize) {
        let expect = |lent: &[u8]| answers::decode(bytes, lent);
        let given = Given {
            call: "decode",
            first: bytes,
            second: &[],
            settings: &[],
        };
        self.hold(given, room, expect, |output| raw::decode(bytes, output));
    }

    pub fn is_least(&mut self, bytes: &[u8]) {
        let expect = |_: &[u8]| answers::is_least(bytes);
        let given = Given {
            call: "is_least",
            first: bytes,
            second: &[],
            settings: &[],
        };
        self.hold(given, 0, expect, |_| raw::is_least(bytes));
    }

    pub fn compare(&mut self, first: &[u8], second: &[u8]) {
        let expect = |_: &[u8]| answers::compare(first, second);
        let given = Given {
            call: "compare",
            first: first,
            second: second,
            settings: &[],
        };
        self.hold(given, 0, expect, |_| raw::compare(first, second));
    }

    pub fn match_drawing(&mut self, pattern: &[u8], drawing: &[u8], room: usize) {
        let expect = |lent: &[u8]| answers::match_drawing(pattern, drawing, lent);
        let given = Given {
            call: "match",
            first: pattern,
            second: drawing,
            settings: &[],
        };
        self.hold(given, room, expect, |output| {
            raw::match_drawing(pattern, drawing, output)
        });
    }

    pub fn same(&mut self, first: &[u8], second: &[u8]) {
        let expect = |_: &[u8]| answers::same(first, second);
        let given = Given {
            call: "same",
            first: first,
            second: second,
            settings: &[],
        };
        self.hold(given, 0, expect, |_| raw::same(first, second));
    }

    /// The catalogue with as many bytes lent as `room` makes of those that the entries need.
    pub fn catalogue(
        &mut self,
        survey: &[u8],
        threshold: u32,
        limit: u32,
        room: impl Fn(usize) -> usize,
    ) {
        let entries = self.codes.of_survey(survey, [threshold, limit]);
        let room = room(entries.as_ref().map_or(2, Vec::len) * ENTRY);
        self.hold_catalogue(survey, [threshold, limit], &entries, room);
    }

    /// The catalogue of an old survey, converted: its drawings are counted one by one.
    pub fn old_catalogue(&mut self, drawings: &[Drawing], threshold: u32, limit: u32) {
        let (s, l) = (threshold as usize, limit as usize);
        let entries = self.codes.catalogue_of_drawings(drawings, s, l);
        let room = entries.len() * ENTRY + 1;
        let survey = each_its_crane(drawings);
        self.hold_catalogue(&survey, [threshold, limit], &Ok(entries), room);
    }

    fn hold_catalogue(
        &mut self,
        survey: &[u8],
        settings: [u32; 2],
        entries: &Result<Vec<Entry>, Refused>,
        room: usize,
    ) {
        let expect = |lent: &[u8]| answers::catalogue(entries, lent);
        let given = Given {
            call: "catalogue",
            first: survey,
            second: &[],
            settings: &settings,
        };
        let [threshold, limit] = settings;
        let answer = self.hold(given, room, expect, |output| {
            raw::catalogue(survey, threshold, limit, output)
        });
        if let Ok(frequent) = entries {
            self.note_examples(survey, limit, frequent, &answer);
            self.hold_written(survey, settings, frequent.len());
        }
    }

    /// What there is to tell of the examples that were answered.
    fn note_examples(&mut self, survey: &[u8], limit: u32, entries: &[Entry], answer: &Answer) {
        if answer.refused.number != 0 {
            return;
        }
        let sheets = catalogue::read_survey(survey).expect("accepted");
        let containing = self.codes.containing(&sheets, limit as usize);
        for told in examples::told(&sheets, entries, &containing) {
            let outcome = said(answer) + told;
            *self
                .beside_examples
                .entry(("catalogue", outcome))
                .or_default() += 1;
        }
    }

    /// What the library writes as a catalogue its check says yes to.
    fn hold_written(&mut self, survey: &[u8], settings: [u32; 2], entries: usize) {
        let [threshold, limit] = settings;
        let mut written = vec![0; entries * ENTRY];
        let returned = raw::catalogue(survey, threshold, limit, &mut written);
        assert_eq!(returned, entries as u64);
        for call in named_check(settings).into_iter().chain(["check_list"]) {
            assert_eq!(ask_check(call, survey, settings, &written), 1);
            self.written_checked += 1;
        }
        for lesser in 1..limit {
            self.hold_limits(survey, [threshold, lesser], settings, &written);
        }
    }

    /// What the library writes at a lesser limit is, byte for byte, the entries with no more cables of what it wrote at the greater one.
    fn hold_limits(&mut self, survey: &[u8], lesser: [u32; 2], greater: [u32; 2], written: &[u8]) {
        let [threshold, limit] = lesser;
        let due = lists::few_cables(written, limit);
        let mut output = vec![0; written.len()];
        let returned = raw::catalogue(survey, threshold, limit, &mut output);
        assert!(
            returned == (due.len() / ENTRY) as u64 && output.starts_with(&due),
            "{survey:?}: what is written at {lesser:?} is no part of what is written at {greater:?}"
        );
        self.spoil_limits(survey, greater, written, |spoiled| {
            lists::few_cables(spoiled, limit) != due
        });
        let told = match due.len() {
            0 => NO_ENTRY,
            length if length == written.len() => ALL_KEPT,
            _ => LEFT_OUT,
        };
        let outcome = of_limits(lesser, greater, told);
        *self.limits.entry(("limits", outcome)).or_default() += 1;
    }

    /// The shims of what is written at a greater limit. An entry more has room, so that one can be listed twice.
    fn spoil_limits(
        &mut self,
        survey: &[u8],
        greater: [u32; 2],
        written: &[u8],
        noticed: impl Fn(&[u8]) -> bool,
    ) {
        let given = Given {
            call: "limits",
            first: survey,
            second: &[],
            settings: &greater,
        };
        let entries = (written.len() / ENTRY) as u64;
        let lent = vec![0; written.len() + ENTRY];
        let output = [written, &[0; ENTRY]].concat();
        self.spoil(&given, entries, (&output, &lent), |number, output| {
            noticed(&output[..number as usize * ENTRY])
        });
    }

    /// The check of each list that `lists` makes of the right one, which is empty where the survey is refused; at settings that have a name by
    /// their own call too.
    pub fn check_lists(
        &mut self,
        survey: &[u8],
        settings: [u32; 2],
        lists: impl FnOnce(&[u8]) -> Vec<Vec<u8>>,
    ) {
        let entries = self.codes.of_survey(survey, settings);
        let right = entries.as_ref().map(|entries| catalogue::bytes(entries));
        let named = named_check(settings);
        let [usual, former] = [USUAL, FORMER].map(|other| match named {
            Some(_) => self.list_of(survey, other).unwrap_or_default(),
            None => Vec::new(),
        });
        for list in lists(right.as_deref().unwrap_or(&[])) {
            for call in named.into_iter().chain(["check_list"]) {
                let answer = self.hold_check(call, survey, settings, &entries, &list);
                let Ok(right) = &right else {
                    continue;
                };
                let by_name = lists::told_of_settings(&list, &usual, &former);
                let by_name = by_name.filter(|_| named == Some(call));
                for told in by_name.into_iter().chain([lists::told(&list, right)]) {
                    let outcome = said(&answer) + told;
                    *self.beside_lists.entry((call, outcome)).or_default() += 1;
                }
            }
        }
    }

    fn hold_check(
        &mut self,
        call: &'static str,
        survey: &[u8],
        settings: [u32; 2],
        entries: &Result<Vec<Entry>, Refused>,
        list: &[u8],
    ) -> Answer {
        let given = Given {
            call,
            first: survey,
            second: list,
            settings: &settings,
        };
        let expect = |_: &[u8]| answers::check_list(entries, list);
        self.hold(given, 0, expect, |_| {
            ask_check(call, survey, settings, list)
        })
    }

    /// The catalogue of a survey as a list, if it has one.
    pub fn list_of(&mut self, survey: &[u8], settings: [u32; 2]) -> Option<Vec<u8>> {
        let entries = self.codes.of_survey(survey, settings);
        Some(catalogue::bytes(&entries.ok()?))
    }

    /// The book, once for each of so many bytes lent as `rooms` makes of those that the entries need.
    pub fn book(&mut self, settings: [u32; 3], rooms: impl Fn(usize) -> Vec<usize>) {
        let [a, b, limit] = settings;
        let entries = book::of_settings(a, b, limit);
        for room in rooms(entries.as_ref().map_or(2, Vec::len) * ENTRY) {
            let expect = |lent: &[u8]| answers::catalogue(&entries, lent);
            let given = Given {
                call: "book",
                first: &[],
                second: &[],
                settings: &settings,
            };
            self.hold(given, room, expect, |output| raw::book(a, b, limit, output));
        }
    }
}
