//! The calls that the program `vectors` makes, and what it has to print, both from the other implementation alone. What the
//! paper or a published example says of a call stands with it and is asserted.
mod agreement;
mod book;
mod checks;
mod cranes;
mod drawings;
mod edges;
mod examples;
mod large;
mod lists;
mod lone;
mod notation;
mod pairs;
mod published;
#[cfg(test)]
mod tests;

use crate::agreement::TIMES;
use crate::answers::{self, Answer};
use crate::book::of_settings;
use crate::catalogue::{self, Codes, Entry, ENTRY, FORMER, USUAL};
use crate::cranes::told;
use crate::lists::told_of_settings;
use crate::lone::{near, NONE};
use crate::refused::Refused;
use crate::shims::Given;
use std::collections::BTreeSet;

/// What every lent byte holds before a call.
const LENT: u8 = 238;

/// The program lends no more bytes.
const MOST_LENT: usize = 16384;

/// The program reads three pages of so many bytes. A page's last call fills it by an argument that it does not look at.
const PAGE: usize = 65536;
const PAGES: usize = 3;
const LAST: &str = "end of the page, check_drawing:";

/// A call of the library: its arguments, and how many bytes it is lent.
enum Call<'a> {
    CheckDrawing(&'a [u8]),
    CheckSurvey(&'a [u8]),
    CheckCode(&'a [u8]),
    IsLeast(&'a [u8]),
    Compare(&'a [u8], &'a [u8]),
    Same(&'a [u8], &'a [u8]),
    CodeDrawing(&'a [u8], usize),
    Decode(&'a [u8], usize),
    MatchDrawing(&'a [u8], &'a [u8], usize),
    WriteCatalogue(&'a [u8], u16, u16, usize),
    UsualCatalogue(&'a [u8], usize),
    /// Its first argument is the kinds of devices and of cables, as numbers of two bytes.
    Book(&'a [u8; 4], u16, usize),
    /// The list comes last.
    CheckList(&'a [u8], u16, u16, &'a [u8]),
    CheckUsual(&'a [u8], &'a [u8]),
    CheckFour(&'a [u8], &'a [u8]),
}

/// A call as the list has it.
#[derive(Default)]
struct Parts<'a> {
    call: u16,
    word: &'static str,
    first: &'a [u8],
    second: &'a [u8],
    threshold: u16,
    limit: u16,
    lent: Option<usize>,
}

const FETCH: u16 = 7;

impl<'a> Call<'a> {
    fn parts(&self) -> Parts<'a> {
        let one = |call, word, first| Parts {
            call,
            word,
            first,
            ..Parts::default()
        };
        let two = |call, word, first, second| Parts {
            second,
            ..one(call, word, first)
        };
        let lent = |parts, lent| Parts {
            lent: Some(lent),
            ..parts
        };
        match *self {
            Call::CheckDrawing(drawing) => one(1, "check_drawing", drawing),
            Call::CheckSurvey(survey) => one(2, "check_survey", survey),
            Call::CheckCode(code) => one(3, "check_code", code),
            Call::IsLeast(code) => one(4, "is_least", code),
            Call::Compare(first, second) => two(5, "compare", first, second),
            Call::Same(first, second) => two(6, "same", first, second),
            Call::CodeDrawing(drawing, room) => lent(one(8, "code_drawing", drawing), room),
            Call::Decode(code, room) => lent(one(9, "decode", code), room),
            Call::MatchDrawing(pattern, drawing, room) => {
                lent(two(10, "match_drawing", pattern, drawing), room)
            }
            Call::WriteCatalogue(survey, threshold, limit, room) => Parts {
                threshold,
                limit,
                ..lent(one(11, "write_catalogue", survey), room)
            },
            Call::UsualCatalogue(survey, room) => lent(one(12, "usual_catalogue", survey), room),
            Call::Book(kinds, limit, room) => Parts {
                limit,
                ..lent(one(13, "book", kinds), room)
            },
            Call::CheckList(survey, threshold, limit, list) => Parts {
                threshold,
                limit,
                ..two(14, "check_list", survey, list)
            },
            Call::CheckUsual(survey, list) => two(15, "check_usual", survey, list),
            Call::CheckFour(survey, list) => two(16, "check_four", survey, list),
        }
    }

    /// The settings of a call that writes a catalogue or checks one.
    fn settings(&self) -> [u32; 2] {
        match *self {
            Call::UsualCatalogue(..) | Call::CheckUsual(..) => USUAL,
            Call::CheckFour(..) => FORMER,
            _ => {
                let parts = self.parts();
                [parts.threshold.into(), parts.limit.into()]
            }
        }
    }

    /// The entries that a survey has for such a call, or why it has none.
    fn entries(&self, codes: &mut Codes, survey: &[u8]) -> Result<Vec<Entry>, Refused> {
        codes.of_survey(survey, self.settings())
    }

    fn answer(&self, codes: &mut Codes, lent: &[u8]) -> Answer {
        match *self {
            Call::CheckDrawing(drawing) => answers::check_drawing(drawing),
            Call::CheckSurvey(survey) => answers::check_survey(survey),
            Call::CheckCode(code) => answers::check_code(code),
            Call::IsLeast(code) => answers::is_least(code),
            Call::Compare(first, second) => answers::compare(first, second),
            Call::Same(first, second) => answers::same(first, second),
            Call::CodeDrawing(drawing, _) => answers::code(drawing, lent),
            Call::Decode(code, _) => answers::decode(code, lent),
            Call::MatchDrawing(pattern, drawing, _) => {
                answers::match_drawing(pattern, drawing, lent)
            }
            Call::WriteCatalogue(survey, ..) | Call::UsualCatalogue(survey, _) => {
                answers::catalogue(&self.entries(codes, survey), lent)
            }
            Call::Book(&[a_low, a_high, b_low, b_high], limit, _) => {
                let [a, b] = [[a_low, a_high], [b_low, b_high]].map(u16::from_le_bytes);
                answers::catalogue(&of_settings(a.into(), b.into(), limit.into()), lent)
            }
            Call::CheckList(survey, _, _, list)
            | Call::CheckUsual(survey, list)
            | Call::CheckFour(survey, list) => {
                answers::check_list(&self.entries(codes, survey), list)
            }
        }
    }

    /// What there is to tell of the examples of a catalogue that is answered.
    fn told_of_examples(&self, codes: &mut Codes, answer: &Answer) -> Vec<&'static str> {
        let (Call::WriteCatalogue(survey, ..) | Call::UsualCatalogue(survey, _), 0) =
            (self, answer.refused.number)
        else {
            return Vec::new();
        };
        let sheets = catalogue::read_survey(survey).expect("an accepted survey");
        let entries = self.entries(codes, survey).expect("a catalogue");
        let containing = codes.containing(&sheets, self.settings()[1] as usize);
        crate::examples::told(&sheets, &entries, &containing)
    }

    /// What there is to tell of a list that is checked, once its survey is accepted; by a call of settings with a name, beside these too.
    fn told_of_list(&self, codes: &mut Codes) -> Vec<&'static str> {
        let (survey, list, named) = match *self {
            Call::CheckList(survey, _, _, list) => (survey, list, false),
            Call::CheckUsual(survey, list) | Call::CheckFour(survey, list) => (survey, list, true),
            _ => return Vec::new(),
        };
        let mut right = |settings| {
            let entries = codes.of_survey(survey, settings).ok()?;
            Some(catalogue::bytes(&entries))
        };
        let [Some(right), Some(usual), Some(former)] =
            [self.settings(), USUAL, FORMER].map(&mut right)
        else {
            return Vec::new();
        };
        let by_name = told_of_settings(list, &usual, &former).filter(|_| named);
        let told = crate::lists::told(list, &right);
        by_name.into_iter().chain([told]).collect()
    }
}

/// The bytes of a call: four parts with their lengths, of which the settings have eight.
fn size(name: &str, parts: &Parts) -> usize {
    4 * 2 + name.len() + 8 + parts.first.len() + parts.second.len()
}

/// The calls as bytes, and what is printed of them.
#[derive(Default)]
pub struct List {
    calls: Vec<u8>,
    text: String,
    codes: Codes,
    seen: BTreeSet<(&'static str, Seen)>,
    beside_cranes: BTreeSet<(&'static str, Seen)>,
    beside_lists: BTreeSet<(&'static str, Seen)>,
    beside_agreements: BTreeSet<(&'static str, Seen)>,
    beside_examples: BTreeSet<(&'static str, Seen)>,
    fetches: Vec<(Vec<u8>, usize)>,
    agreements: Vec<(&'static str, [Vec<u8>; 2], Answer)>,
}

/// What a call may answer: something in a word, or a refusal and, if it is not the only or the first one's, whose; and what is lone
/// about that which it comes from, or what there is to tell of cranes, of a list, of an agreement or of examples.
#[derive(Clone, Copy, Debug, PartialEq, Eq, PartialOrd, Ord)]
enum Seen {
    Answer(&'static str, &'static str),
    Refusal(u8, &'static str, &'static str),
}

impl Seen {
    fn of(answer: &Answer, near: &'static str) -> Self {
        match answer.refused.number {
            0 => Seen::Answer(answer.said, near),
            number => Seen::Refusal(number, answer.said, near),
        }
    }
}

impl List {
    pub fn calls(&self) -> &[u8] {
        &self.calls
    }

    pub fn text(&self) -> &str {
        &self.text
    }

    /// A length and that many bytes.
    fn put_part(&mut self, bytes: &[u8]) {
        let length = u16::try_from(bytes.len()).expect("a short part");
        self.calls.extend(length.to_le_bytes());
        self.calls.extend(bytes);
    }

    fn put_parts(&mut self, name: &str, parts: &Parts) {
        let last = Call::CheckDrawing(&[]).parts();
        let left = PAGE - self.calls.len() % PAGE - size(LAST, &last);
        if left < size(name, parts) {
            let second = &vec![0; left];
            self.put_call(LAST, &Parts { second, ..last });
            self.put_line(LAST, &answers::check_drawing(&[]));
        }
        self.put_call(name, parts);
        assert!(self.calls.len() <= PAGES * PAGE, "the list is too long");
    }

    fn put_call(&mut self, name: &str, parts: &Parts) {
        let lent = parts.lent.unwrap_or(0);
        assert!(lent <= MOST_LENT, "{name} so many bytes are not lent");
        self.put_part(name.as_bytes());
        self.put_part(
            &[parts.call, parts.threshold, parts.limit, lent as u16]
                .map(u16::to_le_bytes)
                .concat(),
        );
        self.put_part(parts.first);
        self.put_part(parts.second);
    }

    fn put_line(&mut self, name: &str, answer: &Answer) {
        self.put_numbers(name, answer, answer.refused.at, answer.count);
    }

    /// An agreement stands by itself, where a refusal has the record at fault.
    fn put_agreeing(&mut self, name: &str, answer: &Answer) {
        let (agreement, decided) = (answer.count / TIMES, answer.count % TIMES);
        self.put_numbers(name, answer, answer.refused.at + agreement, decided);
    }

    fn put_numbers(&mut self, name: &str, answer: &Answer, at: usize, count: usize) {
        self.text += &format!("{name} {} {at} {count}\n", answer.refused.number);
    }

    /// Lines as long as a catalogue's entry, of which the last is shorter and perhaps empty.
    fn put_bytes(&mut self, bytes: &[u8]) {
        for (i, byte) in bytes.iter().enumerate() {
            self.text += &format!(" {byte}");
            if (i + 1) % ENTRY == 0 {
                self.text.push('\n');
            }
        }
        self.text.push('\n');
    }

    /// Adds a call of which only a length is there.
    fn put_cut(&mut self) {
        self.calls.extend([1, 0]);
        self.text += "malformed list\n";
    }

    /// Adds a call, and gives the answer that it has to have.
    fn put(&mut self, name: &str, call: Call) -> Answer {
        let parts = call.parts();
        let name = format!("{name}, {}:", parts.word);
        let lent = vec![LENT; parts.lent.unwrap_or(0)];
        let answer = call.answer(&mut self.codes, &lent);
        self.note(parts.word, &parts, &lent, &answer);
        for told in call.told_of_list(&mut self.codes) {
            self.beside_lists
                .insert((parts.word, Seen::of(&answer, told)));
        }
        for told in call.told_of_examples(&mut self.codes, &answer) {
            self.beside_examples
                .insert((parts.word, Seen::of(&answer, told)));
        }
        self.put_parts(&name, &parts);
        if crate::agreement::CALLS.contains(&parts.word) {
            self.put_agreeing(&name, &answer);
        } else {
            self.put_line(&name, &answer);
        }
        if parts.lent.is_some() {
            self.put_bytes(&answer.output);
        }
        answer
    }

    /// Notes what a call answered.
    fn note(&mut self, call: &'static str, parts: &Parts, lent: &[u8], answer: &Answer) {
        let given = Given {
            call,
            first: parts.first,
            second: parts.second,
            settings: &[parts.threshold.into(), parts.limit.into()],
        };
        let lone = match call {
            "open" | "fetch" => NONE,
            _ => near(call, parts.first, parts.second, answer),
        };
        self.seen.insert((call, Seen::of(answer, lone)));
        for told in told(&given, lent, answer) {
            self.beside_cranes.insert((call, Seen::of(answer, told)));
        }
        for told in crate::agreement::told(&given, answer) {
            self.beside_agreements
                .insert((call, Seen::of(answer, told)));
        }
        if let Some(told) = crate::examples::told_of_lent(call, lent, answer) {
            self.beside_examples.insert((call, Seen::of(answer, told)));
        }
        if crate::agreement::CALLS.contains(&call) {
            let codes = [parts.first, parts.second].map(<[u8]>::to_vec);
            self.agreements.push((call, codes, answer.clone()));
        }
    }

    /// Adds the opening of a survey and three fetches from it.
    fn put_fetches(&mut self, name: &str, survey: &[u8], numbers: [u16; 3]) {
        let name = format!("{name}, reader:");
        let parts = Parts {
            call: FETCH,
            first: survey,
            second: &numbers.map(u16::to_le_bytes).concat(),
            ..Parts::default()
        };
        self.put_parts(&name, &parts);
        self.text += &name;
        for d in numbers {
            let (opened, fetched) = (answers::open(survey), answers::fetch(survey, d.into()));
            self.note("open", &parts, &[], &opened);
            self.note("fetch", &parts, &[], &fetched);
            self.fetches.push((survey.to_vec(), d.into()));
            self.put_line(" opened", &opened);
            self.put_line(" fetched", &fetched);
            self.put_bytes(&fetched.output);
        }
    }
}

/// Every call, group by group.
pub fn list() -> List {
    let mut list = List::default();
    drawings::put(&mut list);
    edges::put(&mut list);
    lone::put(&mut list);
    published::put(&mut list);
    large::put(&mut list);
    book::put(&mut list);
    pairs::put(&mut list);
    examples::put(&mut list);
    cranes::put(&mut list);
    lists::put(&mut list);
    agreement::put(&mut list);
    list.put_cut();
    list
}
