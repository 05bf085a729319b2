//! Calls in groups, with what is known of their answers.
use super::{Call, List};
use crate::agreement::TIMES;
use crate::catalogue::{Entry, ENTRY};
use crate::code;
use crate::drawing::{Drawing, RECORD};
use crate::map;
use crate::refused::Refused;

/// So many bytes are lent beyond the answer, to see that they keep their content.
const MORE: usize = 2;

/// What a catalogue is asked of.
pub struct Asked<'a> {
    pub survey: &'a [u8],
    pub threshold: u16,
    pub limit: u16,
}

/// The check of a survey and a list at settings that have a name, and that name.
pub(super) type Named = (&'static str, for<'a> fn(&'a [u8], &'a [u8]) -> Call<'a>);
pub(super) const NAMED: [Named; 2] = [
    ("usual", |survey, list| Call::CheckUsual(survey, list)),
    ("former", |survey, list| Call::CheckFour(survey, list)),
];

fn read(record: &[u8]) -> Drawing {
    Drawing::read(record).expect("an accepted drawing")
}

impl List {
    /// A drawing has this least code.
    pub fn put_code(&mut self, name: &str, drawing: &[u8], wanted: &[u8]) {
        let answer = self.put(name, Call::CodeDrawing(drawing, wanted.len() + MORE));
        assert_eq!(answer.output[..answer.count], *wanted, "{name}");
    }

    /// What is said of two codes, or of one and the least of what it describes, and in how many records they agree.
    pub(super) fn put_agreement(&mut self, name: &str, call: Call, said: &str, agreement: usize) {
        let answer = self.put(name, call);
        let told = (answer.said, answer.count / TIMES);
        assert_eq!(told, (said, agreement), "{name}");
    }

    /// A DFS code is the least code of what it describes: it agrees with that in all records.
    pub fn put_least(&mut self, name: &str, code: &[u8]) {
        self.put_read(name, code);
        let records = code.len() / code::RECORD;
        self.put_agreement(name, Call::IsLeast(code), "yes", records);
    }

    /// It is not, and agrees with the least code in so many records.
    pub fn put_not_least(&mut self, name: &str, code: &[u8], agreement: usize) {
        self.put_read(name, code);
        self.put_agreement(name, Call::IsLeast(code), "no", agreement);
    }

    fn put_read(&mut self, name: &str, code: &[u8]) {
        self.put(name, Call::CheckCode(code));
        self.put(name, Call::Decode(code, RECORD + MORE));
    }

    /// The first code comes before the second, and they agree in so many records.
    pub fn put_order(&mut self, name: &str, first: &[u8], second: &[u8], agreement: usize) {
        let records = first.len() / code::RECORD;
        self.put_agreement(name, Call::Compare(first, second), "before", agreement);
        self.put_agreement(name, Call::Compare(second, first), "after", agreement);
        self.put_agreement(name, Call::Compare(first, first), "equal", records);
    }

    /// There are so many maps of a pattern into a drawing, and this is the least.
    pub fn put_map(
        &mut self,
        name: &str,
        pattern: &[u8],
        drawing: &[u8],
        wanted: &[u8],
        maps: usize,
    ) {
        let lent = usize::from(pattern[0]) + MORE;
        let answer = self.put(name, Call::MatchDrawing(pattern, drawing, lent));
        assert_eq!(answer.output[..answer.count], *wanted, "{name}");
        assert_eq!(map::maps(&read(pattern), &read(drawing)), maps, "{name}");
    }

    pub fn put_same(&mut self, name: &str, first: &[u8], second: &[u8], wanted: bool) {
        for (first, second) in [(first, second), (second, first)] {
            let answer = self.put(name, Call::Same(first, second));
            assert_eq!(
                (answer.refused.number, answer.count),
                (0, usize::from(wanted)),
                "{name}"
            );
        }
    }

    /// A catalogue, with room for what the other implementation finds. Gives the number of its entries.
    pub fn put_catalogue(&mut self, name: &str, asked: &Asked) -> usize {
        let lent = self.entries(asked).len() * ENTRY + MORE;
        let call = Call::WriteCatalogue(asked.survey, asked.threshold, asked.limit, lent);
        self.put(name, call).count
    }

    pub fn entries(&mut self, asked: &Asked) -> Vec<Entry> {
        let settings = [asked.threshold.into(), asked.limit.into()];
        let entries = self.codes.of_survey(asked.survey, settings);
        entries.expect("an accepted survey")
    }

    /// A catalogue has this code with this support, and so many entries are the code with one record more.
    pub fn assert_entry(
        &mut self,
        asked: &Asked,
        code: &[u8],
        support: usize,
        extensions: Option<usize>,
    ) {
        let entries = self.entries(asked);
        let supports = entries
            .iter()
            .filter(|entry| code::bytes(&entry.code) == code);
        assert!(
            supports.map(|entry| entry.support).eq([support]),
            "{code:?}"
        );
        let extends =
            |bytes: &[u8]| bytes.len() == code.len() + code::RECORD && bytes.starts_with(code);
        let found = entries
            .iter()
            .filter(|entry| extends(&code::bytes(&entry.code)))
            .count();
        assert!(
            extensions.is_none_or(|wanted| wanted == found),
            "{code:?}: {found} extensions"
        );
    }

    /// A catalogue has this code with this example.
    pub fn assert_example(&mut self, asked: &Asked, code: &[u8], example: usize) {
        let entries = self.entries(asked);
        let found = entries
            .iter()
            .find(|entry| code::bytes(&entry.code) == code);
        assert_eq!(found.map(|entry| entry.example), Some(example), "{code:?}");
    }

    fn assert_refused(&mut self, name: &str, call: Call, wanted: Refused) {
        assert_eq!(self.put(name, call).refused, wanted, "{name}");
    }

    /// Every call that takes a code refuses this one: alone, as the first of two and as the second.
    pub fn put_refused_code(&mut self, name: &str, refused: &[u8], number: u8, at: usize) {
        let fine = [0, 1, 1, 7, 2];
        let wanted = Refused { number, at };
        self.assert_refused(name, Call::CheckCode(refused), wanted);
        self.assert_refused(name, Call::Decode(refused, RECORD), wanted);
        self.assert_refused(name, Call::IsLeast(refused), wanted);
        self.assert_refused(
            &format!("{name} first"),
            Call::Compare(refused, &fine),
            wanted,
        );
        self.assert_refused(
            &format!("{name} second"),
            Call::Compare(&fine, refused),
            wanted,
        );
    }

    /// Every call that takes one or two drawings refuses this one, in each place.
    pub fn put_refused_drawing(&mut self, name: &str, refused: &[u8], fine: &[u8], number: u8) {
        let wanted = Refused::of(number);
        let (first, second) = (format!("{name} first"), format!("{name} second"));
        self.assert_refused(name, Call::CheckDrawing(refused), wanted);
        self.assert_refused(name, Call::CodeDrawing(refused, 15), wanted);
        self.assert_refused(&first, Call::MatchDrawing(refused, fine, 5), wanted);
        self.assert_refused(&second, Call::MatchDrawing(fine, refused, 5), wanted);
        self.assert_refused(&first, Call::Same(refused, fine), wanted);
        self.assert_refused(&second, Call::Same(fine, refused), wanted);
    }

    /// Every call that takes a survey refuses this drawing, first and last of two, and names it.
    pub fn put_refused_in_survey(&mut self, name: &str, refused: &[u8], fine: &[u8], number: u8) {
        for (at, survey) in [[refused, fine].concat(), [fine, refused].concat()]
            .iter()
            .enumerate()
        {
            let name = format!("{name} at {at}");
            self.put_refused_survey(&name, survey, Refused { number, at });
        }
    }

    /// Every call that takes a survey, except the reader, refuses this one.
    pub fn put_refused_survey(&mut self, name: &str, survey: &[u8], wanted: Refused) {
        self.assert_refused(name, Call::CheckSurvey(survey), wanted);
        self.assert_refused(name, Call::WriteCatalogue(survey, 1, 2, 3), wanted);
        self.assert_refused(name, Call::UsualCatalogue(survey, 3), wanted);
    }

    /// Every call that checks a list refuses this survey, whatever the list is: a byte is none.
    pub fn put_refused_check(&mut self, name: &str, survey: &[u8], wanted: Refused) {
        self.assert_refused(name, Call::CheckList(survey, 1, 2, &[1]), wanted);
        for (_, check) in NAMED {
            self.assert_refused(name, check(survey, &[1]), wanted);
        }
    }

    pub fn put_refused_settings(&mut self, name: &str, asked: &Asked, number: u8) {
        let call = Call::WriteCatalogue(asked.survey, asked.threshold, asked.limit, 3);
        self.assert_refused(name, call, Refused::of(number));
    }

    /// Whether a list is a catalogue.
    pub fn put_check(&mut self, name: &str, asked: &Asked, list: &[u8], wanted: &str) {
        let call = Call::CheckList(asked.survey, asked.threshold, asked.limit, list);
        assert_eq!(self.put(name, call).said, wanted, "{name}");
    }

    /// Whether it is the one of settings with a name.
    pub(super) fn put_named_check(
        &mut self,
        name: &str,
        (_, check): Named,
        (survey, list): (&[u8], &[u8]),
        wanted: &str,
    ) {
        assert_eq!(self.put(name, check(survey, list)).said, wanted, "{name}");
    }

    /// What the settings or the length of a list are refused with.
    pub fn put_refused_list(&mut self, name: &str, asked: &Asked, list: &[u8], number: u8) {
        let call = Call::CheckList(asked.survey, asked.threshold, asked.limit, list);
        self.assert_refused(name, call, Refused::of(number));
    }

    pub(super) fn put_refused_named_list(
        &mut self,
        name: &str,
        (_, check): Named,
        survey: &[u8],
        list: &[u8],
    ) {
        self.assert_refused(name, check(survey, list), Refused::of(18));
    }
}
