//! Tests of the tests: libraries that each spoil one kind of answer, in one byte, a count, a refusal or its drawing. A shim takes what the
//! library returned and wrote, and changes it where its kind of answer is given; the comparison has to notice every one of them.
use crate::agreement::{self, TIMES};
use crate::answers;
use crate::book;
use crate::catalogue::{
    self, Codes, ENTRY, EXAMPLE_AT, FORMER, OLD_ENTRY, RECORDS_AT, SUPPORT_AT, USUAL,
};
use crate::code::{self, Code, Record};
use crate::cranes::{self, OLD_RECORD};
use crate::drawing::{Drawing, CRANE_AT, RECORD};
use crate::lists::few_cables;
use crate::map;
use crate::rules::{self, Rule, Rules, RIGHT};

/// A call with what it was given. Of two drawings or codes `first` is the first, of a survey and a list the survey; `settings` are the threshold and
/// the size limit of a catalogue, the kinds of devices, the kinds of cables and the size limit of a book. "limits" is a catalogue that is held
/// against what the library itself wrote at a lesser limit.
pub struct Given<'a> {
    pub call: &'static str,
    pub first: &'a [u8],
    pub second: &'a [u8],
    pub settings: &'a [u32],
}

/// What came back: the number returned, the lent bytes, and what these held before.
pub struct Came<'a> {
    pub returned: &'a mut u64,
    pub output: &'a mut [u8],
    pub lent: &'a [u8],
}

impl Came<'_> {
    fn count(&self) -> usize {
        (*self.returned & 0xffff_ffff) as usize
    }

    fn refusal(&self) -> u8 {
        (*self.returned >> 32) as u8
    }

    fn drawing(&self) -> u64 {
        *self.returned >> 40
    }

    fn answered(&self) -> bool {
        self.refusal() == 0
    }

    fn set_refusal(&mut self, number: u8) {
        *self.returned = *self.returned & !(0xff << 32) | u64::from(number) << 32;
    }

    /// The bytes of each entry.
    fn entries(&self) -> Vec<Vec<u8>> {
        let entries = self.output.chunks(ENTRY).take(self.count());
        entries.map(<[u8]>::to_vec).collect()
    }

    /// Answers with other entries, or with 15 where there is no room for them.
    fn list(&mut self, entries: &[Vec<u8>]) {
        let bytes = entries.concat();
        self.output.copy_from_slice(self.lent);
        match self.output.get_mut(..bytes.len()) {
            Some(front) => {
                front.copy_from_slice(&bytes);
                *self.returned = entries.len() as u64;
            }
            None => {
                self.output.fill(0);
                *self.returned = 15 << 32;
            }
        }
    }

    /// Answers with the book of other settings.
    fn list_book(&mut self, a: u32, b: u32, limit: u32) {
        let bytes = catalogue::bytes(&book::entries(a as u8, b as u8, limit as usize));
        self.list_bytes(&bytes);
    }

    fn list_bytes(&mut self, bytes: &[u8]) {
        let entries: Vec<Vec<u8>> = bytes.chunks(ENTRY).map(<[u8]>::to_vec).collect();
        self.list(&entries);
    }

    /// Answers with the catalogue that other rules give.
    fn list_by(&mut self, given: &Given, rules: Rules) {
        if let (true, &[threshold, limit]) = (self.answered(), given.settings) {
            self.list_bytes(&rules.list(given.first, [threshold, limit]));
        }
    }

    /// Answers with other counts: what is held against the threshold, and what is written as the support.
    fn list_counted(&mut self, given: &Given, held: Rule, support: Rule) {
        self.list_by(
            given,
            Rules {
                held,
                support,
                ..RIGHT
            },
        );
    }

    /// Answers with other examples.
    fn list_examples(&mut self, given: &Given, example: Rule) {
        self.list_by(given, Rules { example, ..RIGHT });
    }

    /// Changes each entry of an answer.
    fn change_entries(&mut self, change: impl Fn(&mut [u8])) {
        if self.answered() {
            let count = self.count();
            self.output.chunks_mut(ENTRY).take(count).for_each(change);
        }
    }

    /// Leaves the example of each entry as it was.
    fn leave_examples(&mut self) {
        if self.answered() {
            for k in 0..self.count() {
                let at = ENTRY * k + EXAMPLE_AT;
                self.output[at] = self.lent[at];
            }
        }
    }

    /// Answers with entries as they were before they had an example; the lent bytes behind them are kept.
    fn list_old(&mut self) {
        if self.answered() {
            let bytes = rules::old_form(&self.output[..ENTRY * self.count()]);
            self.output.copy_from_slice(self.lent);
            self.output[..bytes.len()].copy_from_slice(&bytes);
        }
    }

    /// Answers whether a list is right.
    fn say(&mut self, right: bool) {
        if self.answered() {
            *self.returned = u64::from(right);
        }
    }

    /// Says yes to a list that is wrong, where it and the right one are such.
    fn say_yes(&mut self, given: &Given, wanted: impl Fn(&[u8], &[u8]) -> bool) {
        if self.answered() && self.count() == 0 {
            let &[threshold, limit] = given.settings else {
                return;
            };
            self.say(wanted(
                given.second,
                &right(given.first, [threshold, limit]),
            ));
        }
    }

    /// Answers for other settings, if there is an answer.
    fn say_for(&mut self, given: &Given, settings: [u32; 2]) {
        let entries = Codes::default().of_survey(given.first, settings);
        if entries.is_ok() {
            self.say(answers::check_list(&entries, given.second).count == 1);
        }
    }

    /// Says yes to a list that is right at other settings.
    fn say_yes_for(&mut self, given: &Given, settings: [u32; 2]) {
        if self.answered() && self.count() == 0 {
            self.say_for(given, settings);
        }
    }

    /// Answers whether a list is the catalogue that other rules give.
    fn say_by(&mut self, given: &Given, rules: Rules) {
        if let (true, &[threshold, limit]) = (self.answered(), given.settings) {
            self.say(given.second == rules.list(given.first, [threshold, limit]));
        }
    }

    /// Answers by other counts.
    fn say_counted(&mut self, given: &Given, held: Rule, support: Rule) {
        self.say_by(
            given,
            Rules {
                held,
                support,
                ..RIGHT
            },
        );
    }

    /// Refuses the length of a list where something else is refused by one of these numbers.
    fn refuse_length_first(&mut self, given: &Given, numbers: &[u8]) {
        if numbers.contains(&self.refusal()) && given.second.len() % ENTRY != 0 {
            self.refuse(18, 0);
        }
    }

    /// Of a call that tells how far two codes agree: the number of records, and what is decided, the order or the verdict.
    fn agreement(&self) -> usize {
        self.count() / TIMES
    }

    fn decided(&self) -> usize {
        self.count() % TIMES
    }

    fn agree(&mut self, agreement: usize) {
        if self.answered() {
            *self.returned = (TIMES * agreement + self.decided()) as u64;
        }
    }

    fn decide(&mut self, number: usize) {
        if self.answered() {
            *self.returned = (TIMES * self.agreement() + number) as u64;
        }
    }

    /// Answers with another agreement of the two codes.
    fn agree_by(&mut self, given: &Given, count: impl Fn(&Code, &Code) -> usize) {
        if self.answered() {
            let (first, second) = two_codes(given);
            self.agree(count(&first, &second));
        }
    }

    /// Refuses what was answered.
    fn refuse(&mut self, number: u8, drawing: usize) {
        *self.returned = (drawing as u64 * 256 + u64::from(number)) << 32;
        self.output.copy_from_slice(self.lent);
    }

    /// Changes the byte at a place of the output, if it is there.
    fn spoil(&mut self, at: usize) {
        if let Some(byte) = self.output.get_mut(at) {
            *byte ^= 1;
        }
    }

    /// The byte behind the last `size` bytes of each thing that is counted.
    fn spoil_behind(&mut self, size: usize) {
        if self.answered() {
            self.spoil(self.count() * size);
        }
    }

    /// The byte at a place of each entry that is such.
    fn spoil_entries(&mut self, at: usize, wanted: impl Fn(&[u8]) -> bool) {
        self.change_entries(|entry| {
            if wanted(entry) {
                entry[at] ^= 1;
            }
        });
    }

    /// The support of each entry that is such.
    fn spoil_supports(&mut self, wanted: impl Fn(&[u8]) -> bool) {
        self.spoil_entries(SUPPORT_AT, wanted);
    }
}

type Spoil = fn(&Given, &mut Came);

/// The two codes whose agreement is told: those given, or the one given and the least of what it describes.
fn two_codes(given: &Given) -> (Code, Code) {
    let read = |bytes: &[u8]| code::read(bytes).expect("an accepted code");
    let first = read(given.first);
    let second = match given.call {
        "is_least" => code::least(&code::described(&first)),
        _ => read(given.second),
    };
    (first, second)
}

/// Mistakes that each call can make with an agreement.
fn agreement_not_told(_: &Given, came: &mut Came) {
    came.agree(0);
}

fn agreement_in_bytes(_: &Given, came: &mut Came) {
    came.agree(code::RECORD * came.agreement());
}

fn agreement_in_front(_: &Given, came: &mut Came) {
    if came.answered() {
        *came.returned = (TIMES * came.decided() + came.agreement()) as u64;
    }
}

fn agreement_of_four_bits(_: &Given, came: &mut Came) {
    came.agree(came.agreement() & 15);
}

fn last_of_equal_passed_over(given: &Given, came: &mut Came) {
    came.agree_by(given, |first, second| {
        agreement::of(first, second) - usize::from(first == second)
    });
}

fn parting_record_counted(given: &Given, came: &mut Came) {
    came.agree_by(given, |first, second| {
        let shorter = first.len().min(second.len());
        shorter.min(agreement::of(first, second) + 1)
    });
}

fn begun_record_counted(given: &Given, came: &mut Came) {
    came.agree_by(given, |first, second| {
        let (first, second) = (code::bytes(first), code::bytes(second));
        let bytes = first.iter().zip(&second);
        let alike = bytes.take_while(|(a, b)| a == b).count();
        alike.div_ceil(code::RECORD)
    });
}

fn later_records_counted(given: &Given, came: &mut Came) {
    came.agree_by(given, |first, second| {
        first.iter().zip(second).filter(|(a, b)| a == b).count()
    });
}

fn records_left_counted(given: &Given, came: &mut Came) {
    came.agree_by(given, |first, second| {
        first.len() - agreement::of(first, second)
    });
}

fn kinds_passed_over(given: &Given, came: &mut Came) {
    came.agree_by(given, |first, second| {
        let alike = |(a, b): &(&Record, &Record)| (a.i, a.j) == (b.i, b.j);
        first.iter().zip(second).take_while(alike).count()
    });
}

fn kind_of_j_passed_over(given: &Given, came: &mut Came) {
    came.agree_by(given, |first, second| {
        let alike = |(a, b): &(&Record, &Record)| (a.i, a.j, a.ki, a.c) == (b.i, b.j, b.ki, b.c);
        first.iter().zip(second).take_while(alike).count()
    });
}

fn lone_not_counted(given: &Given, came: &mut Came) {
    if is_lone_code(given.first) {
        came.agree(0);
    }
}

/// The records before the one at fault.
fn counted_though_refused(given: &Given, came: &mut Came) {
    if [10, 11].contains(&came.refusal()) {
        let refused = [given.first, given.second].map(|bytes| code::read(bytes).err());
        let at = refused.into_iter().flatten().next().expect("a refusal").at;
        *came.returned += (TIMES * at) as u64;
    }
}

/// The list that is right for an accepted survey.
fn right(survey: &[u8], settings: [u32; 2]) -> Vec<u8> {
    RIGHT.list(survey, settings)
}

/// Whether two lists have as many entries, and those are equal by what is looked at of each.
fn alike<T: PartialEq>(one: &[u8], other: &[u8], looked_at: impl Fn(&[u8]) -> T) -> bool {
    let pairs = one.chunks(ENTRY).zip(other.chunks(ENTRY));
    one.len() == other.len() && pairs.into_iter().all(|(a, b)| looked_at(a) == looked_at(b))
}

/// An entry or a list without the byte at a place.
fn without(bytes: &[u8], at: usize) -> Vec<u8> {
    [&bytes[..at], &bytes[at + 1..]].concat()
}

/// Whether two lists are equal but perhaps for a byte of theirs.
fn but_one_byte(one: &[u8], other: &[u8], at: usize) -> bool {
    one.len() == other.len() && at < one.len() && without(one, at) == without(other, at)
}

/// The entries of a list, sorted as bytes.
fn sorted(list: &[u8]) -> Vec<&[u8]> {
    let mut entries: Vec<&[u8]> = list.chunks(ENTRY).collect();
    entries.sort();
    entries
}

/// Its first bytes, those of the whole entries.
fn whole_entries(list: &[u8]) -> &[u8] {
    &list[..list.len() - list.len() % ENTRY]
}

fn devices(drawing: &[u8]) -> u8 {
    drawing.first().copied().unwrap_or(0)
}

fn cables(drawing: &[u8]) -> u8 {
    drawing.get(1).copied().unwrap_or(0)
}

fn is_lone_code(code: &[u8]) -> bool {
    code.len() == 5 && code[..2] == [0, 0]
}

/// Of the first two cables of a drawing that join one pair: their places, and the ends of each as they stand.
fn pair_again(drawing: &[u8]) -> Option<([usize; 2], [[u8; 2]; 2])> {
    let ends: Vec<[u8; 2]> = drawing[12..]
        .chunks(3)
        .take(cables(drawing).into())
        .map(|cable| [cable[0], cable[1]])
        .collect();
    let joins = |place: usize, [a, b]: [u8; 2]| ends[place] == [a, b] || ends[place] == [b, a];
    let earlier = |later: usize| (0..later).find(|&place| joins(place, ends[later]));
    let (first, second) = (0..ends.len()).find_map(|later| Some((earlier(later)?, later)))?;
    Some(([first, second], [ends[first], ends[second]]))
}

/// Tells 6 as 8 where the places and the ends of the two cables are such.
fn spoil_pair(given: &Given, came: &mut Came, wanted: impl Fn([usize; 2], [[u8; 2]; 2]) -> bool) {
    if came.refusal() == 6 {
        let (places, ends) = pair_again(given.first).expect("a pair that is joined twice");
        if wanted(places, ends) {
            came.set_refusal(8);
        }
    }
}

/// The records of an entry.
fn records(entry: &[u8]) -> std::slice::Chunks<'_, u8> {
    entry[RECORDS_AT..][..code::RECORD * usize::from(entry[0])].chunks(code::RECORD)
}

fn entry_devices(entry: &[u8]) -> u8 {
    records(entry)
        .map(|r| r[0].max(r[1]) + 1)
        .max()
        .unwrap_or(0)
}

/// The entries, where the limit is greater than the former one, and the place of the last that has no more cables than that lets one have.
fn last_of_few(given: &Given, came: &Came) -> Option<(Vec<Vec<u8>>, usize)> {
    let entries = came.entries();
    let is_few = |entry: &Vec<u8>| u32::from(entry[0]) <= FORMER[1];
    let last = entries.iter().rposition(is_few)?;
    (given.settings[1] > FORMER[1]).then_some((entries, last))
}

/// Answers with that entry changed, left out or listed again.
fn spoil_last_of_few(given: &Given, came: &mut Came, spoil: fn(&mut Vec<Vec<u8>>, usize)) {
    if let Some((mut entries, last)) = last_of_few(given, came) {
        spoil(&mut entries, last);
        came.list(&entries);
    }
}

fn lose_one_of_few(given: &Given, came: &mut Came) {
    spoil_last_of_few(given, came, |entries, last| drop(entries.remove(last)));
}

fn change_a_support_of_few(given: &Given, came: &mut Came) {
    spoil_last_of_few(given, came, |entries, last| entries[last][SUPPORT_AT] ^= 1);
}

fn change_an_example_of_few(given: &Given, came: &mut Came) {
    spoil_last_of_few(given, came, |entries, last| entries[last][EXAMPLE_AT] ^= 1);
}

/// Whether an entry's example is a drawing that contains its pattern.
fn contains(survey: &[u8], entry: &[u8]) -> bool {
    let record = survey.chunks(RECORD).nth(entry[EXAMPLE_AT].into());
    let code = records(entry).collect::<Vec<_>>().concat();
    let pattern = code::described(&code::read(&code).expect("a code"));
    record.is_some_and(|record| {
        let drawing = Drawing::read(record).expect("an accepted drawing");
        map::least_map(&pattern, &drawing).is_some()
    })
}

/// Mistakes that each check of a list can make.
fn yes_to_any_example(given: &Given, came: &mut Came) {
    came.say_yes(given, |list, right| {
        alike(list, right, |entry| without(entry, EXAMPLE_AT))
    });
}

fn yes_to_any_that_contains(given: &Given, came: &mut Came) {
    came.say_yes(given, |list, right| {
        alike(list, right, |entry| without(entry, EXAMPLE_AT))
            && list.chunks(ENTRY).all(|entry| contains(given.first, entry))
    });
}

fn yes_to_old_form(given: &Given, came: &mut Came) {
    if let (0 | 18, &[threshold, limit]) = (came.refusal(), given.settings) {
        let right = right(given.first, [threshold, limit]);
        if !right.is_empty() && given.second == rules::old_form(&right) {
            *came.returned = 1;
        }
    }
}

fn no_for_length_of_old_form(given: &Given, came: &mut Came) {
    if came.refusal() == 18 && given.second.len() % OLD_ENTRY == 0 {
        *came.returned = 0;
    }
}

fn length_of_old_form(given: &Given, came: &mut Came) {
    no_for_length_of_old_form(given, came);
    if came.answered() && given.second.len() % OLD_ENTRY != 0 {
        came.refuse(18, 0);
    }
}

fn yes_to_early_end(given: &Given, came: &mut Came) {
    came.say_yes(given, |list, right| {
        !list.is_empty() && right.starts_with(list)
    });
}

fn yes_to_more(given: &Given, came: &mut Came) {
    came.say_yes(given, |list, right| list.starts_with(right));
}

fn yes_to_any_support(given: &Given, came: &mut Came) {
    came.say_yes(given, |list, right| {
        alike(list, right, |entry| without(entry, SUPPORT_AT))
    });
}

fn no_to_empty(given: &Given, came: &mut Came) {
    if given.second.is_empty() {
        came.say(false);
    }
}

fn no_for_length(_: &Given, came: &mut Came) {
    if came.refusal() == 18 {
        *came.returned = 0;
    }
}

fn length_before_survey(given: &Given, came: &mut Came) {
    came.refuse_length_first(given, &[1, 2, 3, 4, 5, 6, 7, 8, 14]);
}

fn drawing_not_told(_: &Given, came: &mut Came) {
    if came.drawing() != 0 {
        *came.returned &= (1 << 40) - 1;
    }
}

/// The call that each one spoils, what it spoils, and how.
pub const SHIMS: &[(&str, &str, Spoil)] = &[
    (
        "code",
        "drawings of 10 devices and 20 cables",
        |given, came| {
            if came.answered() && devices(given.first) == 10 && cables(given.first) == 20 {
                came.spoil(99);
            }
        },
    ),
    (
        "code",
        "drawings of one cable, a byte more counted",
        |given, came| {
            if came.answered() && cables(given.first) == 1 {
                *came.returned += 1;
            }
        },
    ),
    ("code", "records with a kind of 255", |_, came| {
        if came.answered() {
            let count = came.count();
            if let Some(at) = came.output[..count].iter().position(|&byte| byte == 255) {
                came.spoil(at);
            }
        }
    }),
    ("code", "the byte behind the code", |_, came| {
        came.spoil_behind(1)
    }),
    ("code", "8 told as 7", |_, came| {
        if came.refusal() == 8 {
            came.set_refusal(7);
        }
    }),
    ("code", "15 with the last byte written", |_, came| {
        if came.refusal() == 15 {
            came.spoil(came.output.len().wrapping_sub(1));
        }
    }),
    ("code", "lone devices, the second kind", |given, came| {
        if came.answered() && devices(given.first) == 1 {
            came.spoil(4);
        }
    }),
    (
        "code",
        "3 of one device with cables told as 2",
        |given, came| {
            if came.refusal() == 3 && devices(given.first) == 1 {
                came.set_refusal(2);
            }
        },
    ),
    (
        "code",
        "6 of a cable told from its other end",
        |given, came| spoil_pair(given, came, |_, [first, second]| first != second),
    ),
    ("code", "6 of a cable told alike", |given, came| {
        spoil_pair(given, came, |_, [first, second]| first == second)
    }),
    ("code", "6 of the last two devices", |given, came| {
        spoil_pair(given, came, |_, [first, _]| {
            first.contains(&8) && first.contains(&9)
        })
    }),
    (
        "code",
        "6 of the first and the last of 20 cables",
        |given, came| spoil_pair(given, came, |places, _| places == [0, 19]),
    ),
    ("code", "7 for a crane that is not 0", |given, came| {
        if came.answered() && given.first[CRANE_AT] != 0 {
            came.refuse(7, 0);
        }
    }),
    ("code", "drawings without a crane taken", |given, came| {
        if came.refusal() == 1 && given.first.len() == OLD_RECORD {
            let answer = answers::code(&[given.first, &[0]].concat(), came.lent);
            came.output.copy_from_slice(&answer.output);
            *came.returned = u64::from(answer.refused.number) << 32 | answer.count as u64;
        }
    }),
    ("decode", "the kind of a tenth device", |_, came| {
        if came.answered() && came.output.first() == Some(&10) {
            came.spoil(11);
        }
    }),
    ("decode", "the kind of a twentieth cable", |_, came| {
        if came.answered() && came.output.get(1) == Some(&20) {
            came.spoil(71);
        }
    }),
    ("decode", "the ends of a cable exchanged", |_, came| {
        if came.answered() && came.output.len() > 16 {
            came.output.swap(15, 16);
        }
    }),
    ("decode", "the byte behind the drawing", |_, came| {
        came.spoil_behind(1)
    }),
    ("decode", "the crane left as it was", |_, came| {
        if came.answered() {
            came.output[CRANE_AT] = came.lent[CRANE_AT];
        }
    }),
    ("decode", "drawings without a crane written", |_, came| {
        if came.answered() {
            came.output[CRANE_AT] = came.lent[CRANE_AT];
            *came.returned = OLD_RECORD as u64;
        }
    }),
    (
        "decode",
        "no 15 where only the crane lacks",
        |given, came| {
            if came.refusal() == 15 && came.lent.len() == OLD_RECORD {
                let answer = answers::decode(given.first, &[0; RECORD]);
                came.output.copy_from_slice(&answer.output[..OLD_RECORD]);
                *came.returned = OLD_RECORD as u64;
            }
        },
    ),
    ("decode", "11 told as 10", |_, came| {
        if came.refusal() == 11 {
            came.set_refusal(10);
        }
    }),
    ("decode", "a cable at lone devices", |given, came| {
        if came.answered() && is_lone_code(given.first) {
            came.spoil(1);
        }
    }),
    (
        "decode",
        "10 of a lone device's record told as 11",
        |given, came| {
            if came.refusal() == 10 && is_lone_code(given.first) {
                came.set_refusal(11);
            }
        },
    ),
    ("is_least", "codes of 20 records", |given, came| {
        if came.answered() && given.first.len() == 100 {
            *came.returned ^= 1;
        }
    }),
    ("is_least", "no for codes of ten devices", |given, came| {
        if given.first.chunks(5).any(|r| r.get(1) == Some(&9)) {
            came.decide(0);
        }
    }),
    ("is_least", "no for lone devices", |given, came| {
        if is_lone_code(given.first) {
            came.decide(0);
        }
    }),
    ("is_least", "9 told as 10", |_, came| {
        if came.refusal() == 9 {
            came.set_refusal(10);
        }
    }),
    (
        "is_least",
        "yes where all but the last record agree",
        |given, came| {
            if came.agreement() + 1 == given.first.len() / code::RECORD {
                came.decide(1);
            }
        },
    ),
    ("is_least", "no agreement told", agreement_not_told),
    ("is_least", "no agreement told with no", |_, came| {
        if came.decided() == 0 {
            came.agree(0);
        }
    }),
    ("is_least", "all records told with no", |given, came| {
        came.agree(given.first.len() / code::RECORD)
    }),
    ("is_least", "devices counted with yes", |given, came| {
        if came.decided() == 1 {
            came.agree_by(given, |first, _| code::described(first).devices());
        }
    }),
    (
        "is_least",
        "agreement with the least from its own start",
        |given, came| {
            came.agree_by(given, |first, _| {
                let own = code::least_from(&code::described(first), 0);
                agreement::of(first, &own)
            })
        },
    ),
    (
        "is_least",
        "agreement with any code before it",
        |given, came| {
            if came.decided() == 0 {
                came.agree_by(given, |first, _| {
                    agreement::longest_before(first, &code::described(first))
                });
            }
        },
    ),
    (
        "is_least",
        "agreement with the least from another start",
        |given, came| {
            came.agree_by(given, |first, _| {
                let drawing = code::described(first);
                let last = code::least_from(&drawing, drawing.devices() - 1);
                agreement::of(first, &last)
            })
        },
    ),
    ("is_least", "agreement in bytes", agreement_in_bytes),
    (
        "is_least",
        "agreement and verdict exchanged",
        agreement_in_front,
    ),
    (
        "is_least",
        "agreement of 16 records or more told as of 16 fewer",
        agreement_of_four_bits,
    ),
    (
        "is_least",
        "the last record of a least code passed over",
        last_of_equal_passed_over,
    ),
    (
        "is_least",
        "the record counted on which they part",
        parting_record_counted,
    ),
    (
        "is_least",
        "a record counted that begins alike",
        begun_record_counted,
    ),
    (
        "is_least",
        "equal records counted behind the parting",
        later_records_counted,
    ),
    (
        "is_least",
        "the records counted that are left",
        records_left_counted,
    ),
    ("is_least", "kinds passed over", kinds_passed_over),
    (
        "is_least",
        "the kind of j passed over",
        kind_of_j_passed_over,
    ),
    ("is_least", "agreement 0 of lone devices", lone_not_counted),
    (
        "is_least",
        "a count where a record is refused",
        counted_though_refused,
    ),
    ("compare", "a code that begins another", |given, came| {
        let shorter = given.first.len().min(given.second.len());
        if came.decided() != 0 && given.first[..shorter] == given.second[..shorter] {
            came.decide(3 - came.decided());
        }
    }),
    (
        "compare",
        "codes that differ in the last byte alone",
        |given, came| {
            let last = given.first.len().saturating_sub(1);
            if came.answered()
                && given.first.len() == given.second.len()
                && given.first[..last] == given.second[..last]
            {
                came.decide(0);
            }
        },
    ),
    (
        "compare",
        "the second's refusal told as another",
        |_, came| {
            if came.refusal() == 10 {
                came.set_refusal(11);
            }
        },
    ),
    (
        "compare",
        "lone devices after codes with cables",
        |given, came| {
            if came.answered() && is_lone_code(given.first) != is_lone_code(given.second) {
                came.decide(3 - came.decided());
            }
        },
    ),
    (
        "compare",
        "equal where all records of the shorter agree",
        |given, came| {
            let shorter = given.first.len().min(given.second.len());
            if came.agreement() == shorter / code::RECORD {
                came.decide(0);
            }
        },
    ),
    (
        "compare",
        "before and after exchanged where no record agrees",
        |_, came| {
            if came.decided() != 0 && came.agreement() == 0 {
                came.decide(3 - came.decided());
            }
        },
    ),
    ("compare", "no agreement told", agreement_not_told),
    ("compare", "no agreement told with after", |_, came| {
        if came.decided() == 2 {
            came.agree(0);
        }
    }),
    ("compare", "no agreement told with equal", |_, came| {
        if came.decided() == 0 {
            came.agree(0);
        }
    }),
    (
        "compare",
        "all records counted of the longer that is begun",
        |given, came| {
            came.agree_by(given, |first, second| {
                let agreement = agreement::of(first, second);
                let begins = [first.len(), second.len()].contains(&agreement);
                if begins {
                    first.len().max(second.len())
                } else {
                    agreement
                }
            })
        },
    ),
    (
        "compare",
        "one record fewer of a code that begins another",
        |given, came| {
            came.agree_by(given, |first, second| {
                let begins = second.starts_with(first) || first.starts_with(second);
                agreement::of(first, second) - usize::from(begins && first != second)
            })
        },
    ),
    (
        "compare",
        "the record 0, 0 counted of two lone devices",
        |given, came| {
            if is_lone_code(given.first) && is_lone_code(given.second) {
                came.agree(1);
            }
        },
    ),
    ("compare", "agreement in bytes", agreement_in_bytes),
    (
        "compare",
        "agreement and order exchanged",
        agreement_in_front,
    ),
    (
        "compare",
        "agreement of 16 records or more told as of 16 fewer",
        agreement_of_four_bits,
    ),
    (
        "compare",
        "the last record of equal codes passed over",
        last_of_equal_passed_over,
    ),
    (
        "compare",
        "the record counted on which they part",
        parting_record_counted,
    ),
    (
        "compare",
        "a record counted that begins alike",
        begun_record_counted,
    ),
    (
        "compare",
        "equal records counted behind the parting",
        later_records_counted,
    ),
    (
        "compare",
        "the records counted that are left of the first",
        records_left_counted,
    ),
    ("compare", "kinds passed over", kinds_passed_over),
    (
        "compare",
        "the kind of j passed over",
        kind_of_j_passed_over,
    ),
    ("compare", "agreement 0 of lone devices", lone_not_counted),
    (
        "compare",
        "a count where a record is refused",
        counted_though_refused,
    ),
    ("match", "maps of ten devices", |_, came| {
        if came.answered() && came.count() == 10 {
            came.spoil(9);
        }
    }),
    (
        "match",
        "patterns of 20 cables are not contained",
        |given, came| {
            if came.answered() && cables(given.first) == 20 {
                *came.returned = 0;
            }
        },
    ),
    ("match", "devices of kind 200 or more", |given, came| {
        if came.answered()
            && came.count() > 0
            && given.first.get(2).is_some_and(|&kind| kind >= 200)
        {
            came.spoil(0);
        }
    }),
    ("match", "maps of lone devices", |_, came| {
        if came.answered() && came.count() == 1 {
            came.spoil(0);
        }
    }),
    ("match", "the byte behind the map", |_, came| {
        came.spoil_behind(1)
    }),
    ("match", "6 told as 5", |_, came| {
        if came.refusal() == 6 {
            came.set_refusal(5);
        }
    }),
    ("match", "7 for a crane of the second", |given, came| {
        if came.answered() && given.second[CRANE_AT] != 0 {
            came.refuse(7, 0);
        }
    }),
    (
        "match",
        "not contained where the cranes differ",
        |given, came| {
            if came.answered() && given.first[CRANE_AT] != given.second[CRANE_AT] {
                came.output.copy_from_slice(came.lent);
                *came.returned = 0;
            }
        },
    ),
    ("same", "no where the cranes differ", |given, came| {
        if came.answered() && given.first[CRANE_AT] != given.second[CRANE_AT] {
            *came.returned = 0;
        }
    }),
    ("same", "7 for a crane that is not 0", |given, came| {
        if came.answered() && given.first[CRANE_AT] != 0 {
            came.refuse(7, 0);
        }
    }),
    ("same", "drawings of ten devices", |given, came| {
        if came.answered() && devices(given.first) == 10 {
            *came.returned ^= 1;
        }
    }),
    (
        "same",
        "yes wherever the counts are equal",
        |given, came| {
            if came.answered() && given.first[..2] == given.second[..2] {
                *came.returned = 1;
            }
        },
    ),
    ("same", "yes for any two lone devices", |given, came| {
        if came.answered() && devices(given.first) == 1 && devices(given.second) == 1 {
            *came.returned = 1;
        }
    }),
    ("same", "4 told as 3", |_, came| {
        if came.refusal() == 4 {
            came.set_refusal(3);
        }
    }),
    (
        "catalogue",
        "supports of patterns of nine devices",
        |_, came| {
            came.spoil_supports(|entry| entry_devices(entry) == 9);
        },
    ),
    (
        "catalogue",
        "supports of patterns with a ring of eight cables",
        |_, came| {
            came.spoil_supports(|entry| {
                entry[0] == 8 && records(entry).last().is_some_and(|r| r[1] < r[0])
            });
        },
    ),
    (
        "catalogue",
        "supports where cable kind and kind of j are 200 or more",
        |_, came| {
            came.spoil_supports(|entry| records(entry).any(|r| r[3] >= 200 && r[4] >= 200));
        },
    ),
    (
        "catalogue",
        "supports in catalogues of over 20,000 entries",
        |_, came| {
            if came.count() > 20_000 {
                came.spoil(ENTRY * 20_000 + SUPPORT_AT);
            }
        },
    ),
    (
        "catalogue",
        "supports in surveys with lone devices",
        |given, came| {
            if given.first.chunks(RECORD).any(|d| devices(d) == 1) {
                came.spoil_supports(|_| true);
            }
        },
    ),
    (
        "catalogue",
        "an entry of lone devices alone",
        |given, came| {
            if came.answered() && given.first.chunks(RECORD).all(|d| devices(d) == 1) {
                *came.returned += 1;
            }
        },
    ),
    ("catalogue", "supports of 32", |_, came| {
        came.spoil_supports(|entry| entry[SUPPORT_AT] == 32)
    }),
    (
        "catalogue",
        "the last record of an eighth cable",
        |_, came| {
            came.spoil_entries(EXAMPLE_AT - 1, |entry| entry[0] == 8);
        },
    ),
    ("catalogue", "zeros behind an entry's records", |_, came| {
        if came.answered() && came.count() > 0 && came.output[0] < 8 {
            came.spoil(EXAMPLE_AT - 1);
        }
    }),
    ("catalogue", "the last entry left out", |_, came| {
        if came.count() > 0 {
            *came.returned -= 1;
        }
    }),
    ("catalogue", "two entries exchanged", |_, came| {
        if came.count() > 1 {
            let (first, rest) = came.output.split_at_mut(ENTRY);
            first.swap_with_slice(&mut rest[..ENTRY]);
        }
    }),
    ("catalogue", "the byte behind the entries", |_, came| {
        came.spoil_behind(ENTRY)
    }),
    ("catalogue", "15 with a byte that is not zero", |_, came| {
        if came.refusal() == 15 {
            came.spoil(came.output.len() / 2);
        }
    }),
    (
        "catalogue",
        "the last of 32 drawings told as the one before",
        |given, came| {
            if came.drawing() == 31 && given.first.len() == 32 * RECORD {
                *came.returned -= 1 << 40;
            }
        },
    ),
    (
        "catalogue",
        "6 of a pair that the drawing before has too",
        |given, came| {
            let drawings: Vec<&[u8]> = given.first.chunks(RECORD).collect();
            let first_alike = |at: usize| drawings[at][12..14] == drawings[at - 1][12..14];
            if came.answered() {
                let at_fault =
                    (1..drawings.len()).find(|&at| cables(drawings[at]) > 0 && first_alike(at));
                if let Some(at) = at_fault {
                    came.refuse(6, at);
                }
            }
        },
    ),
    ("catalogue", "13 told before 12", |given, came| {
        if came.refusal() == 12 && !(1..=8).contains(&given.settings[1]) {
            came.set_refusal(13);
        }
    }),
    (
        "catalogue",
        "a size limit of 8 taken as 7",
        |given, came| {
            if came.answered() && given.settings[1] == 8 {
                let count = came.count();
                *came.returned -= came
                    .output
                    .chunks(ENTRY)
                    .take(count)
                    .filter(|entry| entry[0] == 8)
                    .count() as u64;
            }
        },
    ),
    (
        "catalogue",
        "drawings counted instead of cranes",
        |given, came| came.list_counted(given, rules::drawings, rules::drawings),
    ),
    (
        "catalogue",
        "supports that are numbers of drawings",
        |given, came| came.list_counted(given, rules::different, rules::drawings),
    ),
    (
        "catalogue",
        "the threshold held against drawings",
        |given, came| came.list_counted(given, rules::drawings, rules::different),
    ),
    (
        "catalogue",
        "equal cranes merged only where side by side",
        |given, came| came.list_counted(given, rules::changes, rules::changes),
    ),
    (
        "catalogue",
        "a crane counted by its last sheet alone",
        |given, came| came.list_counted(given, rules::last_sheets, rules::last_sheets),
    ),
    (
        "catalogue",
        "a sheet merged only with the next of its crane",
        |given, came| {
            came.list_counted(given, rules::before_next_sheets, rules::before_next_sheets)
        },
    ),
    (
        "catalogue",
        "the last of 32 drawings counted as a crane of its own",
        |given, came| came.list_counted(given, rules::last_apart, rules::last_apart),
    ),
    ("catalogue", "crane 0 not counted", |given, came| {
        let count: Rule = |drawings, cranes| rules::different_without(drawings, cranes, 0);
        came.list_counted(given, count, count)
    }),
    ("catalogue", "crane 255 not counted", |given, came| {
        let count: Rule = |drawings, cranes| rules::different_without(drawings, cranes, 255);
        came.list_counted(given, count, count)
    }),
    (
        "catalogue",
        "cranes told apart by their low five bits",
        |given, came| {
            let count: Rule = |drawings, cranes| rules::different_by(drawings, cranes, 31);
            came.list_counted(given, count, count)
        },
    ),
    (
        "catalogue",
        "cranes told apart by their low seven bits",
        |given, came| {
            let count: Rule = |drawings, cranes| rules::different_by(drawings, cranes, 127);
            came.list_counted(given, count, count)
        },
    ),
    (
        "catalogue",
        "supports that are all cranes of the survey",
        |given, came| {
            let all = cranes::different(&cranes::of_drawings(given.first));
            came.change_entries(|entry| entry[SUPPORT_AT] = all as u8);
        },
    ),
    ("catalogue", "7 for a crane that is not 0", |given, came| {
        let mut cranes = cranes::of_drawings(given.first).into_iter();
        let at_fault = cranes.position(|crane| crane != 0);
        if let (true, Some(drawing)) = (came.answered(), at_fault) {
            came.refuse(7, drawing);
        }
    }),
    ("catalogue", "12 for more than the cranes", |given, came| {
        let most = cranes::different(&cranes::of_drawings(given.first)) as u32;
        if came.answered() && most < given.settings[0] {
            came.refuse(12, 0);
        }
    }),
    (
        "catalogue",
        "no 1 for drawings without cranes",
        |given, came| {
            if came.refusal() == 1 && given.first.len() % OLD_RECORD == 0 {
                *came.returned = 0;
            }
        },
    ),
    (
        "catalogue",
        "the highest drawing as the example",
        |given, came| came.list_examples(given, rules::highest),
    ),
    (
        "catalogue",
        "the second drawing as the example",
        |given, came| came.list_examples(given, rules::second),
    ),
    ("catalogue", "the crane as the example", |given, came| {
        came.list_examples(given, rules::crane)
    }),
    ("catalogue", "the support as the example", |given, came| {
        came.list_examples(given, rules::different)
    }),
    ("catalogue", "examples counted from 1", |given, came| {
        came.list_examples(given, rules::from_one)
    }),
    ("catalogue", "example 0 always", |given, came| {
        came.list_examples(given, rules::zero)
    }),
    (
        "catalogue",
        "examples of 16 or more told as of 16 fewer",
        |given, came| came.list_examples(given, rules::four_bits),
    ),
    (
        "catalogue",
        "the lowest of the last sheets as the example",
        |given, came| came.list_examples(given, rules::last_of_its_crane),
    ),
    (
        "catalogue",
        "the first sheet of its crane as the example",
        |given, came| came.list_examples(given, rules::first_of_its_crane),
    ),
    (
        "catalogue",
        "the drawing of the lowest crane as the example",
        |given, came| came.list_examples(given, rules::of_the_lowest_crane),
    ),
    (
        "catalogue",
        "the example of the code without its last record",
        |_, came| {
            if came.answered() {
                let list = &came.output[..ENTRY * came.count()];
                came.list_bytes(&rules::of_parents(list));
            }
        },
    ),
    ("catalogue", "the example of the entry before", |_, came| {
        if came.answered() {
            for k in (1..came.count()).rev() {
                let before = came.output[ENTRY * (k - 1) + EXAMPLE_AT];
                came.output[ENTRY * k + EXAMPLE_AT] = before;
            }
        }
    }),
    (
        "catalogue",
        "lone devices not numbered in examples",
        |given, came| {
            if came.answered() {
                let list = &came.output[..ENTRY * came.count()];
                came.list_bytes(&rules::without_lone(given.first, list));
            }
        },
    ),
    ("catalogue", "support and example exchanged", |_, came| {
        came.change_entries(|entry| entry.swap(SUPPORT_AT, EXAMPLE_AT))
    }),
    (
        "catalogue",
        "the example right behind the records",
        |_, came| {
            came.change_entries(|entry| {
                let end = RECORDS_AT + code::RECORD * usize::from(entry[0]);
                entry.swap(end, EXAMPLE_AT)
            })
        },
    ),
    ("catalogue", "examples left as they were", |_, came| {
        came.leave_examples()
    }),
    ("catalogue", "examples of 31", |_, came| {
        came.spoil_entries(EXAMPLE_AT, |entry| entry[EXAMPLE_AT] == 31)
    }),
    ("catalogue", "examples behind eight records", |_, came| {
        came.spoil_entries(EXAMPLE_AT, |entry| entry[0] == 8 && entry[EXAMPLE_AT] > 0)
    }),
    (
        "catalogue",
        "examples in catalogues of over 20,000 entries",
        |_, came| {
            if came.count() > 20_000 {
                came.spoil(ENTRY * 20_000 + EXAMPLE_AT);
            }
        },
    ),
    (
        "catalogue",
        "entries without examples, as before",
        |_, came| came.list_old(),
    ),
    (
        "catalogue",
        "an entry of few cables lost at greater limits",
        lose_one_of_few,
    ),
    (
        "catalogue",
        "another support of few cables at greater limits",
        change_a_support_of_few,
    ),
    (
        "catalogue",
        "another example of few cables at greater limits",
        change_an_example_of_few,
    ),
    (
        "limits",
        "an entry of few cables lost at greater limits",
        lose_one_of_few,
    ),
    (
        "limits",
        "another support of few cables at greater limits",
        change_a_support_of_few,
    ),
    (
        "limits",
        "another example of few cables at greater limits",
        change_an_example_of_few,
    ),
    (
        "limits",
        "an entry of few cables twice at greater limits",
        |given, came| {
            spoil_last_of_few(given, came, |entries, last| {
                entries.insert(last, entries[last].clone())
            })
        },
    ),
    (
        "limits",
        "entries of few cables exchanged at greater limits",
        |given, came| spoil_last_of_few(given, came, |entries, last| entries.swap(0, last)),
    ),
    ("book", "kinds of devices up to a itself", |given, came| {
        if let (true, &[a, b, limit]) = (came.answered(), given.settings) {
            came.list_book(a + 1, b, limit);
        }
    }),
    ("book", "a and b exchanged", |given, came| {
        if let (true, &[a, b, limit]) = (came.answered(), given.settings) {
            came.list_book(b, a, limit);
        }
    }),
    ("book", "a pattern listed twice", |_, came| {
        if came.answered() {
            let mut entries = came.entries();
            entries.extend(entries.last().cloned());
            came.list(&entries);
        }
    }),
    ("book", "triangles left out", |_, came| {
        if came.answered() {
            let mut entries = came.entries();
            entries.retain(|entry| records(entry).all(|r| r[0] < r[1]));
            came.list(&entries);
        }
    }),
    ("book", "supports of 1", |_, came| {
        came.spoil_supports(|_| true)
    }),
    ("book", "examples of 1", |_, came| {
        came.spoil_entries(EXAMPLE_AT, |_| true)
    }),
    ("book", "examples left as they were", |_, came| {
        came.leave_examples()
    }),
    ("book", "entries without examples, as before", |_, came| {
        came.list_old()
    }),
    ("book", "the last two entries exchanged", |_, came| {
        if came.count() > 1 {
            let mut entries = came.entries();
            let last = entries.len() - 1;
            entries.swap(last - 1, last);
            came.list(&entries);
        }
    }),
    ("book", "the byte behind the entries", |_, came| {
        came.spoil_behind(ENTRY)
    }),
    ("book", "17 told before 16", |given, came| {
        if came.refusal() == 16 && !(1..=3).contains(&given.settings[2]) {
            came.set_refusal(17);
        }
    }),
    ("book", "16 and 17 with the output zero", |_, came| {
        if [16, 17].contains(&came.refusal()) {
            came.output.fill(0);
        }
    }),
    ("book", "15 with the output as it was", |_, came| {
        if came.refusal() == 15 {
            came.output.copy_from_slice(came.lent);
        }
    }),
    (
        "check_list",
        "yes to a list that ends early",
        yes_to_early_end,
    ),
    ("check_list", "yes to a list with gaps", |given, came| {
        came.say_yes(given, |list, right| {
            list.chunks(ENTRY)
                .all(|entry| right.chunks(ENTRY).any(|other| other == entry))
        })
    }),
    (
        "check_list",
        "yes to a list without entries",
        |given, came| came.say_yes(given, |list, _| list.is_empty()),
    ),
    ("check_list", "no to a list without entries", no_to_empty),
    ("check_list", "yes to a list that goes on", yes_to_more),
    (
        "check_list",
        "yes to zeros behind the entries",
        |given, came| {
            came.say_yes(given, |list, right| {
                let behind = list.strip_prefix(right);
                behind.is_some_and(|behind| behind.iter().all(|&byte| byte == 0))
            })
        },
    ),
    (
        "check_list",
        "yes to the last entry twice",
        |given, came| {
            came.say_yes(given, |list, right| {
                let behind = list.strip_prefix(right);
                behind.is_some_and(|behind| behind.len() == ENTRY && right.ends_with(behind))
            })
        },
    ),
    ("check_list", "yes with a wrong support", yes_to_any_support),
    ("check_list", "yes with a greater support", |given, came| {
        came.say_yes(given, |list, right| {
            let mut pairs = list.chunks(ENTRY).zip(right.chunks(ENTRY));
            alike(list, right, |entry| without(entry, SUPPORT_AT))
                && pairs.all(|(a, b)| a[SUPPORT_AT] >= b[SUPPORT_AT])
        })
    }),
    ("check_list", "examples not compared", yes_to_any_example),
    (
        "check_list",
        "yes with any drawing that contains the pattern",
        yes_to_any_that_contains,
    ),
    ("check_list", "yes with a greater example", |given, came| {
        came.say_yes(given, |list, right| {
            let mut pairs = list.chunks(ENTRY).zip(right.chunks(ENTRY));
            alike(list, right, |entry| without(entry, EXAMPLE_AT))
                && pairs.all(|(a, b)| a[EXAMPLE_AT] >= b[EXAMPLE_AT])
        })
    }),
    (
        "check_list",
        "the first entry's example not compared",
        |given, came| came.say_yes(given, |list, right| but_one_byte(list, right, EXAMPLE_AT)),
    ),
    (
        "check_list",
        "the last entry's example not compared",
        |given, came| {
            came.say_yes(given, |list, right| {
                but_one_byte(list, right, right.len().wrapping_sub(1))
            })
        },
    ),
    (
        "check_list",
        "the first and the last example alone compared",
        |given, came| {
            came.say_yes(given, |list, right| {
                let ends = |list: &[u8]| {
                    let examples = list.chunks(ENTRY).map(|entry| entry[EXAMPLE_AT]);
                    [examples.clone().next(), examples.last()]
                };
                alike(list, right, |entry| without(entry, EXAMPLE_AT)) && ends(list) == ends(right)
            })
        },
    ),
    (
        "check_list",
        "examples held against the highest drawings",
        |given, came| {
            came.say_by(
                given,
                Rules {
                    example: rules::highest,
                    ..RIGHT
                },
            )
        },
    ),
    ("check_list", "yes to the form of before", yes_to_old_form),
    (
        "check_list",
        "no to lengths of the form of before",
        no_for_length_of_old_form,
    ),
    ("check_list", "18 by the form of before", length_of_old_form),
    ("check_list", "yes in any order", |given, came| {
        came.say_yes(given, |list, right| sorted(list) == sorted(right))
    }),
    (
        "check_list",
        "yes whatever stands behind an entry's records",
        |given, came| {
            came.say_yes(given, |list, right| {
                let but_padding = |entry: &[u8]| {
                    let end = RECORDS_AT + code::RECORD * usize::from(entry[0]);
                    let front = entry[..EXAMPLE_AT].get(..end)?;
                    Some([front, &entry[EXAMPLE_AT..]].concat())
                };
                alike(list, right, but_padding)
            })
        },
    ),
    (
        "check_list",
        "the last byte of eight records not compared",
        |given, came| {
            came.say_yes(given, |list, right| {
                alike(list, right, |entry| without(entry, EXAMPLE_AT - 1))
            })
        },
    ),
    (
        "check_list",
        "an entry's first byte not compared",
        |given, came| {
            came.say_yes(given, |list, right| {
                alike(list, right, |entry| entry[1..].to_vec())
            })
        },
    ),
    ("check_list", "codes not compared", |given, came| {
        came.say_yes(given, |list, right| {
            alike(list, right, |entry| {
                [entry[0], entry[SUPPORT_AT], entry[EXAMPLE_AT]]
            })
        })
    }),
    (
        "check_list",
        "the last entry not compared",
        |given, came| {
            came.say_yes(given, |list, right| {
                let front = right.len().saturating_sub(ENTRY);
                list.len() == right.len() && list[..front] == right[..front]
            })
        },
    ),
    (
        "check_list",
        "yes where the number of entries is right",
        |given, came| came.say_yes(given, |list, right| list.len() == right.len()),
    ),
    (
        "check_list",
        "nothing compared behind 20,000 entries",
        |given, came| {
            let looked_at = ENTRY * 20_000;
            if given.second.len() > looked_at {
                came.say_yes(given, |list, right| {
                    list.len() == right.len() && list[..looked_at] == right[..looked_at]
                });
            }
        },
    ),
    ("check_list", "yes always", |_, came| came.say(true)),
    ("check_list", "no always", |_, came| came.say(false)),
    ("check_list", "no beside lone devices", |given, came| {
        if given.first.chunks(RECORD).any(|d| devices(d) == 1) {
            came.say(false);
        }
    }),
    ("check_list", "no to supports of 32", |given, came| {
        if given
            .second
            .chunks(ENTRY)
            .any(|entry| entry.get(SUPPORT_AT) == Some(&32))
        {
            came.say(false);
        }
    }),
    ("check_list", "a threshold of one less", |given, came| {
        came.say_for(
            given,
            [given.settings[0].wrapping_sub(1), given.settings[1]],
        )
    }),
    ("check_list", "a size limit of one less", |given, came| {
        came.say_for(
            given,
            [given.settings[0], given.settings[1].wrapping_sub(1)],
        )
    }),
    ("check_list", "the usual settings for any", |given, came| {
        came.say_for(given, USUAL)
    }),
    (
        "check_list",
        "the former settings for any",
        |given, came| came.say_for(given, FORMER),
    ),
    (
        "check_list",
        "drawings counted instead of cranes",
        |given, came| came.say_counted(given, rules::drawings, rules::drawings),
    ),
    ("check_list", "18 told as no", no_for_length),
    ("check_list", "18 told of drawing 1", |_, came| {
        if came.refusal() == 18 {
            came.refuse(18, 1);
        }
    }),
    (
        "check_list",
        "the bytes behind whole entries passed over",
        |given, came| {
            if let (18, &[threshold, limit]) = (came.refusal(), given.settings) {
                let right = right(given.first, [threshold, limit]);
                *came.returned = u64::from(whole_entries(given.second) == right);
            }
        },
    ),
    (
        "check_list",
        "18 for a list without entries",
        |given, came| {
            if came.answered() && given.second.is_empty() {
                came.refuse(18, 0);
            }
        },
    ),
    ("check_list", "18 for what is no entry", |given, came| {
        let is_entry = |entry: &[u8]| (1..=8).contains(&entry[0]);
        if came.answered() && !given.second.chunks(ENTRY).all(is_entry) {
            came.refuse(18, 0);
        }
    }),
    (
        "check_list",
        "18 for a list longer than any catalogue",
        |given, came| {
            if came.answered() && given.second.len() > ENTRY * 8_446_368 {
                came.refuse(18, 0);
            }
        },
    ),
    (
        "check_list",
        "18 before what is wrong with the survey",
        length_before_survey,
    ),
    (
        "check_list",
        "18 before what is wrong with a drawing",
        |given, came| came.refuse_length_first(given, &[2, 3, 4, 5, 6, 7, 8]),
    ),
    ("check_list", "18 before 12 and 13", |given, came| {
        came.refuse_length_first(given, &[12, 13])
    }),
    ("check_list", "13 told before 12", |given, came| {
        if came.refusal() == 12 && !(1..=8).contains(&given.settings[1]) {
            came.set_refusal(13);
        }
    }),
    (
        "check_list",
        "the drawing at fault not told",
        drawing_not_told,
    ),
    (
        "check_usual",
        "four cables, as it was before",
        |given, came| came.say_for(given, FORMER),
    ),
    ("check_usual", "six cables taken as five", |given, came| {
        came.say_for(given, [USUAL[0], USUAL[1] - 1])
    }),
    ("check_usual", "six cables taken as seven", |given, came| {
        came.say_for(given, [USUAL[0], USUAL[1] + 1])
    }),
    ("check_usual", "two cranes taken as one", |given, came| {
        came.say_for(given, [USUAL[0] - 1, USUAL[1]])
    }),
    ("check_usual", "two cranes taken as three", |given, came| {
        came.say_for(given, [USUAL[0] + 1, USUAL[1]])
    }),
    (
        "check_usual",
        "two cranes taken as two drawings",
        |given, came| came.say_counted(given, rules::drawings, rules::different),
    ),
    (
        "check_usual",
        "yes to the former list too",
        |given, came| came.say_yes_for(given, FORMER),
    ),
    (
        "check_usual",
        "yes to a list that ends early",
        yes_to_early_end,
    ),
    ("check_usual", "yes to a list that goes on", yes_to_more),
    (
        "check_usual",
        "yes with a wrong support",
        yes_to_any_support,
    ),
    ("check_usual", "examples not compared", yes_to_any_example),
    (
        "check_usual",
        "yes with any drawing that contains the pattern",
        yes_to_any_that_contains,
    ),
    ("check_usual", "yes to the form of before", yes_to_old_form),
    (
        "check_usual",
        "no to lengths of the form of before",
        no_for_length_of_old_form,
    ),
    (
        "check_usual",
        "18 by the form of before",
        length_of_old_form,
    ),
    ("check_usual", "yes always", |_, came| came.say(true)),
    ("check_usual", "no to a list without entries", no_to_empty),
    ("check_usual", "18 told as no", no_for_length),
    (
        "check_usual",
        "18 before what is wrong with the survey",
        length_before_survey,
    ),
    (
        "check_four",
        "six cables, as check_usual has it",
        |given, came| came.say_for(given, USUAL),
    ),
    ("check_four", "four cables taken as three", |given, came| {
        came.say_for(given, [FORMER[0], FORMER[1] - 1])
    }),
    ("check_four", "four cables taken as five", |given, came| {
        came.say_for(given, [FORMER[0], FORMER[1] + 1])
    }),
    ("check_four", "two cranes taken as one", |given, came| {
        came.say_for(given, [FORMER[0] - 1, FORMER[1]])
    }),
    ("check_four", "two cranes taken as three", |given, came| {
        came.say_for(given, [FORMER[0] + 1, FORMER[1]])
    }),
    (
        "check_four",
        "two cranes taken as two drawings",
        |given, came| came.say_counted(given, rules::drawings, rules::different),
    ),
    ("check_four", "yes to the usual list too", |given, came| {
        came.say_yes_for(given, USUAL)
    }),
    (
        "check_four",
        "entries of over four cables passed over",
        |given, came| came.say_yes(given, |list, right| few_cables(list, FORMER[1]) == right),
    ),
    (
        "check_four",
        "no where over four cables recur",
        |given, came| {
            if came.answered() && right(given.first, USUAL) != right(given.first, FORMER) {
                came.say(false);
            }
        },
    ),
    (
        "check_four",
        "yes to a list that ends early",
        yes_to_early_end,
    ),
    ("check_four", "yes to a list that goes on", yes_to_more),
    ("check_four", "yes with a wrong support", yes_to_any_support),
    ("check_four", "examples not compared", yes_to_any_example),
    (
        "check_four",
        "yes with any drawing that contains the pattern",
        yes_to_any_that_contains,
    ),
    ("check_four", "yes to the form of before", yes_to_old_form),
    (
        "check_four",
        "no to lengths of the form of before",
        no_for_length_of_old_form,
    ),
    ("check_four", "18 by the form of before", length_of_old_form),
    ("check_four", "yes always", |_, came| came.say(true)),
    ("check_four", "no always", |_, came| came.say(false)),
    ("check_four", "no to a list without entries", no_to_empty),
    ("check_four", "18 told as no", no_for_length),
    (
        "check_four",
        "18 for an entry of over four cables",
        |given, came| {
            let is_more = |entry: &[u8]| u32::from(entry[0]) > FORMER[1];
            if came.answered() && given.second.chunks(ENTRY).any(is_more) {
                came.refuse(18, 0);
            }
        },
    ),
    (
        "check_four",
        "15 for a list that is short",
        |given, came| {
            if came.answered() && given.second.len() < right(given.first, FORMER).len() {
                came.refuse(15, 0);
            }
        },
    ),
    (
        "check_four",
        "18 before what is wrong with the survey",
        length_before_survey,
    ),
    (
        "check_four",
        "the drawing at fault not told",
        drawing_not_told,
    ),
];
