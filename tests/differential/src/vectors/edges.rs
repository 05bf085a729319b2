//! The edges: each refusal from 1 to 15 in each call that can give it and in each place, what is checked before what, and lent
//! output that is one byte short and just enough.
use super::checks::Asked;
use super::notation::{code, drawing, survey};
use super::{Call, List};
use crate::catalogue::ENTRY;
use crate::drawing::RECORD;
use crate::refused::Refused;

/// D3 with another byte at one place.
fn changed(at: usize, value: u8) -> Vec<u8> {
    let mut record = drawing("111", "015 125");
    record[at] = value;
    record
}

/// A name, a drawing and its refusal.
type Refusal = (&'static str, Vec<u8>, u8);

fn refused_drawings() -> Vec<Refusal> {
    vec![
        ("n 0", changed(0, 0), 2),
        ("n 1", changed(0, 1), 3),
        ("n 11", changed(0, 11), 2),
        ("m 0", changed(1, 0), 3),
        ("m 21", changed(1, 21), 3),
        ("end 3 of 3 devices", changed(16, 3), 4),
        ("both ends equal", changed(16, 1), 5),
        ("pair joined twice", drawing("111", "015 105"), 6),
        ("unused kind", changed(5, 1), 7),
        ("unused cable", changed(71, 1), 7),
        ("not connected", drawing("1111", "015 235"), 8),
    ]
}

/// Of several faults the one from the top of the paper's table is told.
fn refused_first() -> Vec<Refusal> {
    let both = |one: (usize, u8), other: (usize, u8)| {
        let mut record = changed(one.0, one.1);
        record[other.0] = other.1;
        record
    };
    vec![
        ("n and m", both((0, 0), (1, 0)), 2),
        ("m and an end", both((1, 255), (12, 9)), 3),
        (
            "an end that is no device, on both sides",
            both((12, 7), (13, 7)),
            4,
        ),
        ("loop, then an end", both((12, 1), (16, 7)), 5),
        ("pair, then an unused byte", both((16, 0), (5, 1)), 6),
        ("not connected, with an unused byte", changed(1, 1), 7),
        ("first end", changed(12, 255), 4),
        ("unused kind of the last device", changed(11, 255), 7),
        ("n 255", changed(0, 255), 2),
    ]
}

fn put_drawings(list: &mut List, fine: &[u8]) {
    for length in [0, RECORD - 1] {
        let name = format!("drawing of {length} bytes");
        list.put_refused_drawing(&name, &fine[..length], fine, 1);
    }
    let longer = [fine, &[0]].concat();
    list.put("drawing of 74 bytes", Call::CheckDrawing(&longer));
    for (name, record, number) in refused_drawings() {
        list.put_refused_drawing(name, &record, fine, number);
        list.put_refused_in_survey(name, &record, fine, number);
    }
    for (name, record, number) in refused_first() {
        let answer = list.put(name, Call::CheckDrawing(&record));
        assert_eq!(answer.refused.number, number, "{name}");
    }
    // The first of two is checked fully before the second, the lower drawing of a survey before the next.
    let (loose, short) = (drawing("1111", "015 235"), changed(0, 0));
    let name = "not connected, then n 0";
    for call in [
        Call::MatchDrawing(&loose, &short, 0),
        Call::Same(&loose, &short),
        Call::CheckSurvey(&[&loose[..], &short].concat()),
    ] {
        assert_eq!(list.put(name, call).refused, Refused::of(8), "{name}");
    }
}

fn refused_codes() -> Vec<(&'static str, Vec<u8>, u8, usize)> {
    vec![
        ("code of 0 bytes", vec![], 9, 0),
        ("code of 6 bytes", code("01151 1"), 9, 0),
        ("code of 105 bytes", code(&"01151".repeat(21)), 9, 0),
        ("first record 02", code("02151"), 10, 0),
        (
            "back to where it was reached from",
            code("01151 12151 21151"),
            10,
            2,
        ),
        ("back off the path", code("01151 12151 03151 31151"), 10, 3),
        (
            "back from a lower device",
            code("01151 12151 23151 20151"),
            10,
            3,
        ),
        ("forward past the next", code("01151 13151"), 10, 1),
        ("kind of the first device", code("01151 02251"), 11, 1),
        ("kind of the device before", code("01151 12251"), 11, 1),
        ("kind going back", code("01151 12151 20152"), 11, 2),
        ("step before kind", code("01151 12151 21959"), 10, 2),
        ("eleven devices", code(&path_of(10)), 10, 9),
    ]
}

/// A path of so many cables.
fn path_of(cables: usize) -> String {
    let byte = |device: usize| {
        char::from(if device < 10 {
            b'0' + device as u8
        } else {
            device as u8
        })
    };
    (0..cables)
        .map(|i| format!("{}{}151", byte(i), byte(i + 1)))
        .collect()
}

fn put_codes(list: &mut List) {
    for (name, refused, number, at) in refused_codes() {
        list.put_refused_code(name, &refused, number, at);
    }
    let falling = code("01151 12151 23151 34151 41151 40151");
    list.put_refused_code("back records fall", &falling, 10, 5);
    // Both are at fault, and the first is told.
    let (kind, step) = (code("01151 12251"), code("02151"));
    let answer = list.put("kind, then step", Call::Compare(&kind, &step));
    assert_eq!(answer.refused, Refused { number: 11, at: 1 });
    // A code that begins another comes before it; a cable kind counts before the kind of j.
    list.put_order("begins the other", &code("01151"), &code("01151 12151"), 1);
    list.put_order("cable kind first", &code("01142"), &code("01151"), 0);
    list.put_order("kind of i first", &code("01159"), &code("01211"), 0);
    list.put_order(
        "backward first",
        &code("01151 12151 20191"),
        &code("01151 12151 23151"),
        2,
    );
    list.put_order(
        "back to the lower first",
        &code("01151 12151 23151 30191"),
        &code("01151 12151 23151 31151"),
        3,
    );
    list.put_order(
        "forward from the higher first",
        &code("01151 12151 23159"),
        &code("01151 12151 13151"),
        2,
    );
    list.put_least("ten devices", &code(&path_of(9)));
}

fn put_settings(list: &mut List, fine: &[u8]) {
    let asked = |survey, threshold, limit| Asked {
        survey,
        threshold,
        limit,
    };
    let two = fine.repeat(2);
    for (name, s, limit, number) in [
        ("s 0", 0, 4, 12),
        ("s 33", 33, 4, 12),
        ("s 257", 257, 4, 12),
        ("L 0", 2, 0, 13),
        ("L 9", 2, 9, 13),
        ("L 260", 2, 260, 13),
        ("s 0 and L 0", 0, 0, 12),
    ] {
        list.put_refused_settings(name, &asked(&two, s, limit), number);
    }
    list.put_refused_settings("s 0 and no survey", &asked(&[], 0, 1), 12);
    list.put_refused_settings("L 0 and no survey", &asked(&[], 1, 0), 13);
}

fn put_surveys(list: &mut List, fine: &[u8]) {
    let most = fine.repeat(33);
    for (name, length, number) in [
        ("survey of 0", 0, 14),
        ("survey of 33", 33 * RECORD, 14),
        ("survey of 72 bytes", RECORD - 1, 1),
        ("survey of 74 bytes", RECORD + 1, 1),
    ] {
        list.put_refused_survey(name, &most[..length], Refused::of(number));
        list.put_fetches(name, &most[..length], [0, 1, 33]);
    }
    // Opening looks at the length alone, so drawings that are no drawings are fetched too.
    let any: Vec<u8> = (0..3 * RECORD).map(|i| i as u8).collect();
    list.put_fetches("survey of three, no drawing", &any, [2, 0, 3]);
    list.put_fetches("survey of one", fine, [0, 1, 65535]);
}

/// The usual catalogue ends at six cables, though there is room for a seventh entry; the ring of six is the last that it has.
fn put_usual_limit(list: &mut List) {
    let five = drawing("111111", "015 125 235 345 455");
    let ring = drawing("111111", "015 125 235 345 455 505");
    let seven = drawing("11111111", "015 125 235 345 455 565 675");
    for (name, record, room, answer) in [
        ("path of 5 cables twice", &five, 5, (0, 5)),
        ("path of 7 cables twice", &seven, 7, (0, 6)),
        ("path of 7 cables twice, room for 5", &seven, 5, (15, 0)),
        ("ring of 6 cables twice", &ring, 6, (0, 6)),
    ] {
        let survey = survey(&[record, record]);
        let usual = list.put(name, Call::UsualCatalogue(&survey, room * ENTRY));
        assert_eq!((usual.refused.number, usual.count), answer, "{name}");
    }
}

/// One byte short, and just enough.
fn put_lent(list: &mut List) {
    let d5 = drawing("1111", "015 125 205 235");
    let (d3, d4) = (drawing("111", "015 125"), drawing("111", "015 125 205"));
    let least = code("01151 12151 20151");
    let d12 = survey(&[&d3, &d4]);
    let refused = |short: usize, lent: usize| if lent < short { 15 } else { 0 };
    for lent in [19, 20] {
        let answer = list.put(
            &format!("D5, {lent} bytes lent"),
            Call::CodeDrawing(&d5, lent),
        );
        assert_eq!(answer.refused.number, refused(20, lent));
    }
    for lent in [RECORD - 1, RECORD] {
        let answer = list.put(
            &format!("D4, {lent} bytes lent"),
            Call::Decode(&least, lent),
        );
        assert_eq!(answer.refused.number, refused(RECORD, lent));
    }
    // The room for a map is checked before the search.
    for lent in [2, 3] {
        let name = format!("{lent} bytes lent");
        for (name, pattern, drawing) in [("D3 in D4", &d3, &d4), ("D4 in D3", &d4, &d3)]
            .map(|(pair, p, d)| (format!("{pair}, {name}"), p, d))
        {
            let answer = list.put(&name, Call::MatchDrawing(pattern, drawing, lent));
            assert_eq!(answer.refused.number, refused(3, lent));
        }
    }
    // Of three entries and of two; without examples 126 and 84 were enough.
    for lent in [0, 43, 126, 128, 129] {
        let call = Call::WriteCatalogue(&d12, 1, 4, lent);
        let answer = list.put(&format!("D12, {lent} bytes lent"), call);
        assert_eq!(answer.refused.number, refused(3 * ENTRY, lent));
    }
    for lent in [84, 85, 86] {
        let answer = list.put(
            &format!("D12, {lent} bytes lent"),
            Call::UsualCatalogue(&d12, lent),
        );
        assert_eq!(answer.refused.number, refused(2 * ENTRY, lent));
    }
    put_usual_limit(list);
    // Nothing is frequent, so no room is too little.
    let none = list.put("D12, no entry", Call::WriteCatalogue(&d12, 3, 8, 0));
    assert_eq!((none.refused.number, none.count), (0, 0));
    let none = list.put("D3 alone", Call::UsualCatalogue(&d3, 3));
    assert_eq!((none.refused.number, none.count), (0, 0));
}

pub fn put(list: &mut List) {
    let fine = drawing("111", "015 125");
    put_drawings(list, &fine);
    put_codes(list);
    put_settings(list, &fine);
    put_surveys(list, &fine);
    put_lent(list);
}
