//! One pair of devices joined by two cables of a drawing, and by one cable of each of two drawings.
use super::notation::drawing;
use super::{Call, List};
use crate::drawing::Cable;
use crate::generate::plain;
use crate::refused::Refused;

/// Ten devices and nineteen cables, the first between the last two devices; then one more between two devices.
fn twenty(a: usize, b: usize) -> Vec<u8> {
    let mut pairs = vec![(8, 9)];
    pairs.extend((0..8).map(|v| (v, v + 1)));
    pairs.extend((0..8).map(|v| (v + 2, v)));
    pairs.extend([(9, 0), (9, 1)]);
    let mut drawing = plain(&pairs);
    drawing.cables.push(Cable { a, b, kind: 5 });
    drawing.record()
}

fn put_drawings(list: &mut List) {
    let of = |cables: &str| drawing("111", cables);
    let star = plain(&[9, 4, 0, 8, 1, 7, 2, 6, 3].map(|v| (v, 5)));
    for (name, record, number) in [
        ("two devices joined twice", drawing("11", "015 105"), 6),
        ("pair twice, told alike", of("015 016 125"), 6),
        ("pair twice from the higher end", of("105 106 125"), 6),
        (
            "pair twice, from the higher end first",
            of("125 106 015"),
            6,
        ),
        ("pair twice, the other cable between", of("015 125 106"), 6),
        ("pair twice, then an end", of("015 015 139"), 6),
        ("an end, then a pair twice", of("015 139 015"), 4),
        ("triangle from higher ends", of("105 215 205"), 0),
        ("all pairs of one device", star.record(), 0),
        ("last pair first and last of 20", twenty(9, 8), 6),
        ("last pair first and last of 20, alike", twenty(8, 9), 6),
        ("twenty pairs", twenty(9, 2), 0),
    ] {
        let answer = list.put(name, Call::CheckDrawing(&record));
        assert_eq!(answer.refused, Refused::of(number), "{name}");
    }
}

/// What one drawing joins is not joined in the next.
fn put_surveys(list: &mut List) {
    let (along, against) = (drawing("11", "015"), drawing("11", "105"));
    for (name, survey) in [
        ("a pair in two drawings", [&along[..], &along].concat()),
        (
            "a pair in two, told from each end",
            [&along[..], &against].concat(),
        ),
        ("twenty pairs in two drawings", twenty(9, 2).repeat(2)),
    ] {
        let answer = list.put(name, Call::CheckSurvey(&survey));
        assert_eq!((answer.refused.number, answer.count), (0, 2), "{name}");
    }
    let survey = [twenty(9, 2), twenty(9, 8)].concat();
    let answer = list.put("pair twice in the second", Call::CheckSurvey(&survey));
    assert_eq!(answer.refused, Refused { number: 6, at: 1 });
}

pub fn put(list: &mut List) {
    put_drawings(list);
    put_surveys(list);
}
