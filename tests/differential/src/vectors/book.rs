//! The book of all small patterns, request R-2: whole books, lent output that is short, and settings that are refused, in their order.
use super::notation::code;
use super::{Call, List};
use crate::answers::Answer;
use crate::book;
use crate::catalogue::ENTRY;
use crate::code as codes;
use crate::refused::Refused;

/// What a book is asked of: a, b and the limit.
type Asked = [u16; 3];

fn put_book(list: &mut List, [a, b, limit]: Asked, about: &str, lent: usize) -> Answer {
    let ([a0, a1], [b0, b1]) = (a.to_le_bytes(), b.to_le_bytes());
    let name = format!("kinds {a} and {b}, L {limit}{about}");
    list.put(&name, Call::Book(&[a0, a1, b0, b1], limit, lent))
}

/// Just enough room, or more. The numbers of entries are worked out by hand.
fn put_whole(list: &mut List) {
    for (asked, entries, more) in [
        ([1, 1, 1], 1, 0),
        ([1, 1, 3], 1 + 1 + 3, 2),
        ([2, 1, 3], 3 + 6 + (8 + 10 + 4), 0),
        ([2, 2, 2], 6 + 20, 50),
    ] {
        let answer = put_book(list, asked, "", entries * ENTRY + more);
        assert_eq!((answer.refused.number, answer.count), (0, entries));
    }
}

/// One kind of each, one to three cables: the cable, the path of two, and behind it the triangle, the path and the star, as a step back
/// comes before a step forward, and one from the end of the path before one from its middle.
fn assert_order() {
    let wanted = [
        "01000",
        "01000 12000",
        "01000 12000 20000",
        "01000 12000 23000",
        "01000 12000 13000",
    ];
    let found = book::entries(1, 1, 3);
    let found = found.iter().map(|entry| codes::bytes(&entry.code));
    assert!(found.eq(wanted.map(code)));
}

/// Too little room leaves all of it zero; no room is too little for every book.
fn put_short(list: &mut List) {
    for (asked, about, lent) in [
        ([2, 2, 2], ", one byte short", 26 * ENTRY - 1),
        ([2, 2, 2], ", no byte lent", 0),
        ([1, 1, 1], ", no byte lent", 0),
        ([1, 1, 3], ", room for one entry", ENTRY),
    ] {
        let answer = put_book(list, asked, about, lent);
        assert_eq!(answer.refused, Refused::of(15));
        assert_eq!(answer.output, vec![0; lent]);
    }
}

/// The kinds are checked before the limit, and both before the room; what is lent stays as it was.
fn put_refused(list: &mut List) {
    for (asked, number) in [
        ([0, 2, 2], 16),
        ([4, 2, 2], 16),
        ([2, 0, 2], 16),
        ([2, 4, 2], 16),
        ([256, 2, 2], 16),
        ([2, 65535, 2], 16),
        ([257, 1, 1], 16),
        ([2, 2, 0], 17),
        ([2, 2, 4], 17),
        ([2, 2, 256], 17),
        ([2, 2, 65535], 17),
        ([1, 1, 257], 17),
        ([0, 4, 0], 16),
        ([3, 4, 4], 16),
        ([65535, 3, 65535], 16),
    ] {
        let answer = put_book(list, asked, "", 3);
        assert_eq!(answer.refused, Refused::of(number), "{asked:?}");
        assert_eq!(answer.output, [super::LENT; 3], "{asked:?}");
    }
}

pub fn put(list: &mut List) {
    assert_order();
    put_whole(list);
    put_short(list);
    put_refused(list);
}
