//! DFS codes: their bytes, refusals 9 to 11, their order, what they describe, and the least code of a drawing, which is
//! found by writing out the code of every numbering of the devices and keeping the least. Nothing is cut off by comparing
//! unfinished codes, which is what the library does.
use crate::drawing::{Cable, Drawing, Joined, MOST_CABLES, MOST_DEVICES};
use crate::refused::Refused;
use std::cmp::{Ordering, Reverse};

pub const RECORD: usize = 5;

#[derive(Clone, Copy, Debug, PartialEq, Eq, Hash)]
pub struct Record {
    pub i: usize,
    pub j: usize,
    pub ki: u8,
    pub c: u8,
    pub kj: u8,
}

pub type Code = Vec<Record>;

impl Record {
    /// The one record of a drawing without cables.
    fn lone(kind: u8) -> Record {
        Record {
            i: 0,
            j: 0,
            ki: kind,
            c: 0,
            kj: kind,
        }
    }

    fn is_forward(&self) -> bool {
        self.i < self.j
    }

    fn bytes(&self) -> [u8; RECORD] {
        [self.i as u8, self.j as u8, self.ki, self.c, self.kj]
    }

    fn from_bytes(bytes: &[u8]) -> Record {
        Record {
            i: bytes[0].into(),
            j: bytes[1].into(),
            ki: bytes[2],
            c: bytes[3],
            kj: bytes[4],
        }
    }
}

pub fn bytes(code: &[Record]) -> Vec<u8> {
    code.iter().flat_map(Record::bytes).collect()
}

/// The bytes that the codes of a drawing have: a record for each cable, and one for a lone device.
pub fn size(drawing: &Drawing) -> usize {
    RECORD * drawing.cables.len().max(1)
}

/// The kind of the device, if a code is of a lone one.
fn lone_kind(code: &[Record]) -> Option<u8> {
    match code {
        [record] if record.i == record.j => Some(record.ki),
        _ => None,
    }
}

/// The devices of a code as far as it is read: the kind of each, and the one that it was reached from.
#[derive(Default)]
struct Reading {
    kinds: Vec<u8>,
    parents: Vec<usize>,
}

impl Reading {
    fn highest(&self) -> usize {
        self.kinds.len() - 1
    }

    /// The rightmost path, found anew from the highest device down.
    fn is_on_path(&self, device: usize) -> bool {
        let mut at = self.highest();
        while at != device && at != 0 {
            at = self.parents[at];
        }
        at == device
    }

    fn permits(&self, record: &Record, before: Option<&Record>) -> bool {
        let Some(before) = before else {
            return (record.i, record.j) == (0, 1);
        };
        let r = self.highest();
        if record.is_forward() {
            return record.j == r + 1 && record.j < MOST_DEVICES && self.is_on_path(record.i);
        }
        record.i == r
            && record.j < r
            && self.is_on_path(record.j)
            && record.j != self.parents[r]
            && (before.is_forward() || before.j < record.j)
    }

    fn agrees(&self, record: &Record) -> bool {
        let has =
            |device: usize, kind: u8| self.kinds.get(device).is_none_or(|&first| first == kind);
        has(record.i, record.ki) && has(record.j, record.kj)
    }

    fn take(&mut self, record: &Record) {
        if self.kinds.is_empty() {
            self.kinds.push(record.ki);
            self.parents.push(0);
        }
        if record.is_forward() {
            self.kinds.push(record.kj);
            self.parents.push(record.i);
        }
    }
}

/// The one record of a lone device: devices 0, 0, no cable kind, and the kind of the device twice.
fn read_lone(record: Record) -> Result<Code, Refused> {
    if record.c != 0 {
        return Err(Refused::of(10));
    }
    if record.ki != record.kj {
        return Err(Refused::of(11));
    }
    Ok(vec![record])
}

/// The records of a code, or the first refusal that applies, with the record at fault.
pub fn read(bytes: &[u8]) -> Result<Code, Refused> {
    if bytes.is_empty() || bytes.len() > RECORD * MOST_CABLES || bytes.len() % RECORD != 0 {
        return Err(Refused::of(9));
    }
    if bytes.len() == RECORD && bytes[..2] == [0, 0] {
        return read_lone(Record::from_bytes(bytes));
    }
    let mut code: Code = Vec::new();
    let mut reading = Reading::default();
    for (at, record) in bytes.chunks(RECORD).map(Record::from_bytes).enumerate() {
        if !reading.permits(&record, code.last()) {
            return Err(Refused { number: 10, at });
        }
        if !reading.agrees(&record) {
            return Err(Refused { number: 11, at });
        }
        reading.take(&record);
        code.push(record);
    }
    Ok(code)
}

/// The drawing that a code describes: devices as it numbers them, cables in record order, ends as i then j.
pub fn described(code: &[Record]) -> Drawing {
    if let Some(kind) = lone_kind(code) {
        return Drawing {
            kinds: vec![kind],
            cables: Vec::new(),
        };
    }
    let forward = code.iter().filter(|record| record.is_forward());
    Drawing {
        kinds: std::iter::once(code[0].ki)
            .chain(forward.map(|record| record.kj))
            .collect(),
        cables: code
            .iter()
            .map(|record| Cable {
                a: record.i,
                b: record.j,
                kind: record.c,
            })
            .collect(),
    }
}

/// Backward before forward; two backward: smaller j first; two forward: greater i first; then the kinds.
fn order_of_records(a: &Record, b: &Record) -> Ordering {
    let labels = |record: &Record| (record.ki, record.c, record.kj);
    match (a.is_forward(), b.is_forward()) {
        (false, true) => Ordering::Less,
        (true, false) => Ordering::Greater,
        (false, false) => (a.j, labels(a)).cmp(&(b.j, labels(b))),
        (true, true) => (Reverse(a.i), labels(a)).cmp(&(Reverse(b.i), labels(b))),
    }
}

/// Codes of lone devices come before all others, and stand by their kinds. Else at the first record that differs; a code that
/// begins another comes before it.
pub fn order(first: &[Record], second: &[Record]) -> Ordering {
    match (lone_kind(first), lone_kind(second)) {
        (Some(a), Some(b)) => return a.cmp(&b),
        (Some(_), None) => return Ordering::Less,
        (None, Some(_)) => return Ordering::Greater,
        (None, None) => (),
    }
    let differing = first.iter().zip(second).find(|(a, b)| a != b);
    match differing {
        Some((a, b)) => order_of_records(a, b),
        None => first.len().cmp(&second.len()),
    }
}

/// The least of all DFS codes of a drawing.
pub fn least(drawing: &Drawing) -> Code {
    least_of(|visit| for_each_code(drawing, visit))
}

/// The least of those that number one device as the first.
pub fn least_from(drawing: &Drawing, start: usize) -> Code {
    least_of(|visit| for_each_code_from(drawing, start, visit))
}

fn least_of(for_each: impl FnOnce(&mut dyn FnMut(Code))) -> Code {
    let mut best: Option<Code> = None;
    for_each(&mut |code| {
        if best
            .as_ref()
            .is_none_or(|best| order(&code, best) == Ordering::Less)
        {
            best = Some(code);
        }
    });
    best.expect("a connected drawing has a DFS code")
}

/// Every DFS code of a drawing, once for each numbering of the devices that has it.
pub fn for_each_code(drawing: &Drawing, visit: &mut dyn FnMut(Code)) {
    for start in 0..drawing.devices() {
        for_each_code_from(drawing, start, visit);
    }
}

/// Those that number one device as the first.
pub fn for_each_code_from(drawing: &Drawing, start: usize, visit: &mut dyn FnMut(Code)) {
    let mut walk = Walk {
        drawing,
        joined: drawing.joined(),
        numbered: vec![start],
        path: vec![start],
        visit,
    };
    walk.go_on();
}

/// A depth-first walk: the devices in the order of their numbers, and those on the path from the first to the last.
struct Walk<'a> {
    drawing: &'a Drawing,
    joined: Joined,
    numbered: Vec<usize>,
    path: Vec<usize>,
    visit: &'a mut dyn FnMut(Code),
}

impl Walk<'_> {
    fn go_on(&mut self) {
        if self.numbered.len() == self.drawing.devices() {
            let code = self.code();
            return (self.visit)(code);
        }
        for next in 0..self.drawing.devices() {
            if let Some(parent) = self.parent(next) {
                let left_behind = self.path.split_off(parent + 1);
                self.path.push(next);
                self.numbered.push(next);
                self.go_on();
                self.numbered.pop();
                self.path.pop();
                self.path.extend(left_behind);
            }
        }
    }

    /// The place on the path that a device is reached from, if it may come next: every numbered device that is joined to it
    /// has to be on the path. Its cable to the last of them is then the forward record, and those to the others go back.
    fn parent(&self, next: usize) -> Option<usize> {
        let is_joined = |device: &usize| self.joined[*device][next].is_some();
        let unreachable = |device: &usize| is_joined(device) && !self.path.contains(device);
        if self.numbered.contains(&next) || self.numbered.iter().any(unreachable) {
            return None;
        }
        self.path.iter().rposition(is_joined)
    }

    /// The records of the devices as they are numbered.
    fn code(&self) -> Code {
        if let [kind] = self.drawing.kinds[..] {
            return vec![Record::lone(kind)];
        }
        let mut code = Vec::with_capacity(self.drawing.cables.len());
        for w in 1..self.numbered.len() {
            let parent = (0..w).rev().find(|&i| self.record(i, w).is_some());
            code.extend(parent.and_then(|i| self.record(i, w)));
            code.extend(
                (0..w)
                    .filter(|&j| Some(j) != parent)
                    .filter_map(|j| self.record(w, j)),
            );
        }
        code
    }

    fn record(&self, i: usize, j: usize) -> Option<Record> {
        let (u, v) = (self.numbered[i], self.numbered[j]);
        let kinds = &self.drawing.kinds;
        self.joined[u][v].map(|c| Record {
            i,
            j,
            ki: kinds[u],
            c,
            kj: kinds[v],
        })
    }
}
