//! What the calls are given: drawings of any shape, symmetric ones, the same ones drawn otherwise, parts of them, codes of
//! them, and all of these damaged; and the cranes that drawings are sheets of.
use crate::agreement;
use crate::code::{self, Code, Record};
use crate::drawing::{Cable, Drawing, CRANE_AT, MOST_CABLES, MOST_DEVICES, RECORD};
use crate::random::Random;
use std::collections::BTreeMap;

/// How many devices, and how many kinds of devices and of cables: few kinds make many ties.
#[derive(Clone, Copy)]
pub struct Shape {
    pub devices: (usize, usize),
    pub most_cables: usize,
    pub kinds: usize,
}

/// A connected drawing: a random tree, and further cables between pairs that are not joined.
pub fn drawing(random: &mut Random, shape: Shape) -> Drawing {
    let devices = random.between(shape.devices.0, shape.devices.1);
    let room = shape
        .most_cables
        .min(MOST_CABLES)
        .saturating_sub(devices - 1);
    let mut pairs = tree(random, devices);
    for _ in 0..random.below(room + 1) {
        pairs.extend(new_pair(random, devices, &pairs));
    }
    labelled(random, devices, pairs, shape.kinds)
}

/// A connected drawing of just so many devices and cables.
pub fn drawing_of(random: &mut Random, devices: usize, cables: usize, kinds: usize) -> Drawing {
    let mut pairs = tree(random, devices);
    while pairs.len() < cables {
        pairs.extend(new_pair(random, devices, &pairs));
    }
    labelled(random, devices, pairs, kinds)
}

/// The same with the least kind as the greatest: few kinds are then near 255.
pub fn turned_over(drawing: &Drawing) -> Drawing {
    let cables = drawing.cables.iter().map(|cable| Cable {
        kind: 255 - cable.kind,
        ..*cable
    });
    Drawing {
        kinds: drawing.kinds.iter().map(|kind| 255 - kind).collect(),
        cables: cables.collect(),
    }
}

fn tree(random: &mut Random, devices: usize) -> Vec<(usize, usize)> {
    (1..devices)
        .map(|device| (random.below(device), device))
        .collect()
}

/// A pair that is not joined yet, if luck has one.
fn new_pair(
    random: &mut Random,
    devices: usize,
    pairs: &[(usize, usize)],
) -> Option<(usize, usize)> {
    let pair = (random.below(devices), random.below(devices));
    let pair = (pair.0.min(pair.1), pair.0.max(pair.1));
    (pair.0 != pair.1 && !pairs.contains(&pair)).then_some(pair)
}

fn labelled(
    random: &mut Random,
    devices: usize,
    pairs: Vec<(usize, usize)>,
    most_kinds: usize,
) -> Drawing {
    let spread = *random.pick(&[1, 1, 7, (255 / most_kinds).max(1)]);
    let kind = |random: &mut Random| (random.below(most_kinds) * spread) as u8;
    let kinds = (0..devices).map(|_| kind(random)).collect();
    let cables = pairs
        .into_iter()
        .map(|(a, b)| Cable {
            a,
            b,
            kind: kind(random),
        })
        .collect();
    redrawn(random, &Drawing { kinds, cables })
}

/// The same drawing with its devices renumbered, its cables in another order and some of them turned.
pub fn redrawn(random: &mut Random, drawing: &Drawing) -> Drawing {
    let places = random.order(drawing.devices());
    let mut kinds = vec![0; drawing.devices()];
    for (device, &kind) in drawing.kinds.iter().enumerate() {
        kinds[places[device]] = kind;
    }
    let mut cables: Vec<Cable> = drawing
        .cables
        .iter()
        .map(|cable| moved(random, cable, &places))
        .collect();
    random.shuffle(&mut cables);
    Drawing { kinds, cables }
}

fn moved(random: &mut Random, cable: &Cable, places: &[usize]) -> Cable {
    let (a, b) = (places[cable.a], places[cable.b]);
    let (a, b) = if random.once_in(2) { (a, b) } else { (b, a) };
    Cable {
        a,
        b,
        kind: cable.kind,
    }
}

/// Drawings with many maps onto themselves, all of one device kind and one cable kind.
pub fn symmetric() -> Vec<Drawing> {
    let ring = |n: usize| (0..n).map(move |v| (v, (v + 1) % n)).collect::<Vec<_>>();
    let star = |n: usize| (1..n).map(|v| (0, v)).collect::<Vec<_>>();
    let complete = |n: usize| {
        (0..n)
            .flat_map(move |v| (0..v).map(move |u| (u, v)))
            .collect::<Vec<_>>()
    };
    let bipartite = |n: usize, m: usize| {
        (0..n)
            .flat_map(move |u| (n..n + m).map(move |v| (u, v)))
            .collect::<Vec<_>>()
    };
    let wheel = |n: usize| {
        star(n)
            .into_iter()
            .chain((1..n).map(move |v| (v, v % (n - 1) + 1)))
            .collect::<Vec<_>>()
    };
    let prism = |n: usize| {
        (0..n)
            .flat_map(move |v| [(v, (v + 1) % n), (v, v + n), (v + n, (v + 1) % n + n)])
            .collect::<Vec<_>>()
    };
    let petersen = (0..5)
        .flat_map(|v| [(v, (v + 1) % 5), (v, v + 5), (v + 5, (v + 2) % 5 + 5)])
        .collect::<Vec<_>>();
    let mut shapes = vec![
        petersen,
        wheel(5),
        wheel(8),
        prism(3),
        prism(4),
        prism(5),
        star(10),
    ];
    shapes.extend((3..=10).map(ring));
    shapes.extend((2..=7).map(star));
    shapes.extend((2..=6).map(complete));
    shapes.extend([(2, 2), (2, 5), (3, 3), (3, 4), (4, 4), (4, 5)].map(|(n, m)| bipartite(n, m)));
    shapes.iter().map(|pairs| plain(pairs)).collect()
}

/// One device of a drawing alone.
pub fn device(random: &mut Random, drawing: &Drawing) -> Drawing {
    Drawing {
        kinds: vec![*random.pick(&drawing.kinds)],
        cables: Vec::new(),
    }
}

/// Kind 1 and cable 5 throughout.
pub fn plain(pairs: &[(usize, usize)]) -> Drawing {
    let devices = pairs
        .iter()
        .map(|&(a, b)| a.max(b) + 1)
        .max()
        .expect("a cable");
    let cables = pairs
        .iter()
        .map(|&(a, b)| Cable { a, b, kind: 5 })
        .collect();
    Drawing {
        kinds: vec![1; devices],
        cables,
    }
}

/// A pattern that the drawing contains: some of its cables, taken up one after another from any, and their devices.
pub fn part(random: &mut Random, drawing: &Drawing) -> Drawing {
    if drawing.cables.is_empty() {
        return drawing.clone();
    }
    let size = random.between(1, drawing.cables.len());
    let mut left = drawing.cables.clone();
    random.shuffle(&mut left);
    let mut taken = vec![left.pop().expect("a cable")];
    while taken.len() < size {
        let touches = |cable: &Cable| {
            taken
                .iter()
                .any(|other| other.has_end(cable.a) || other.has_end(cable.b))
        };
        let next = left
            .iter()
            .position(touches)
            .expect("the drawing is connected");
        taken.push(left.swap_remove(next));
    }
    let is_end = |device: &usize| taken.iter().any(|cable| cable.has_end(*device));
    let devices: Vec<usize> = (0..drawing.devices()).filter(is_end).collect();
    let number = |device: usize| devices.iter().position(|&d| d == device).expect("an end");
    let cables = taken
        .iter()
        .map(|cable| Cable {
            a: number(cable.a),
            b: number(cable.b),
            kind: cable.kind,
        })
        .collect();
    Drawing {
        kinds: devices
            .iter()
            .map(|&device| drawing.kinds[device])
            .collect(),
        cables,
    }
}

/// A drawing that differs little: a kind changed, a cable moved, or a cable less, if it stays a drawing.
pub fn neighbour(random: &mut Random, drawing: &Drawing) -> Drawing {
    let mut other = drawing.clone();
    if other.cables.is_empty() {
        other.kinds[0] ^= 1;
        return other;
    }
    let cable = random.below(other.cables.len());
    match random.below(4) {
        0 => other.kinds[random.below(drawing.devices())] ^= 1,
        1 => other.cables[cable].kind ^= 1,
        2 => other.cables[cable].a = random.below(drawing.devices()),
        _ => drop(other.cables.swap_remove(cable)),
    }
    Drawing::read(&other.record()).unwrap_or_else(|_| drawing.clone())
}

/// Any crane, often one at an edge: the least and the greatest, and numbers that have their low bits in common.
fn crane(random: &mut Random) -> u8 {
    match random.below(3) {
        0 => random.byte(),
        _ => *random.pick(&[0, 0, 1, 31, 32, 63, 64, 127, 128, 192, 255, 255]),
    }
}

/// The record of a drawing as a sheet of any crane.
pub fn sheet(random: &mut Random, drawing: &Drawing) -> Vec<u8> {
    drawing.sheet(crane(random))
}

/// A crane for each drawing of a survey: each its own, all one, or a few that repeat, side by side or apart.
fn cranes(random: &mut Random, drawings: usize) -> Vec<u8> {
    let few: Vec<u8> = (0..random.between(2, 5)).map(|_| crane(random)).collect();
    let mut cranes: Vec<u8> = (0..=255).collect();
    match random.below(6) {
        0 => {}
        1 => random.shuffle(&mut cranes),
        2 => cranes.fill(few[0]),
        _ => cranes.fill_with(|| *random.pick(&few)),
    }
    cranes.truncate(drawings);
    if random.once_in(4) {
        cranes.sort();
    }
    cranes
}

/// Drawings as a survey, each a sheet of some crane.
pub fn survey(random: &mut Random, drawings: &[Drawing]) -> Vec<u8> {
    let cranes = cranes(random, drawings.len());
    let sheets = drawings.iter().zip(cranes);
    sheets.flat_map(|(d, crane)| d.sheet(crane)).collect()
}

/// The record of a drawing with one to three faults. Some of them are none after all: an unused byte that is zero again.
pub fn damaged_record(random: &mut Random, drawing: &Drawing) -> Vec<u8> {
    let mut record = sheet(random, drawing);
    for _ in 0..random.between(1, 3) {
        match drawing.cables.len() {
            0 => damage_lone(random, &mut record),
            _ => damage_record(random, drawing, &mut record),
        }
    }
    record
}

/// Counts that do not go together, an unused byte, or another length.
fn damage_lone(random: &mut Random, record: &mut Vec<u8>) {
    let (place, value) = match random.below(5) {
        0 => (0, *random.pick(&[0, 2, 10, 11])),
        1 => (1, random.between(1, 21)),
        2 => (random.between(3, 11), 1),
        3 => (random.between(12, CRANE_AT - 1), 1),
        _ => return record.truncate(RECORD - 1),
    };
    if let Some(byte) = record.get_mut(place) {
        *byte = value as u8;
    }
}

fn damage_record(random: &mut Random, drawing: &Drawing, record: &mut Vec<u8>) {
    let (n, m) = (drawing.devices(), drawing.cables.len());
    let cable = 12 + 3 * random.below(m);
    let mut set = |place: usize, value: u8| {
        if let Some(byte) = record.get_mut(place) {
            *byte = value;
        }
    };
    match random.below(12) {
        0 => record.truncate(*random.pick(&[0, 1, 11, RECORD - 1])),
        1 => record.push(0),
        2 => set(0, *random.pick(&[0, 1, 11, 255])),
        3 => set(1, *random.pick(&[0, 21, 255])),
        4 => set(cable + random.below(2), *random.pick(&[n as u8, 10, 255])),
        5 => set(cable + random.below(2), random.below(n) as u8),
        6 => set(cable + 1, drawing.cables[(cable - 12) / 3].a as u8),
        7 => copy_cable(random, record, m),
        8 => set(2 + random.between(n, MOST_DEVICES), random.byte()),
        // The last of these is the crane, which is no fault.
        9 => set(12 + random.between(3 * m, CRANE_AT - 12), random.byte()),
        10 => set(1, (m - 1) as u8),
        _ => set(random.below(RECORD), random.byte()),
    }
}

/// A cable joins the pair of another one, perhaps the other way round.
fn copy_cable(random: &mut Random, record: &mut [u8], m: usize) {
    let (from, to) = (12 + 3 * random.below(m), 12 + 3 * random.below(m));
    if to + 3 <= record.len() && from + 3 <= record.len() {
        let (a, b) = (record[from], record[from + 1]);
        (record[to], record[to + 1]) = if random.once_in(2) { (a, b) } else { (b, a) };
    }
}

/// Two drawings side by side, with nothing between them: refusal 8.
pub fn apart(random: &mut Random) -> Vec<u8> {
    let shape = Shape {
        devices: (2, 5),
        most_cables: 8,
        kinds: 2,
    };
    let (left, right) = (drawing(random, shape), drawing(random, shape));
    let further = right.cables.iter().map(|cable| Cable {
        a: cable.a + left.devices(),
        b: cable.b + left.devices(),
        ..*cable
    });
    let cables = left.cables.iter().copied().chain(further).collect();
    let apart = Drawing {
        kinds: [left.kinds.clone(), right.kinds.clone()].concat(),
        cables,
    };
    sheet(random, &apart)
}

/// Some DFS code of a drawing.
pub fn any_code(random: &mut Random, drawing: &Drawing) -> Code {
    let mut chosen = None;
    let mut seen = 0;
    code::for_each_code(drawing, &mut |code| {
        seen += 1;
        if random.once_in(seen) {
            chosen = Some(code);
        }
    });
    chosen.expect("a connected drawing has a DFS code")
}

/// Of the codes of a drawing one for each number of records that some of them agree with the least in.
pub fn codes_by_agreement(random: &mut Random, drawing: &Drawing) -> Vec<Code> {
    let least = code::least(drawing);
    let mut chosen: BTreeMap<usize, (usize, Code)> = BTreeMap::new();
    code::for_each_code(drawing, &mut |code| {
        let (seen, kept) = chosen.entry(agreement::of(&code, &least)).or_default();
        *seen += 1;
        if random.once_in(*seen) {
            *kept = code;
        }
    });
    chosen.into_values().map(|(_, code)| code).collect()
}

/// Every code of at most so many records, of devices of kind 1 and cables of these kinds.
pub fn every_code(records: usize, cable_kinds: &[u8]) -> Vec<Code> {
    let mut all: Vec<Code> = vec![Vec::new()];
    let mut grown = 0;
    while let Some(code) = all.get(grown).cloned() {
        if code.len() < records {
            all.extend(with_one_more(&code, cable_kinds));
        }
        grown += 1;
    }
    all.split_off(1)
}

/// A code, or nothing, with every record behind it that makes a code of it.
fn with_one_more(code: &Code, cable_kinds: &[u8]) -> Vec<Code> {
    let devices = 0..=code.len() + 1;
    let pairs = devices
        .clone()
        .flat_map(|i| devices.clone().map(move |j| (i, j)));
    let records = pairs.flat_map(|(i, j)| {
        cable_kinds.iter().map(move |&c| Record {
            i,
            j,
            ki: 1,
            c,
            kj: 1,
        })
    });
    let longer = records.map(|record| [&code[..], &[record]].concat());
    let is_code = |code: &Code| code[0].i != code[0].j && code::read(&code::bytes(code)).is_ok();
    longer.filter(is_code).collect()
}

/// A code with another cable kind in one record: a code too, of a drawing that differs in that.
pub fn other_cable_kind(random: &mut Random, code: &Code) -> Code {
    let mut other = code.clone();
    let record = random.below(code.len());
    other[record].c ^= 1;
    other
}

/// Seven devices, each joined with each but for one pair: as many cables as a drawing may have. Some of its codes differ in the last record alone.
pub fn near_clique() -> Drawing {
    let pairs = (0..7).flat_map(|v| (0..v).map(move |u| (u, v)));
    plain(&pairs.skip(1).collect::<Vec<_>>())
}

/// The bytes of a code with one or two faults. Some of them are none after all.
pub fn damaged_code(random: &mut Random, code: &Code) -> Vec<u8> {
    let mut bytes = code::bytes(code);
    for _ in 0..random.between(1, 2) {
        damage_code(random, &mut bytes);
    }
    bytes
}

fn damage_code(random: &mut Random, bytes: &mut Vec<u8>) {
    let records = bytes.len() / code::RECORD;
    if records == 0 {
        return;
    }
    let at = code::RECORD * random.below(records);
    match random.below(11) {
        0 => bytes.truncate(random.below(bytes.len())),
        1 => bytes.push(0),
        2 => bytes.extend(vec![0; 100]),
        3 => bytes[at + random.below(2)] = random.below(11) as u8,
        4 => bytes.swap(at, at + 1),
        5 | 6 => bytes[at + random.between(2, 4)] ^= 1,
        7 => repeat_record(bytes, at),
        8 => bytes[at..at + 2].fill(0),
        9 => put_lone(bytes, at),
        _ => *bytes = [&bytes[..at], &bytes[at + code::RECORD..]].concat(),
    }
}

/// A record a second time, right after itself.
fn repeat_record(bytes: &mut Vec<u8>, at: usize) {
    let record = bytes[at..at + code::RECORD].to_vec();
    bytes.splice(at..at, record);
}

/// The record of a lone device in front of another record.
fn put_lone(bytes: &mut Vec<u8>, at: usize) {
    let kind = bytes[at + 2];
    bytes.splice(at..at, [0, 0, kind, 0, kind]);
}
