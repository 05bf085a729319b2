//! Drawings: their record of 73 bytes, and refusals 1 to 8 by the paper's table. The last byte is the number of the crane that the drawing is a
//! sheet of; nothing about the drawing itself depends on it.
use std::collections::HashSet;

pub const RECORD: usize = 73;
pub const CRANE_AT: usize = 72;
pub const MOST_DEVICES: usize = 10;
pub const MOST_CABLES: usize = 20;
const KINDS_AT: usize = 2;
const CABLES_AT: usize = 12;

#[derive(Clone, Copy, Debug, PartialEq, Eq, Hash, PartialOrd, Ord)]
pub struct Cable {
    pub a: usize,
    pub b: usize,
    pub kind: u8,
}

impl Cable {
    pub fn has_end(&self, device: usize) -> bool {
        self.a == device || self.b == device
    }
}

pub type Joined = [[Option<u8>; MOST_DEVICES]; MOST_DEVICES];

#[derive(Clone, Debug, PartialEq, Eq, Hash)]
pub struct Drawing {
    pub kinds: Vec<u8>,
    pub cables: Vec<Cable>,
}

impl Drawing {
    pub fn devices(&self) -> usize {
        self.kinds.len()
    }

    /// For any two devices the kind of the cable that joins them.
    pub fn joined(&self) -> Joined {
        let mut joined = [[None; MOST_DEVICES]; MOST_DEVICES];
        for cable in &self.cables {
            joined[cable.a][cable.b] = Some(cable.kind);
            joined[cable.b][cable.a] = Some(cable.kind);
        }
        joined
    }

    /// The record with crane 0, as decoding writes it.
    pub fn record(&self) -> Vec<u8> {
        self.sheet(0)
    }

    /// The record as a sheet of this crane.
    pub fn sheet(&self, crane: u8) -> Vec<u8> {
        let mut record = vec![0; RECORD];
        record[CRANE_AT] = crane;
        record[0] = self.kinds.len() as u8;
        record[1] = self.cables.len() as u8;
        record[KINDS_AT..][..self.kinds.len()].copy_from_slice(&self.kinds);
        let places = record[CABLES_AT..CRANE_AT].chunks_mut(3);
        for (place, cable) in places.zip(&self.cables) {
            place.copy_from_slice(&[cable.a as u8, cable.b as u8, cable.kind]);
        }
        record
    }

    /// The drawing in a record, or the first refusal that applies.
    pub fn read(record: &[u8]) -> Result<Drawing, u8> {
        if record.len() != RECORD {
            return Err(1);
        }
        let (n, m) = (usize::from(record[0]), usize::from(record[1]));
        if !(1..=MOST_DEVICES).contains(&n) {
            return Err(2);
        }
        let permitted = if n == 1 { 0..=0 } else { 1..=MOST_CABLES };
        if !permitted.contains(&m) {
            return Err(3);
        }
        let (kinds, unused_kinds) = record[KINDS_AT..CABLES_AT].split_at(n);
        let (cables, unused_cables) = record[CABLES_AT..CRANE_AT].split_at(3 * m);
        let drawing = Drawing {
            kinds: kinds.to_vec(),
            cables: read_cables(n, cables)?,
        };
        if unused_kinds
            .iter()
            .chain(unused_cables)
            .any(|&byte| byte != 0)
        {
            return Err(7);
        }
        if !drawing.is_connected() {
            return Err(8);
        }
        Ok(drawing)
    }

    /// Components are merged cable by cable; connected is what ends as one.
    pub fn is_connected(&self) -> bool {
        let mut component: Vec<usize> = (0..self.devices()).collect();
        for cable in &self.cables {
            let (kept, merged) = (component[cable.a], component[cable.b]);
            for name in component.iter_mut().filter(|name| **name == merged) {
                *name = kept;
            }
        }
        component.iter().all(|name| *name == component[0])
    }
}

fn read_cables(n: usize, bytes: &[u8]) -> Result<Vec<Cable>, u8> {
    let mut pairs = HashSet::new();
    let mut cables = Vec::new();
    for place in bytes.chunks(3) {
        let (a, b) = (usize::from(place[0]), usize::from(place[1]));
        if a.max(b) >= n {
            return Err(4);
        }
        if a == b {
            return Err(5);
        }
        if !pairs.insert((a.min(b), a.max(b))) {
            return Err(6);
        }
        cables.push(Cable {
            a,
            b,
            kind: place[2],
        });
    }
    Ok(cables)
}
