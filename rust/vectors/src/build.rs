//! Maps and bytes that break a rule on purpose.

use reference::{Map, Road};

/// The four records of a map as (kind, body), to be spoilt one at a time.
#[derive(Clone)]
pub struct Records {
    /// Kind and body of each record.
    pub records: [(u16, Vec<u8>); 4],
}

impl Records {
    /// The records of a map.
    pub fn of(map: &Map) -> Records {
        let bytes = map.bytes();
        let mut rest = &bytes[..];
        let records = [(); 4].map(|_| {
            let length = u32::from_le_bytes([rest[0], rest[1], rest[2], rest[3]]) as usize;
            let record = (
                u16::from_le_bytes([rest[4], rest[5]]),
                rest[6..4 + length].to_vec(),
            );
            rest = &rest[4 + length..];
            record
        });
        Records { records }
    }

    /// Sets a count of record 1: 0 vertices, 1 roads, 2 parts.
    pub fn with_count(mut self, which: usize, count: u16) -> Records {
        self.records[0].1[2 * which..2 * which + 2].copy_from_slice(&count.to_le_bytes());
        self
    }

    /// Sets the kind of a record, counted from 0.
    pub fn with_kind(mut self, record: usize, kind: u16) -> Records {
        self.records[record].0 = kind;
        self
    }

    /// Makes the body of a record so many bytes longer or shorter, its length field with it.
    pub fn with_more(mut self, record: usize, more: isize) -> Records {
        let body = &mut self.records[record].1;
        body.resize(body.len().checked_add_signed(more).unwrap(), 0);
        self
    }

    /// The bytes.
    pub fn bytes(&self) -> Vec<u8> {
        let mut bytes = Vec::new();
        for (kind, body) in &self.records {
            bytes.extend((2 + body.len() as u32).to_le_bytes());
            bytes.extend(kind.to_le_bytes());
            bytes.extend(body);
        }
        bytes
    }

    /// The bytes with another number in the length field of a record, the rest as it is.
    pub fn bytes_with_length(&self, record: usize, length: u32) -> Vec<u8> {
        let mut bytes = self.bytes();
        let at: usize = self.records[..record]
            .iter()
            .map(|(_, body)| 6 + body.len())
            .sum();
        bytes[at..at + 4].copy_from_slice(&length.to_le_bytes());
        bytes
    }
}

/// A road.
pub fn road(from: u16, to: u16, weight: u32) -> Road {
    Road { from, to, weight }
}

/// A chain of parts with so many levels: at each level one leaf and one part that goes on, a vertex in each leaf.
pub fn chain(levels: usize) -> Map {
    let mut parents = vec![65_535];
    for level in 1..levels {
        let part = if level == 1 { 0 } else { 2 * level as u16 - 2 };
        parents.extend([part, part]);
    }
    let parts = parents.len();
    let leaves = (0..parts)
        .filter(|&part| !parents.iter().any(|&parent| parent as usize == part))
        .map(|part| part as u16)
        .collect::<Vec<u16>>();
    let vertices = leaves.len() as u16;
    Map {
        parents,
        roads: (1..vertices).map(|v| road(v - 1, v, v as u32)).collect(),
        leaves,
    }
}

/// A root with so many children, a vertex in each, and a way round.
pub fn fan(children: usize) -> Map {
    let mut parents = vec![65_535];
    parents.extend(vec![0; children]);
    let leaves = (1..=children as u16).collect();
    let mut roads = Vec::new();
    if children > 1 {
        let last = children as u16 - 1;
        roads = (0..last).map(|v| road(v, v + 1, 1)).collect();
        roads.push(road(last, 0, 1));
    }
    Map {
        parents,
        leaves,
        roads,
    }
}

/// The root alone with so many vertices, and a path through them.
pub fn one_leaf(vertices: usize) -> Map {
    Map {
        parents: vec![65_535],
        leaves: vec![0; vertices],
        roads: (1..vertices as u16).map(|v| road(v - 1, v, 2)).collect(),
    }
}

/// A tree of so many parts, each with two children or three where the number is even; a vertex in each leaf, no roads.
pub fn many_parts(parts: usize) -> Map {
    let mut parents: Vec<u16> = vec![65_535];
    let mut part = 0;
    while parents.len() < parts {
        let children = if parts - parents.len() == 3 { 3 } else { 2 };
        parents.extend(vec![part; children]);
        part += 1;
    }
    let leaves = (0..parts as u16).filter(|p| !parents.contains(p)).collect();
    Map {
        parents,
        leaves,
        roads: vec![],
    }
}
