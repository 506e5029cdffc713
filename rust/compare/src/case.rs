//! A case: what the calls start from, and the calls. It can be written to a file and read again.

use crate::guarded::Guard;
use scenarios::Call;
use std::fmt::Write;

/// What the calls of a case start from.
#[derive(Clone, Debug, PartialEq, Eq)]
pub enum Ground {
    /// A map, opened with a start number on a memory of the need and so many words beyond.
    Map {
        map: Vec<u8>,
        start: u32,
        beyond: usize,
    },
    /// A map whose bytes are any, opened with a start number on a memory of so many words.
    AnyMap {
        map: Vec<u8>,
        start: u32,
        words: usize,
    },
    /// Words that no opening left behind.
    Forged { words: Vec<u32> },
}

/// A call and how many words of the memory it is lent.
#[derive(Clone, Copy, Debug, PartialEq, Eq)]
pub struct Step {
    /// How many words are lent, always from the first; more than there are means all.
    pub lent: u32,
    /// The call.
    pub call: Call,
}

/// A case.
#[derive(Clone, Debug, PartialEq, Eq)]
pub struct Case {
    /// What the calls start from.
    pub ground: Ground,
    /// Where the memory touches its guard page.
    pub guard: Guard,
    /// The calls.
    pub steps: Vec<Step>,
}

fn hex(bytes: impl Iterator<Item = u8>) -> String {
    bytes.fold(String::new(), |mut text, byte| {
        write!(text, "{byte:02x}").unwrap();
        text
    })
}

fn bytes(hex: &str) -> Result<Vec<u8>, String> {
    if !hex.len().is_multiple_of(2) || !hex.is_ascii() {
        return Err("no bytes".to_string());
    }
    (0..hex.len() / 2)
        .map(|i| u8::from_str_radix(&hex[2 * i..2 * i + 2], 16).map_err(|e| e.to_string()))
        .collect()
}

impl Case {
    /// The case as text.
    pub fn written(&self) -> String {
        let mut text = String::new();
        match &self.ground {
            Ground::Map { map, start, beyond } => {
                writeln!(text, "map {start} {beyond} {}", hex(map.iter().copied()))
            }
            Ground::AnyMap { map, start, words } => {
                writeln!(text, "any-map {start} {words} {}", hex(map.iter().copied()))
            }
            Ground::Forged { words } => {
                let bytes = words.iter().flat_map(|word| word.to_le_bytes());
                writeln!(text, "forged {}", hex(bytes))
            }
        }
        .unwrap();
        let guard = match self.guard {
            Guard::AtStart => "start",
            Guard::AtEnd => "end",
        };
        writeln!(text, "guard {guard}").unwrap();
        for step in &self.steps {
            writeln!(text, "lent {} {}", step.lent, step.call).unwrap();
        }
        text
    }

    /// Reads what `written` writes.
    pub fn read(text: &str) -> Result<Case, String> {
        let mut ground = None;
        let mut guard = Guard::AtEnd;
        let mut steps = Vec::new();
        for line in text.lines() {
            let bad = || format!("bad line: {}", &line[..line.len().min(60)]);
            let number = |word: &str| word.parse::<u32>().map_err(|_| bad());
            let words: Vec<&str> = line.split_whitespace().collect();
            match words.as_slice() {
                ["map", start, beyond, map] => {
                    ground = Some(Ground::Map {
                        map: bytes(map)?,
                        start: number(start)?,
                        beyond: number(beyond)? as usize,
                    });
                }
                ["any-map", start, memory, map @ ..] => {
                    ground = Some(Ground::AnyMap {
                        map: bytes(&map.concat())?,
                        start: number(start)?,
                        words: number(memory)? as usize,
                    });
                }
                ["forged", memory] => {
                    let words = bytes(memory)?
                        .chunks_exact(4)
                        .map(|b| u32::from_le_bytes([b[0], b[1], b[2], b[3]]))
                        .collect();
                    ground = Some(Ground::Forged { words });
                }
                ["guard", "start"] => guard = Guard::AtStart,
                ["guard", "end"] => guard = Guard::AtEnd,
                ["lent", lent, call @ ..] => steps.push(Step {
                    lent: number(lent)?,
                    call: call.join(" ").parse()?,
                }),
                _ if line.trim().is_empty() || line.starts_with('#') => {}
                _ => return Err(bad()),
            }
        }
        Ok(Case {
            ground: ground.ok_or("no ground")?,
            guard,
            steps,
        })
    }
}

#[cfg(test)]
mod tests {
    use super::*;

    #[test]
    fn a_case_is_read_as_it_was_written() {
        let steps = vec![
            Step {
                lent: 7,
                call: Call::Remove { van: 3 },
            },
            Step {
                lent: u32::MAX,
                call: Call::Open { start: 9 },
            },
        ];
        for ground in [
            Ground::Map {
                map: vec![1, 2, 255],
                start: 4,
                beyond: 0,
            },
            Ground::AnyMap {
                map: vec![],
                start: 4,
                words: 12,
            },
            Ground::Forged {
                words: vec![20_481, u32::MAX],
            },
        ] {
            let case = Case {
                ground,
                guard: Guard::AtStart,
                steps: steps.clone(),
            };
            assert_eq!(Case::read(&case.written()), Ok(case));
        }
    }
}
