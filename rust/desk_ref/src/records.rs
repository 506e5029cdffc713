//! The records of the desk program's input: reading one, and writing them for tests and comparisons.

use reference::State;

/// A call that a record of kind 16 to 21 gives, with the numbers of its body in their widths.
#[derive(Clone, Copy, Debug, PartialEq, Eq)]
pub enum Call {
    /// Kind 16: van, from, to, offset.
    Add(u16, u16, u16, u32),
    /// Kind 17: van, from, to, offset.
    Move(u16, u16, u16, u32),
    /// Kind 18: van.
    Remove(u16),
    /// Kind 19: van, stamp, desk.
    Claim(u16, u32, u8),
    /// Kind 20: van, desk.
    Release(u16, u8),
    /// Kind 21: vertex, k.
    Question(u16, u16),
}

/// The kind and body of the record at the start of the input, and the input after it; nothing if it is cut or too short
/// for a kind.
pub fn next(input: &[u8]) -> Option<(u16, &[u8], &[u8])> {
    let field = input.get(..4)?;
    let length = u32::from_le_bytes([field[0], field[1], field[2], field[3]]) as usize;
    let whole = input.get(4..4 + length)?;
    if length < 2 {
        return None;
    }
    let kind = u16::from_le_bytes([whole[0], whole[1]]);
    Some((kind, &whole[2..], &input[4 + length..]))
}

/// The number of two bytes at a place of a body.
fn two(body: &[u8], at: usize) -> u16 {
    u16::from_le_bytes([body[at], body[at + 1]])
}

/// The number of four bytes at a place of a body.
fn four(body: &[u8], at: usize) -> u32 {
    u32::from_le_bytes([body[at], body[at + 1], body[at + 2], body[at + 3]])
}

impl Call {
    /// The call of a record; nothing if the kind is none of a call or the body has another length.
    pub fn read(kind: u16, body: &[u8]) -> Option<Call> {
        match (kind, body.len()) {
            (16, 10) => Some(Call::Add(
                two(body, 0),
                two(body, 2),
                two(body, 4),
                four(body, 6),
            )),
            (17, 10) => Some(Call::Move(
                two(body, 0),
                two(body, 2),
                two(body, 4),
                four(body, 6),
            )),
            (18, 2) => Some(Call::Remove(two(body, 0))),
            (19, 7) => Some(Call::Claim(two(body, 0), four(body, 2), body[6])),
            (20, 3) => Some(Call::Release(two(body, 0), body[2])),
            (21, 4) => Some(Call::Question(two(body, 0), two(body, 2))),
            _ => None,
        }
    }

    /// Makes a change in the reference: its stamp or its refusal; nothing for a question.
    pub fn change(&self, state: &mut State) -> Option<Result<u32, u32>> {
        let n = |number: u16| number as u32;
        Some(match *self {
            Call::Add(van, from, to, offset) => state.add(n(van), n(from), n(to), offset),
            Call::Move(van, from, to, offset) => state.move_van(n(van), n(from), n(to), offset),
            Call::Remove(van) => state.remove(n(van)),
            Call::Claim(van, stamp, desk) => state.claim(n(van), stamp, desk as u32),
            Call::Release(van, desk) => state.release(n(van), desk as u32),
            Call::Question(..) => return None,
        })
    }

    /// The bytes of the call's record.
    pub fn bytes(&self) -> Vec<u8> {
        let place = |kind, van: u16, from: u16, to: u16, offset: u32| {
            let mut body = Vec::new();
            body.extend(van.to_le_bytes());
            body.extend(from.to_le_bytes());
            body.extend(to.to_le_bytes());
            body.extend(offset.to_le_bytes());
            record(kind, &body)
        };
        match *self {
            Call::Add(van, from, to, offset) => place(16, van, from, to, offset),
            Call::Move(van, from, to, offset) => place(17, van, from, to, offset),
            Call::Remove(van) => record(18, &van.to_le_bytes()),
            Call::Claim(van, stamp, desk) => {
                let mut body = van.to_le_bytes().to_vec();
                body.extend(stamp.to_le_bytes());
                body.push(desk);
                record(19, &body)
            }
            Call::Release(van, desk) => {
                let mut body = van.to_le_bytes().to_vec();
                body.push(desk);
                record(20, &body)
            }
            Call::Question(vertex, k) => {
                let mut body = vertex.to_le_bytes().to_vec();
                body.extend(k.to_le_bytes());
                record(21, &body)
            }
        }
    }
}

/// A record of a kind with a body, its length field right.
pub fn record(kind: u16, body: &[u8]) -> Vec<u8> {
    let mut bytes = (2 + body.len() as u32).to_le_bytes().to_vec();
    bytes.extend(kind.to_le_bytes());
    bytes.extend(body);
    bytes
}

/// The bytes of an opening record and of calls after it.
pub fn calls(start: u32, calls: &[Call]) -> Vec<u8> {
    let mut bytes = record(5, &start.to_le_bytes());
    for call in calls {
        bytes.extend(call.bytes());
    }
    bytes
}
