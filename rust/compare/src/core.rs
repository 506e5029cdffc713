//! The C functions on slices.

use crate::watch;
use hailtrellis::sys::{self, Reply};
use scenarios::Call;

/// Opens a map on a memory.
pub fn open(map: &[u8], memory: &mut [u32], start: u32) -> Reply {
    // Safety: both are slices lent for their lengths.
    watch::call(|| unsafe {
        let (words, length) = (memory.as_mut_ptr(), memory.len());
        sys::hailtrellis_open(map.as_ptr(), map.len(), words, length, start)
    })
}

/// Makes a call other than an opening on a memory and answer words.
pub fn call(call: Call, memory: &mut [u32], answer: &mut [u32]) -> Reply {
    let (words, length) = (memory.as_mut_ptr(), memory.len());
    // Safety: the memory and the answer are different slices, each lent for its length.
    watch::call(|| unsafe {
        match call {
            Call::Open { .. } | Call::OpenDamaged { .. } => panic!("an opening needs a map"),
            Call::Add {
                van,
                from,
                to,
                offset,
            } => sys::hailtrellis_add(words, length, van, from, to, offset),
            Call::Move {
                van,
                from,
                to,
                offset,
            } => sys::hailtrellis_move(words, length, van, from, to, offset),
            Call::Remove { van } => sys::hailtrellis_remove(words, length, van),
            Call::Claim { van, stamp, desk } => {
                sys::hailtrellis_claim(words, length, van, stamp, desk)
            }
            Call::Release { van, desk } => sys::hailtrellis_release(words, length, van, desk),
            Call::Question { vertex, k, .. } => {
                let (list, list_length) = (answer.as_mut_ptr(), answer.len());
                sys::hailtrellis_question(words, length, vertex, k, list, list_length)
            }
            Call::Road { from, to } => sys::hailtrellis_road(words, length, from, to),
        }
    })
}
