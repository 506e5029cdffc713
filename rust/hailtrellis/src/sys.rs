//! The C functions, as the archive `libhailtrellis_c.a` has them and `include/hailtrellis.h` declares them.
//!
//! All calls of one opening are lent one memory, always from its first word. Memory, map and answer words do not
//! overlap. Lengths are in words (in bytes for the map).

/// What a call answers: 0 and the value, or the number of a refusal and 0.
#[repr(C)]
#[derive(Clone, Copy, Debug, PartialEq, Eq)]
pub struct Reply {
    /// 0 if the call was accepted, otherwise the number of the refusal.
    pub code: u32,
    /// The start number, the new stamp or the length of the list; 0 for a road that was looked up, and if the call was refused.
    pub value: u32,
}

extern "C" {
    /// Opens a map on a memory with a start number. The value is the start number.
    ///
    /// # Safety
    /// `map` must be readable for `map_len` bytes and `memory` writable for `memory_len` words.
    pub fn hailtrellis_open(
        map: *const u8,
        map_len: usize,
        memory: *mut u32,
        memory_len: usize,
        start: u32,
    ) -> Reply;

    /// Places a free van on the road (from, to), `offset` left to `to`. The value is the new stamp.
    ///
    /// # Safety
    /// `memory` must be writable for `memory_len` words.
    pub fn hailtrellis_add(
        memory: *mut u32,
        memory_len: usize,
        van: u32,
        from: u32,
        to: u32,
        offset: u32,
    ) -> Reply;

    /// Changes the place of a van, free or held. The value is the new stamp.
    ///
    /// # Safety
    /// `memory` must be writable for `memory_len` words.
    pub fn hailtrellis_move(
        memory: *mut u32,
        memory_len: usize,
        van: u32,
        from: u32,
        to: u32,
        offset: u32,
    ) -> Reply;

    /// Takes out a free van. The value is the new change count.
    ///
    /// # Safety
    /// `memory` must be writable for `memory_len` words.
    pub fn hailtrellis_remove(memory: *mut u32, memory_len: usize, van: u32) -> Reply;

    /// Makes a free van held by a desk, if the stamp is the van's. The value is the new stamp.
    ///
    /// # Safety
    /// `memory` must be writable for `memory_len` words.
    pub fn hailtrellis_claim(
        memory: *mut u32,
        memory_len: usize,
        van: u32,
        stamp: u32,
        desk: u32,
    ) -> Reply;

    /// Frees a van that this desk holds. The value is the new stamp.
    ///
    /// # Safety
    /// `memory` must be writable for `memory_len` words.
    pub fn hailtrellis_release(memory: *mut u32, memory_len: usize, van: u32, desk: u32) -> Reply;

    /// Lists the k nearest free vans to a vertex as van, distance and stamp, three words each. The value is the length.
    ///
    /// # Safety
    /// `memory` must be readable for `memory_len` words and `answer` writable for `answer_len` words, apart from it.
    pub fn hailtrellis_question(
        memory: *const u32,
        memory_len: usize,
        vertex: u32,
        k: u32,
        answer: *mut u32,
        answer_len: usize,
    ) -> Reply;

    /// Tells of the road (from, to): accepted with 0 if it is one, refused by whether (to, from) is one if not.
    ///
    /// # Safety
    /// `memory` must be readable for `memory_len` words.
    pub fn hailtrellis_road(memory: *const u32, memory_len: usize, from: u32, to: u32) -> Reply;
}
