//! Memory between two pages that nobody may touch: a read or write past its end, or before its start, ends the program.

use std::ffi::c_void;
use std::marker::PhantomData;
use std::ops::{Deref, DerefMut};

extern "C" {
    fn mmap(
        address: *mut c_void,
        length: usize,
        protection: i32,
        flags: i32,
        file: i32,
        offset: i64,
    ) -> *mut c_void;
    fn mprotect(address: *mut c_void, length: usize, protection: i32) -> i32;
    fn munmap(address: *mut c_void, length: usize) -> i32;
}

const PAGE: usize = 4_096;
const NO_ACCESS: i32 = 0;
const READ_AND_WRITE: i32 = 3;
const PRIVATE_ANONYMOUS: i32 = 0x22;

/// Numbers that any bytes make.
pub trait Plain: Copy {}
impl Plain for u8 {}
impl Plain for u32 {}

/// At which end the memory touches its guard page without a gap.
#[derive(Clone, Copy, Debug, PartialEq, Eq)]
pub enum Guard {
    /// The word before the first one is guarded.
    AtStart,
    /// The word after the last one is guarded.
    AtEnd,
}

/// A slice between two guard pages, all zero at first.
pub struct Guarded<T: Plain> {
    region: *mut c_void,
    region_bytes: usize,
    first: *mut T,
    length: usize,
    holds: PhantomData<T>,
}

impl<T: Plain> Guarded<T> {
    /// So many numbers, all zero.
    pub fn new(length: usize, guard: Guard) -> Guarded<T> {
        let bytes = length * size_of::<T>();
        let inside = bytes.div_ceil(PAGE) * PAGE;
        let region_bytes = inside + 2 * PAGE;
        // Safety: a fresh private mapping; the pages between the first and the last are then made accessible, and the slice lies
        // within them, aligned because a page is a multiple of the number's size and so are the bytes.
        unsafe {
            let region = mmap(
                std::ptr::null_mut(),
                region_bytes,
                NO_ACCESS,
                PRIVATE_ANONYMOUS,
                -1,
                0,
            );
            assert!(region as isize != -1, "no memory to be had");
            let start = region.cast::<u8>().add(PAGE);
            if inside > 0 {
                assert_eq!(mprotect(start.cast(), inside, READ_AND_WRITE), 0);
            }
            let first = match guard {
                Guard::AtStart => start,
                Guard::AtEnd => start.add(inside - bytes),
            };
            Guarded {
                region,
                region_bytes,
                first: first.cast(),
                length,
                holds: PhantomData,
            }
        }
    }

    /// The same numbers between guard pages.
    pub fn copy_of(numbers: &[T], guard: Guard) -> Guarded<T> {
        let mut guarded = Guarded::new(numbers.len(), guard);
        guarded.copy_from_slice(numbers);
        guarded
    }
}

impl<T: Plain> Drop for Guarded<T> {
    fn drop(&mut self) {
        // Safety: the region was mapped whole and is not used any more.
        unsafe {
            munmap(self.region, self.region_bytes);
        }
    }
}

impl<T: Plain> Deref for Guarded<T> {
    type Target = [T];
    fn deref(&self) -> &[T] {
        // Safety: the slice lies in the accessible pages, which start as zeros.
        unsafe { std::slice::from_raw_parts(self.first, self.length) }
    }
}

impl<T: Plain> DerefMut for Guarded<T> {
    fn deref_mut(&mut self) -> &mut [T] {
        // Safety: the slice lies in the accessible pages, which start as zeros.
        unsafe { std::slice::from_raw_parts_mut(self.first, self.length) }
    }
}

#[cfg(test)]
mod tests {
    use super::*;

    #[test]
    fn the_slice_touches_its_guard() {
        for length in [0, 1, 3, 1_023, 1_024, 1_025, 5_000] {
            let at_end: Guarded<u32> = Guarded::new(length, Guard::AtEnd);
            assert_eq!(at_end.as_ptr_range().end as usize % PAGE, 0);
            let mut at_start: Guarded<u8> = Guarded::new(length, Guard::AtStart);
            assert_eq!(at_start.as_ptr() as usize % PAGE, 0);
            at_start.fill(7);
            assert!(at_start.iter().all(|&byte| byte == 7));
        }
    }
}
