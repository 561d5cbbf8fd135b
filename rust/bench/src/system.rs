//! The system's calls for pages (Linux on x86-64).
use std::ffi::c_void;

extern "C" {
    fn mmap(
        at: *mut c_void,
        length: usize,
        may: i32,
        how: i32,
        file: i32,
        from: i64,
    ) -> *mut c_void;
    fn madvise(at: *mut c_void, length: usize, advice: i32) -> i32;
    fn getrusage(who: i32, usage: *mut [i64; 18]) -> i32;
}

const READ_WRITE: i32 = 1 | 2;
/// Private, anonymous, without reserve.
const OWN: i32 = 0x2 | 0x20 | 0x4000;
const DONT_NEED: i32 = 4;
const NO_HUGE_PAGES: i32 = 15;
const MINOR_FAULTS: usize = 8;

/// Room of so many bytes, no page of it touched, each page 4 KB when it is; 0 if there is none.
pub fn reserve(length: usize) -> usize {
    // SAFETY: a new mapping, at an address of the system's choice.
    let at = unsafe { mmap(std::ptr::null_mut(), length, READ_WRITE, OWN, -1, 0) };
    if at as isize == -1 {
        return 0;
    }
    // SAFETY: the mapping just made. Where there are no huge pages at all the advice is refused.
    unsafe { madvise(at, length, NO_HUGE_PAGES) };
    at as usize
}

/// Gives pages back to the system; they read as zeros when they are touched again.
///
/// # Safety
/// They are of a room that was reserved, and nothing in them is in use.
pub unsafe fn give_back(at: usize, length: usize) {
    assert_eq!(madvise(at as *mut c_void, length, DONT_NEED), 0, "pages were not given back");
}

/// How many pages were first touched by this process so far.
pub fn faults() -> i64 {
    let mut usage = [0; 18];
    // SAFETY: the structure has 18 words: two times of two words each, and 14 counts.
    assert_eq!(unsafe { getrusage(0, &mut usage) }, 0, "no usage");
    usage[MINOR_FAULTS]
}
