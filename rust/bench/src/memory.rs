//! The memory that a round writes, made for both sides by one allocator. While a round runs, each
//! block, lent buffer or column of the original, comes from one room: from the list of blocks of its
//! size that were freed, else from the room's untouched end. *Kept*: the room stays as it is for all
//! rounds of a circuit, so that after the first, which is not timed, all blocks are warm. *Fresh*: the
//! room's pages go back to the system after each round of each side, so that each round touches pages
//! anew. Neither is in a side's time. What rounds only read lies elsewhere and stays.
use crate::system;
use std::alloc::{GlobalAlloc, Layout, System};
use std::cell::UnsafeCell;

#[derive(Clone, Copy, PartialEq, Eq)]
pub enum Memory {
    Kept,
    Fresh,
}

impl Memory {
    pub fn name(self) -> &'static str {
        match self {
            Memory::Kept => "kept",
            Memory::Fresh => "fresh",
        }
    }
}

/// Both sides' blocks for the largest circuit take less than a tenth.
const ROOM: usize = 4 << 30;
/// Blocks lie as far apart as malloc's, so that columns do not lie a power of two apart.
const BETWEEN: usize = 16;
const CLASSES: usize = 8 * usize::BITS as usize;

struct Room {
    start: usize,
    /// The first byte that was never handed out.
    end: usize,
    /// Whether blocks are taken from here.
    on: bool,
    /// Blocks in use.
    used: usize,
    /// The freed blocks of each class: each holds the next one's address.
    free: [usize; CLASSES],
}

struct Allocator(UnsafeCell<Room>);

// SAFETY: the benchmark has one thread.
unsafe impl Sync for Allocator {}

#[global_allocator]
static ALLOCATOR: Allocator =
    Allocator(UnsafeCell::new(Room { start: 0, end: 0, on: false, used: 0, free: [0; CLASSES] }));

/// The class of a size and its length: multiples of 16 up to 128, then eight to each doubling.
fn class(size: usize) -> (usize, usize) {
    if size <= 128 {
        let units = size.div_ceil(16);
        return (units, 16 * units);
    }
    let top = (size - 1).ilog2() as usize;
    let steps = (size - 1) >> (top - 3);
    (8 * top + steps % 8, (steps + 1) << (top - 3))
}

impl Room {
    fn holds(&self, block: usize) -> bool {
        self.start <= block && block < self.end
    }

    /// A block, 0 if there is none, and whether it is known to be zeros.
    fn take(&mut self, size: usize) -> (usize, bool) {
        let (class, length) = class(size);
        let freed = self.free[class];
        if freed == 0 && length + BETWEEN > self.start + ROOM - self.end {
            return (0, false);
        }
        self.used += 1;
        if freed == 0 {
            let block = self.end + BETWEEN;
            self.end = block + length;
            return (block, true);
        }
        // SAFETY: a freed block's first word was written by `free`.
        self.free[class] = unsafe { *(freed as *const usize) };
        (freed, false)
    }

    fn free(&mut self, block: usize, size: usize) {
        let (class, _) = class(size);
        // SAFETY: the block is the room's and no longer in use; each has 16 bytes at least.
        unsafe { *(block as *mut usize) = self.free[class] };
        self.free[class] = block;
        self.used -= 1;
    }

    fn empty(&mut self) {
        assert_eq!(self.used, 0, "a round's block is still in use");
        // SAFETY: the room's pages, of which nothing is in use.
        unsafe { system::give_back(self.start, (self.end - self.start).next_multiple_of(4096)) };
        self.end = self.start;
        self.free = [0; CLASSES];
    }
}

impl Allocator {
    #[allow(clippy::mut_from_ref)]
    fn room(&self) -> &mut Room {
        // SAFETY: one thread, and no caller holds the answer while another asks for it.
        unsafe { &mut *self.0.get() }
    }

    fn takes(&self, layout: Layout) -> bool {
        self.room().on && layout.align() <= BETWEEN
    }
}

// SAFETY: blocks of the room do not overlap, are as long as asked and lie at multiples of 16; all
// others are the system allocator's. A block's address tells whose it is.
unsafe impl GlobalAlloc for Allocator {
    unsafe fn alloc(&self, layout: Layout) -> *mut u8 {
        if self.takes(layout) {
            return self.room().take(layout.size()).0 as *mut u8;
        }
        System.alloc(layout)
    }

    unsafe fn alloc_zeroed(&self, layout: Layout) -> *mut u8 {
        if !self.takes(layout) {
            return System.alloc_zeroed(layout);
        }
        let (block, zeros) = self.room().take(layout.size());
        if block != 0 && !zeros {
            std::ptr::write_bytes(block as *mut u8, 0, layout.size());
        }
        block as *mut u8
    }

    unsafe fn dealloc(&self, block: *mut u8, layout: Layout) {
        if self.room().holds(block as usize) {
            return self.room().free(block as usize, layout.size());
        }
        System.dealloc(block, layout)
    }

    unsafe fn realloc(&self, block: *mut u8, layout: Layout, size: usize) -> *mut u8 {
        if !self.room().holds(block as usize) {
            return System.realloc(block, layout, size);
        }
        if class(layout.size()) == class(size) {
            return block;
        }
        let grown = self.alloc(Layout::from_size_align_unchecked(size, layout.align()));
        if !grown.is_null() {
            std::ptr::copy_nonoverlapping(block, grown, layout.size().min(size));
            self.dealloc(block, layout);
        }
        grown
    }
}

/// Before the first round.
pub fn start() {
    let start = system::reserve(ROOM);
    assert!(start != 0, "no room of {ROOM} bytes");
    let room = ALLOCATOR.room();
    (room.start, room.end) = (start, start);
}

/// What this makes, it makes in the room.
pub fn within<T>(make: impl FnOnce() -> T) -> T {
    ALLOCATOR.room().on = true;
    let made = make();
    ALLOCATOR.room().on = false;
    made
}

/// Gives the room's pages back to the system; no block may be in use.
pub fn give_back() {
    ALLOCATOR.room().empty();
}
