//! The order in which the original makes its nodes: an allocator that notes the allocations of one size during one call.
use std::alloc::{GlobalAlloc, Layout, System};
use std::collections::HashMap;
use std::sync::atomic::{AtomicUsize, Ordering::Relaxed};

const ROOM: usize = 1 << 18;
/// The size that is noted; 0: none is.
static SIZE: AtomicUsize = AtomicUsize::new(0);
static NEXT: AtomicUsize = AtomicUsize::new(0);
static NOTED: [AtomicUsize; ROOM] = [const { AtomicUsize::new(0) }; ROOM];

pub struct Recorder;

unsafe impl GlobalAlloc for Recorder {
    unsafe fn alloc(&self, layout: Layout) -> *mut u8 {
        let at = unsafe { System.alloc(layout) };
        if layout.size() == SIZE.load(Relaxed) {
            let i = NEXT.fetch_add(1, Relaxed);
            NOTED[i % ROOM].store(at as usize, Relaxed);
        }
        at
    }

    unsafe fn dealloc(&self, at: *mut u8, layout: Layout) {
        unsafe { System.dealloc(at, layout) }
    }
}

/// The allocations of a call: how many there were, and for each address its last turn.
pub struct Noted {
    pub count: usize,
    pub turns: HashMap<usize, usize>,
}

/// Runs `make` and hands back its result with the allocations of that size.
pub fn noting<T>(size: usize, make: impl FnOnce() -> T) -> (T, Noted) {
    NEXT.store(0, Relaxed);
    SIZE.store(size, Relaxed);
    let made = make();
    SIZE.store(0, Relaxed);
    let count = NEXT.load(Relaxed);
    assert!(count <= ROOM, "more allocations than the recorder notes");
    (made, Noted { count, turns: (0..count).map(|turn| (NOTED[turn].load(Relaxed), turn)).collect() })
}
