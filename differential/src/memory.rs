//! What a call takes of memory: the most that the allocator held during it, and how deep the stack was.

use std::alloc::{GlobalAlloc, Layout, System};
use std::sync::atomic::{AtomicBool, AtomicIsize, Ordering::Relaxed};

/// The system's allocator, which counts while it is told to.
pub struct Counting;

static COUNTS: AtomicBool = AtomicBool::new(false);
static HELD: AtomicIsize = AtomicIsize::new(0);
static MOST: AtomicIsize = AtomicIsize::new(0);

fn grown(by: isize) {
    if COUNTS.load(Relaxed) {
        let held = HELD.fetch_add(by, Relaxed) + by;
        MOST.fetch_max(held, Relaxed);
    }
}

unsafe impl GlobalAlloc for Counting {
    unsafe fn alloc(&self, layout: Layout) -> *mut u8 {
        grown(layout.size() as isize);
        System.alloc(layout)
    }

    unsafe fn alloc_zeroed(&self, layout: Layout) -> *mut u8 {
        grown(layout.size() as isize);
        System.alloc_zeroed(layout)
    }

    unsafe fn dealloc(&self, place: *mut u8, layout: Layout) {
        grown(-(layout.size() as isize));
        System.dealloc(place, layout)
    }

    unsafe fn realloc(&self, place: *mut u8, layout: Layout, size: usize) -> *mut u8 {
        grown(size as isize - layout.size() as isize);
        System.realloc(place, layout, size)
    }
}

/// Below the caller so much of the stack is painted; a thread that measures must have more.
const PAINTED: usize = 16 << 20;
pub const STACK: usize = 2 * PAINTED;
/// The frame of `paint` itself.
const OWN: usize = 256;
const PAINT: u64 = 0x5bd1_e995_a5a5_3c3c;

/// Writes the paint below its frame, where the frames of the next call will be, and says where that begins.
#[inline(never)]
fn paint() -> usize {
    let here = 0u64;
    let top = std::ptr::addr_of!(here) as usize;
    for at in (top - PAINTED..top - OWN).step_by(8) {
        // the stack of a thread is mapped as a whole
        unsafe { (at as *mut u64).write_volatile(PAINT) };
    }
    top
}

/// How far below the top the paint is gone.
#[inline(never)]
fn depth(top: usize) -> usize {
    let gone = |at: &usize| unsafe { (*at as *const u64).read_volatile() } != PAINT;
    let deepest = (top - PAINTED..top - OWN).step_by(8).find(gone);
    deepest.map_or(OWN, |at| top - at)
}

/// What a call makes, the most bytes that the allocator held beyond those before it, and the bytes of stack. It must run
/// in a thread with STACK bytes while no other allocates.
pub fn measured<T>(call: impl FnOnce() -> T) -> (T, usize, usize) {
    let top = paint();
    HELD.store(0, Relaxed);
    MOST.store(0, Relaxed);
    COUNTS.store(true, Relaxed);
    let made = call();
    COUNTS.store(false, Relaxed);
    let depth = depth(top);
    assert!(depth < PAINTED, "the stack is deeper than what is painted");
    (made, MOST.load(Relaxed) as usize, depth)
}
