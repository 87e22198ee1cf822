//! Memory for the Rust codes that is there before they are timed, as the buffers lent to the proved code are. What they allocate is taken
//! from one array by moving an index and never handed back, so that the system is not asked; where the array is too small, the bench
//! ends. Handing the last block back, or the system's allocator, was slower.
use std::alloc::{GlobalAlloc, Layout, System};
use std::cell::UnsafeCell;
use std::sync::atomic::{AtomicUsize, Ordering::Relaxed};

const SIZE: usize = 1 << 22;

#[repr(align(4096))]
struct Arena(UnsafeCell<[u8; SIZE]>);

#[global_allocator]
static ARENA: Arena = Arena(UnsafeCell::new([0; SIZE]));

/// The first byte that is free; past the end while the system is asked instead.
static FREE: AtomicUsize = AtomicUsize::new(usize::MAX);

/// The bench has one thread.
unsafe impl Sync for Arena {}

unsafe impl GlobalAlloc for Arena {
    unsafe fn alloc(&self, layout: Layout) -> *mut u8 {
        let free = FREE.load(Relaxed);
        if free > SIZE {
            return System.alloc(layout);
        }
        let at = (free + layout.align() - 1) & !(layout.align() - 1);
        if SIZE.saturating_sub(at) < layout.size() {
            return std::ptr::null_mut();
        }
        FREE.store(at + layout.size(), Relaxed);
        self.0.get().cast::<u8>().add(at)
    }

    unsafe fn dealloc(&self, block: *mut u8, layout: Layout) {
        if (block as usize).wrapping_sub(self.0.get() as usize) >= SIZE {
            System.dealloc(block, layout);
        }
    }
}

/// Writes to every byte, so that the system has given it.
pub fn touch() {
    unsafe { (*ARENA.0.get()).fill(1) }
}

/// The system is asked again, also where the work has panicked.
struct Done;

impl Drop for Done {
    fn drop(&mut self) {
        FREE.store(usize::MAX, Relaxed);
    }
}

/// Does some work with the array, from its front. Nothing that the work allocates outlives it.
pub fn lent<T: Copy>(work: impl FnOnce() -> T) -> T {
    FREE.store(0, Relaxed);
    let _done = Done;
    work()
}
