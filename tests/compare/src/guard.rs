//! Memory that ends where no access is allowed: a touch past what is lent from its end is caught.

extern "C" {
    fn mmap(at: *mut u8, size: usize, access: i32, kind: i32, file: i32, offset: i64) -> *mut u8;
    fn mprotect(at: *mut u8, size: usize, access: i32) -> i32;
    fn munmap(at: *mut u8, size: usize) -> i32;
    fn signal(number: i32, handler: extern "C" fn(i32)) -> usize;
}

const PAGE: usize = 4096;
const NO_ACCESS: i32 = 0;
const READ_AND_WRITE: i32 = 3;
const PRIVATE_WITHOUT_FILE: i32 = 0x22;
const BAD_ACCESS: i32 = 11;

pub struct Guarded {
    start: *mut u8,
    size: usize,
}

impl Guarded {
    /// So many bytes, rounded up to whole pages, and behind them a page without access.
    pub fn new(size: usize) -> Self {
        let size = size.next_multiple_of(PAGE);
        let start = unsafe { mmap(std::ptr::null_mut(), size + PAGE, READ_AND_WRITE, PRIVATE_WITHOUT_FILE, -1, 0) };
        assert!(start as isize != -1, "no memory for {size} bytes");
        assert_eq!(unsafe { mprotect(start.add(size), PAGE, NO_ACCESS) }, 0, "no page without access");
        Guarded { start, size }
    }

    pub fn bytes(&self) -> &[u8] {
        unsafe { std::slice::from_raw_parts(self.start, self.size) }
    }

    pub fn bytes_mut(&mut self) -> &mut [u8] {
        unsafe { std::slice::from_raw_parts_mut(self.start, self.size) }
    }
}

impl Drop for Guarded {
    fn drop(&mut self) {
        unsafe { munmap(self.start, self.size + PAGE) };
    }
}

/// What is to be done when such a page is touched.
pub fn when_touched(handler: extern "C" fn(i32)) {
    unsafe { signal(BAD_ACCESS, handler) };
}
