//! Memory to lend with a page that cannot be touched directly before and after it: a byte read or written outside
//! ends the program with a fault.
use std::{io, ptr, slice};

const PAGE: usize = 4096;
const PROT_NONE: i32 = 0;
const PROT_READ: i32 = 1;
const PROT_WRITE: i32 = 2;
const MAP_PRIVATE: i32 = 2;
const MAP_ANONYMOUS: i32 = 32;

unsafe extern "C" {
    fn mmap(address: *mut u8, length: usize, protection: i32, flags: i32, file: i32, offset: i64) -> *mut u8;
    fn mprotect(address: *mut u8, length: usize, protection: i32) -> i32;
    fn munmap(address: *mut u8, length: usize) -> i32;
}

/// Which guard the lent bytes touch: they begin right after the first, or end right before the second.
#[derive(Clone, Copy, Debug, PartialEq, Eq)]
pub enum Edge {
    Front,
    Back,
}

/// Room for up to `pages` pages between two guards, and the stretch of it that is lent now.
pub struct Guarded {
    mapping: *mut u8,
    pages: usize,
    start: usize,
    length: usize,
}

// the mapping belongs to this value alone
unsafe impl Send for Guarded {}
unsafe impl Sync for Guarded {}

impl Guarded {
    pub fn new(pages: usize) -> Self {
        let whole = (pages + 2) * PAGE;
        let mapping = unsafe { mmap(ptr::null_mut(), whole, PROT_NONE, MAP_PRIVATE | MAP_ANONYMOUS, -1, 0) };
        assert!(mapping as isize != -1, "no memory with guard pages: {}", io::Error::last_os_error());
        let guarded = Guarded { mapping, pages, start: 0, length: 0 };
        guarded.protect(PROT_READ | PROT_WRITE);
        guarded
    }

    fn room(&self) -> *mut u8 {
        unsafe { self.mapping.add(PAGE) }
    }

    fn protect(&self, protection: i32) {
        let done = unsafe { mprotect(self.room(), self.pages * PAGE, protection) };
        assert!(done == 0, "pages could not be protected: {}", io::Error::last_os_error());
    }

    /// Lends `length` bytes at this edge, to be read and written, with whatever stands there.
    pub fn place(&mut self, length: usize, edge: Edge) -> &mut [u8] {
        assert!(length <= self.pages * PAGE, "{length} bytes are more than the guarded room");
        self.protect(PROT_READ | PROT_WRITE);
        self.start = match edge {
            Edge::Front => 0,
            Edge::Back => self.pages * PAGE - length,
        };
        self.length = length;
        self.bytes_mut()
    }

    /// Lends a copy of `bytes` that can be read only: a write to it is a fault too.
    pub fn lend(&mut self, bytes: &[u8], edge: Edge) -> &[u8] {
        self.place(bytes.len(), edge).copy_from_slice(bytes);
        self.protect(PROT_READ);
        self.bytes()
    }

    pub fn bytes(&self) -> &[u8] {
        unsafe { slice::from_raw_parts(self.room().add(self.start), self.length) }
    }

    pub fn bytes_mut(&mut self) -> &mut [u8] {
        unsafe { slice::from_raw_parts_mut(self.room().add(self.start), self.length) }
    }

    /// The lent bytes as values of a type that any bytes make up.
    ///
    /// # Safety
    /// Every pattern of bytes must be a value of `T`.
    pub unsafe fn values_mut<T>(&mut self) -> &mut [T] {
        let (before, values, after) = unsafe { self.bytes_mut().align_to_mut::<T>() };
        assert!(before.is_empty() && after.is_empty(), "the lent bytes are not whole values");
        values
    }

    /// Reads one byte beyond the lent stretch, to show that the guard stands. It does not return.
    pub fn trespass(&self, edge: Edge) {
        let place = match edge {
            Edge::Front => unsafe { self.room().sub(1) },
            Edge::Back => unsafe { self.room().add(self.start + self.length) },
        };
        std::hint::black_box(unsafe { ptr::read_volatile(place) });
    }
}

impl Drop for Guarded {
    fn drop(&mut self) {
        unsafe { munmap(self.mapping, (self.pages + 2) * PAGE) };
    }
}
