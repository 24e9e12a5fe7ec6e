//! Memory to lend: pages between two that nobody may touch, or a heap block of just the size.

use std::slice;

extern "C" {
    fn mmap(at: *mut u8, length: usize, protection: i32, flags: i32, file: i32, offset: i64) -> *mut u8;
    fn mprotect(at: *mut u8, length: usize, protection: i32) -> i32;
    fn munmap(at: *mut u8, length: usize) -> i32;
}

// As Linux has them on x86-64.
const PAGE: usize = 4096;
const NONE: i32 = 0;
const READ_AND_WRITE: i32 = 3;
const PRIVATE_ANONYMOUS: i32 = 0x22;

/// Pages that can be read and written, with one on each side that can't: touching it ends the run by a signal.
pub struct Pages {
    first: *mut u8,
    size: usize,
}

impl Pages {
    /// At least that many bytes, zero at first.
    pub fn new(least: usize) -> Pages {
        let size = least.next_multiple_of(PAGE);
        // A new mapping at an address of the system's choice touches nothing that is in use.
        let outer = unsafe { mmap(std::ptr::null_mut(), size + 2 * PAGE, NONE, PRIVATE_ANONYMOUS, -1, 0) };
        assert!(outer as isize != -1, "no memory");
        let first = unsafe { outer.add(PAGE) };
        let opened = unsafe { mprotect(first, size, READ_AND_WRITE) };
        assert!(opened == 0, "no memory");
        Pages { first, size }
    }

    fn bytes(&self) -> &[u8] {
        // The mapping lives as long as this value, and only its methods give out its bytes.
        unsafe { slice::from_raw_parts(self.first, self.size) }
    }

    fn bytes_mut(&mut self) -> &mut [u8] {
        unsafe { slice::from_raw_parts_mut(self.first, self.size) }
    }
}

impl Drop for Pages {
    fn drop(&mut self) {
        unsafe { munmap(self.first.sub(PAGE), self.size + 2 * PAGE) };
    }
}

pub enum Memory {
    Pages(Pages),
    /// Just as long as what is lent, for valgrind, which sees any byte beside a block.
    Block(Box<[u8]>),
}

impl Memory {
    pub fn bytes(&self) -> &[u8] {
        match self {
            Memory::Pages(pages) => pages.bytes(),
            Memory::Block(block) => block,
        }
    }

    pub fn bytes_mut(&mut self) -> &mut [u8] {
        match self {
            Memory::Pages(pages) => pages.bytes_mut(),
            Memory::Block(block) => block,
        }
    }
}
