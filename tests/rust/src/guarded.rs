//! Slices that lie against unreadable pages, so that one byte read or written outside them ends the
//! process. A slice that is only read also lies in pages that cannot be written.

use std::ffi::{c_int, c_void};
use std::ops::Range;
use std::ptr;
use std::slice;
use std::sync::atomic::AtomicU64;

extern "C" {
    fn mmap(
        address: *mut c_void,
        length: usize,
        protection: c_int,
        flags: c_int,
        file: c_int,
        offset: i64,
    ) -> *mut c_void;
    fn mprotect(address: *mut c_void, length: usize, protection: c_int) -> c_int;
    fn munmap(address: *mut c_void, length: usize) -> c_int;
}

// Linux on x86-64, which the archive is for.
const PAGE: usize = 4096;
const NOTHING: c_int = 0;
const READ: c_int = 1;
const READ_AND_WRITE: c_int = 3;
const SHARED: c_int = 1;
const PRIVATE: c_int = 2;
const ANONYMOUS: c_int = 0x20;

/// Wide enough for an offset that is far from right.
const GUARD: usize = 256 * PAGE;

/// Pages enough for every book that is tried.
const LARGE: usize = 20;

/// The bytes around a slice in its pages.
static MARKS: [u8; LARGE * PAGE] = [0xA5; LARGE * PAGE];

/// New pages of zeros.
fn map(length: usize, protection: c_int, sharing: c_int) -> *mut u8 {
    let flags = sharing | ANONYMOUS;
    // SAFETY: the system chooses an address that nothing else has.
    let address = unsafe { mmap(ptr::null_mut(), length, protection, flags, -1, 0) };
    assert!(address as isize != -1, "no memory");
    address.cast()
}

/// Zeros, to be written by a child process and read by its parent.
pub fn shared_numbers<const N: usize>() -> &'static [AtomicU64; N] {
    let length = size_of::<[AtomicU64; N]>();
    // SAFETY: new pages, never unmapped, and zeros are such numbers.
    unsafe { &*map(length, READ_AND_WRITE, SHARED).cast() }
}

/// What the engine may do with a slice.
#[derive(Clone, Copy, Debug, PartialEq, Eq)]
pub enum Access {
    Read,
    ReadAndWrite,
}

/// Where a slice lies.
#[derive(Clone, Copy, Debug, PartialEq, Eq)]
pub enum Placement {
    /// Its first byte follows an unreadable page.
    AfterGuard,
    /// An unreadable page follows its last byte.
    BeforeGuard,
    /// So many bytes above a multiple of 8, among marked bytes.
    Misaligned(usize),
    /// In a heap block of its own length, which valgrind watches. An empty slice is NULL.
    Heap,
}

/// Pages between unreadable ones.
struct Pages {
    first: *mut u8,
    length: usize,
}

impl Pages {
    fn new(number: usize) -> Pages {
        let length = number * PAGE;
        let whole = map(length + 2 * GUARD, NOTHING, PRIVATE);
        // SAFETY: within what was mapped.
        let first = unsafe { whole.add(GUARD) };
        protect(first, length, READ_AND_WRITE);
        Pages { first, length }
    }

    /// The offset of a slice of so many bytes.
    fn offset(&self, length: usize, placement: Placement) -> usize {
        match placement {
            Placement::BeforeGuard => self.length - length,
            Placement::Misaligned(by) => 64 + by % 8,
            Placement::AfterGuard | Placement::Heap => 0,
        }
    }

    /// Puts `contents` there, with marks on all other bytes.
    fn lay(&mut self, contents: &[u8], placement: Placement, access: Access) -> Range<usize> {
        protect(self.first, self.length, READ_AND_WRITE);
        let at = self.offset(contents.len(), placement);
        let range = at..at + contents.len();
        // SAFETY: these pages are this value's alone and have just been made writable.
        let bytes = unsafe { slice::from_raw_parts_mut(self.first, self.length) };
        bytes.copy_from_slice(&MARKS[..self.length]);
        bytes[range.clone()].copy_from_slice(contents);
        if access == Access::Read {
            protect(self.first, self.length, READ);
        }
        range
    }

    fn bytes(&self) -> &[u8] {
        // SAFETY: these pages are this value's alone, and always readable.
        unsafe { slice::from_raw_parts(self.first, self.length) }
    }
}

impl Drop for Pages {
    fn drop(&mut self) {
        // SAFETY: what `new` mapped; no slice of it outlives this value.
        unsafe { munmap(self.first.sub(GUARD).cast(), self.length + 2 * GUARD) };
    }
}

fn protect(first: *mut u8, length: usize, protection: c_int) {
    // SAFETY: the pages are this module's own.
    let status = unsafe { mprotect(first.cast(), length, protection) };
    assert_eq!(status, 0, "mprotect");
}

/// Lends one slice at a time.
pub struct Lender {
    /// Most slices fit into one page, and then hardly a byte is in reach that is not theirs.
    small: Pages,
    large: Pages,
    heap: Box<[u8]>,
    /// The slice within its pages.
    range: Range<usize>,
    placement: Placement,
    access: Access,
}

impl Default for Lender {
    fn default() -> Lender {
        Lender {
            small: Pages::new(1),
            large: Pages::new(LARGE),
            heap: Box::new([]),
            range: 0..0,
            placement: Placement::Heap,
            access: Access::Read,
        }
    }
}

impl Lender {
    /// Puts a copy of `contents` where it is asked for.
    pub fn lay(&mut self, contents: &[u8], placement: Placement, access: Access) {
        (self.placement, self.access) = (placement, access);
        self.range = 0..contents.len();
        match placement {
            Placement::Heap => self.heap = contents.into(),
            _ => {
                self.range = self
                    .pages_for(contents.len())
                    .lay(contents, placement, access)
            }
        }
    }

    fn is_small(&self, length: usize) -> bool {
        length + 128 <= self.small.length
    }

    fn pages_for(&mut self, length: usize) -> &mut Pages {
        match self.is_small(length) {
            true => &mut self.small,
            false => &mut self.large,
        }
    }

    fn pages(&self) -> &Pages {
        match self.is_small(self.range.len()) {
            true => &self.small,
            false => &self.large,
        }
    }

    /// The slice; `None` stands for NULL with length 0.
    pub fn slice(&self) -> Option<&[u8]> {
        match self.placement {
            Placement::Heap => Some(&*self.heap).filter(|slice| !slice.is_empty()),
            _ => Some(&self.pages().bytes()[self.range.clone()]),
        }
    }

    /// The same for a call that may write it.
    pub fn buffer(&mut self) -> Option<&mut [u8]> {
        assert_eq!(self.access, Access::ReadAndWrite);
        let Range { start, end } = self.range;
        match self.placement {
            Placement::Heap => Some(&mut *self.heap).filter(|slice| !slice.is_empty()),
            _ => {
                let first = self.pages_for(end - start).first;
                // SAFETY: within the pages, which are writable and borrowed with `self`.
                Some(unsafe { slice::from_raw_parts_mut(first.add(start), end - start) })
            }
        }
    }

    /// Whether all other bytes of the pages are as they were.
    pub fn marks_stand(&self) -> bool {
        let bytes = match self.placement {
            Placement::Heap => return true,
            _ => self.pages().bytes(),
        };
        let (before, after) = (&bytes[..self.range.start], &bytes[self.range.end..]);
        before == &MARKS[..before.len()] && after == &MARKS[..after.len()]
    }

    /// Reads or writes a byte as a faulty engine would, to see that it is noticed: only for a
    /// child process, which is to die of it.
    pub fn trespass(&self, offset: isize, access: Access) {
        let start = self.slice().map_or(ptr::null(), <[u8]>::as_ptr);
        let byte = start.wrapping_offset(offset).cast_mut();
        // SAFETY: none. The process ends here, or nothing after this matters.
        unsafe {
            let value = byte.read_volatile();
            if access == Access::ReadAndWrite {
                byte.write_volatile(value);
            }
        }
    }
}
