//! Memory from mmap: lent at the edge of closed pages, where the first byte too far ends the process, or shared with a child process.
use std::ffi::c_void;

extern "C" {
    fn mmap(at: *mut c_void, len: usize, protection: i32, flags: i32, file: i32, offset: i64) -> *mut c_void;
    fn mprotect(at: *mut c_void, len: usize, protection: i32) -> i32;
}

const PAGE: usize = 4096;
const CLOSED: i32 = 0;
const OPEN: i32 = 3;
const SHARED: i32 = 0x01;
const PRIVATE: i32 = 0x02;
const ANONYMOUS: i32 = 0x20;
/// Pages are taken as they are written, so that a mapping may be larger than what is used of it.
const UNRESERVED: i32 = 0x4000;

/// Zeroed pages that are never given back.
fn mapped(len: usize, protection: i32, sharing: i32) -> *mut u8 {
    // SAFETY: a new mapping at a place that the system chooses.
    let at = unsafe { mmap(std::ptr::null_mut(), len, protection, sharing | ANONYMOUS | UNRESERVED, -1, 0) };
    assert_ne!(at as isize, -1, "no memory to map");
    at.cast()
}

/// Zeroed memory that child processes share.
pub fn shared<T>() -> *mut T {
    mapped(size_of::<T>(), OPEN, SHARED).cast()
}

/// The side of lent bytes on which the next byte is closed.
#[derive(Clone, Copy, PartialEq, Eq, Debug)]
pub enum Edge {
    Before,
    After,
}

/// Open pages between two closed ones.
pub struct Closed {
    open: *mut u8,
    most: usize,
}

impl Closed {
    /// Room for at least so many bytes.
    pub fn new(room: usize) -> Closed {
        let most = room.next_multiple_of(PAGE);
        let open = mapped(most + 2 * PAGE, CLOSED, PRIVATE).wrapping_add(PAGE);
        // SAFETY: pages of the mapping just made.
        assert_eq!(unsafe { mprotect(open.cast(), most, OPEN) }, 0);
        Closed { open, most }
    }

    /// A copy of the numbers at the edge: bytes, or such of which a page holds a whole count.
    pub fn lend<T: Copy>(&mut self, numbers: &[T], edge: Edge) -> &mut [T] {
        let bytes = size_of_val(numbers);
        assert!(bytes <= self.most && PAGE.is_multiple_of(size_of::<T>()));
        let from = match edge {
            Edge::Before => 0,
            Edge::After => self.most - bytes,
        };
        let at = self.open.wrapping_add(from).cast();
        // SAFETY: the open pages are this value's alone, the numbers lie within them, and at both edges their place is a multiple of their size.
        unsafe {
            std::ptr::copy_nonoverlapping(numbers.as_ptr(), at, numbers.len());
            std::slice::from_raw_parts_mut(at, numbers.len())
        }
    }
}
