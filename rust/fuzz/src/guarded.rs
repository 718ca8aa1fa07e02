//! Buffers that end at a page which may be neither read nor written, so that a step over the end ends
//! the process. A step before the start does so where the buffer fills its pages.

use std::ffi::{c_int, c_void};

const PAGE: usize = 4_096;

const NOTHING: c_int = 0;
const READ_AND_WRITE: c_int = 3;
const PRIVATE_AND_ANONYMOUS: c_int = 0x22;

unsafe extern "C" {
    fn mmap(
        at: *mut c_void,
        length: usize,
        protection: c_int,
        flags: c_int,
        file: c_int,
        offset: i64,
    ) -> *mut c_void;
    fn mprotect(at: *mut c_void, length: usize, protection: c_int) -> c_int;
}

/// # Safety
/// Zero bytes are a value of such a type.
pub unsafe trait Zeroed: Copy {}

// SAFETY: numbers, and an array of numbers.
unsafe impl Zeroed for u8 {}
unsafe impl Zeroed for u32 {}
unsafe impl Zeroed for [u32; 5] {}

/// Some elements, the last one before a guarded page.
pub struct Guarded<T> {
    first: *mut T,
    count: usize,
}

impl<T: Zeroed> Guarded<T> {
    /// Zeros, as new pages are. They are never given back.
    pub fn new(count: usize) -> Self {
        let bytes = count * size_of::<T>();
        let pages = bytes.div_ceil(PAGE) * PAGE;
        // SAFETY: new pages; the first and the last one are guarded, and the elements stand between.
        let first = unsafe {
            let nowhere = std::ptr::null_mut();
            let whole = pages + 2 * PAGE;
            let start = mmap(nowhere, whole, NOTHING, PRIVATE_AND_ANONYMOUS, -1, 0);
            assert_ne!(start as isize, -1, "no pages");
            let used = start.add(PAGE);
            assert_eq!(mprotect(used, pages, READ_AND_WRITE), 0, "no pages");
            used.add(pages - bytes).cast::<T>()
        };
        assert!(first.is_aligned());
        Self { first, count }
    }

    pub fn all(&mut self) -> &mut [T] {
        // SAFETY: the elements of `new`, which zeros are; lent as long as self is.
        unsafe { std::slice::from_raw_parts_mut(self.first, self.count) }
    }

    /// The last `count` elements.
    pub fn last(&mut self, count: usize) -> &mut [T] {
        let from = self.count - count;
        &mut self.all()[from..]
    }
}
