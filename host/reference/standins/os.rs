//! Stands in for the memory of a buffer: the global allocator, with a limit that a test may set.
use std::alloc::{self, Layout};
use std::cell::Cell;
use std::ptr;

thread_local! {
    /// The largest number of bytes that this thread gets for one buffer.
    pub static LIMIT: Cell<usize> = const { Cell::new(usize::MAX) };
}

/// Gives the bytes of a buffer back.
///
/// # Safety
/// `at` came from [`realloc`] with the same alignment, and `bytes` is the size that it gave.
pub unsafe fn dealloc(at: *mut u8, bytes: usize, align: usize) {
    unsafe { alloc::dealloc(at, Layout::from_size_align_unchecked(bytes, align)) }
}

/// A buffer of `want` bytes and its size; null where there is none, and then the old one stays.
///
/// # Safety `want` is not 0, and unless `have` is 0, `at` is a buffer of `have` bytes with the same
/// alignment.
pub unsafe fn realloc(at: *mut u8, have: usize, want: usize, align: usize) -> (*mut u8, usize) {
    let Ok(layout) = Layout::from_size_align(want, align) else {
        return (ptr::null_mut(), 0);
    };
    if want > LIMIT.get() {
        return (ptr::null_mut(), 0);
    }
    let new = if have == 0 {
        unsafe { alloc::alloc(layout) }
    } else {
        unsafe { alloc::realloc(at, Layout::from_size_align_unchecked(have, align), want) }
    };
    (new, want)
}

/// Nothing is given back early.
pub unsafe fn trim(_at: *mut u8, _bytes: usize, _used: usize) {}
