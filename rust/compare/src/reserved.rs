//! Slices that are longer than memory: the system reserves their places, and fills them with zeros only where they are
//! looked at.
use std::ffi::c_void;

unsafe extern "C" {
    fn mmap(at: *mut c_void, len: usize, may: i32, how: i32, file: i32, offset: i64) -> *mut c_void;
    fn munmap(at: *mut c_void, len: usize) -> i32;
}

const READ_WRITE: i32 = 1 | 2;
/// Private, anonymous, not reserved in memory: Linux's numbers.
const UNBACKED: i32 = 0x02 | 0x20 | 0x4000;

/// So many numbers, all zero.
pub struct Reserved<T> {
    at: *mut T,
    len: usize,
}

impl<T> Reserved<T> {
    /// None where the system has no room for them.
    pub fn new(len: usize) -> Option<Reserved<T>> {
        // A new mapping, shared with nobody.
        let at = unsafe { mmap(std::ptr::null_mut(), len * size_of::<T>(), READ_WRITE, UNBACKED, -1, 0) };
        (at as isize != -1).then_some(Reserved { at: at.cast(), len })
    }

    pub fn slice(&mut self) -> &mut [T] {
        // Mapped by `new` for as long as this lives; whole numbers of zeros.
        unsafe { std::slice::from_raw_parts_mut(self.at, self.len) }
    }
}

impl<T> Drop for Reserved<T> {
    fn drop(&mut self) {
        // What `new` mapped, once.
        unsafe { munmap(self.at.cast(), self.len * size_of::<T>()) };
    }
}
