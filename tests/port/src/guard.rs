//! Memory that ends right before an unreadable page: a step outside faults.
use std::{ffi::c_void, mem, ptr, slice};

extern "C" {
    fn mmap(
        at: *mut c_void,
        size: usize,
        prot: i32,
        flags: i32,
        fd: i32,
        offset: i64,
    ) -> *mut c_void;
    fn mprotect(at: *mut c_void, size: usize, prot: i32) -> i32;
    fn munmap(at: *mut c_void, size: usize) -> i32;
}

const PAGE: usize = 65_536; // a multiple of every page size in use
const READ_WRITE: i32 = 3;
const NOTHING: i32 = 0;
const PRIVATE_ANONYMOUS: i32 = 0x22;

/// `n` values laid against the page behind them.
pub struct Guarded<T: Copy> {
    base: *mut u8,
    size: usize,
    at: *mut T,
    n: usize,
}

impl<T: Copy> Guarded<T> {
    pub fn new(values: &[T]) -> Self {
        let bytes = mem::size_of_val(values);
        let size = bytes.div_ceil(PAGE) * PAGE + PAGE;
        // SAFETY: fresh anonymous pages, of which the last is closed; the values end where it begins.
        unsafe {
            let base =
                mmap(ptr::null_mut(), size, READ_WRITE, PRIVATE_ANONYMOUS, -1, 0).cast::<u8>();
            assert!(base as isize != -1, "no memory for a guarded slice");
            let end = base.add(size - PAGE);
            assert_eq!(
                mprotect(end.cast(), PAGE, NOTHING),
                0,
                "the guard page cannot be closed"
            );
            let at = end.sub(bytes).cast::<T>();
            ptr::copy_nonoverlapping(values.as_ptr(), at, values.len());
            Guarded {
                base,
                size,
                at,
                n: values.len(),
            }
        }
    }

    pub fn slice(&self) -> &[T] {
        // SAFETY: `at` has `n` values, written in `new`.
        unsafe { slice::from_raw_parts(self.at, self.n) }
    }

    pub fn fill(&mut self, value: T) {
        // SAFETY: as above, and `self` is borrowed alone.
        unsafe { slice::from_raw_parts_mut(self.at, self.n) }.fill(value);
    }

    /// The values, which are as many as there are.
    pub fn write(&mut self, values: &[T]) {
        // SAFETY: as above.
        unsafe { slice::from_raw_parts_mut(self.at, self.n) }.copy_from_slice(values);
    }

    pub fn pointer(&mut self) -> *mut T {
        self.at
    }

    pub fn len(&self) -> usize {
        self.n
    }
}

impl<T: Copy> Drop for Guarded<T> {
    fn drop(&mut self) {
        // SAFETY: the pages of `new`.
        unsafe { munmap(self.base.cast(), self.size) };
    }
}

/// Memory of which a call takes as much as it needs, always up to the unreadable page.
pub struct Tail<T: Copy>(Guarded<T>);

impl<T: Copy> Tail<T> {
    pub fn new(most: usize, value: T) -> Self {
        Tail(Guarded::new(&vec![value; most]))
    }

    /// The last n values.
    pub fn end(&mut self, n: usize) -> *mut T {
        assert!(n <= self.0.n, "a guarded slice of {n} values is too long");
        // SAFETY: within the values of `new`.
        unsafe { self.0.at.add(self.0.n - n) }
    }

    pub fn slice(&self, n: usize) -> &[T] {
        &self.0.slice()[self.0.n - n..]
    }

    pub fn slice_mut(&mut self, n: usize) -> &mut [T] {
        let at = self.end(n);
        // SAFETY: `at` has n values, and `self` is borrowed alone.
        unsafe { slice::from_raw_parts_mut(at, n) }
    }

    pub fn lay(&mut self, values: &[T]) -> *mut T {
        let to = self.slice_mut(values.len());
        to.copy_from_slice(values);
        to.as_mut_ptr()
    }

    pub fn fill(&mut self, n: usize, value: T) -> *mut T {
        let to = self.slice_mut(n);
        to.fill(value);
        to.as_mut_ptr()
    }

    /// Each of the last values anew, by its place from the end.
    pub fn each(&mut self, mut value: impl FnMut(usize) -> T) {
        const SOILED: usize = 4096;
        let n = self.0.n.min(SOILED);
        let to = self.slice_mut(n).iter_mut().enumerate();
        to.for_each(|(i, x)| *x = value(i));
    }
}
