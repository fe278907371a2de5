//! Lists between two pages that must not be touched: whoever reads or writes one element outside is
//! stopped at once.
//!
//! The archive is compiled without such checks of its own; here the processor makes them.
#![allow(unsafe_code)]
use crate::child::strays;
use std::cell::RefCell;
use std::ffi::{c_int, c_void};
use std::mem::needs_drop;
use std::ops::{Deref, DerefMut};
use std::ptr::null_mut;
use std::slice::{from_raw_parts, from_raw_parts_mut};

const PAGE: usize = 4096;
const UNTOUCHABLE: c_int = 0;
const READ_AND_WRITE: c_int = 3;
const PRIVATE_AND_EMPTY: c_int = 0x22;

unsafe extern "C" {
    fn mmap(
        wanted: *mut c_void,
        bytes: usize,
        may: c_int,
        flags: c_int,
        file: c_int,
        from: i64,
    ) -> *mut c_void;
    fn mprotect(at: *mut c_void, bytes: usize, may: c_int) -> c_int;
}

/// Pages of memory with an untouchable one before and after them.
struct Pages {
    first: *mut u8,
    bytes: usize,
}

thread_local! {
    /// Pages that no list uses at the moment; they are never given back.
    static FREE: RefCell<Vec<Pages>> = const { RefCell::new(Vec::new()) };
}

impl Pages {
    fn map(bytes: usize) -> Pages {
        let bytes = bytes.div_ceil(PAGE).next_power_of_two() * PAGE;
        // SAFETY: asks for new memory wherever there is room, so that nothing that is in use is
        // mapped anew.
        let all = unsafe { mmap(null_mut(), bytes + 2 * PAGE, READ_AND_WRITE, PRIVATE_AND_EMPTY, -1, 0) };
        assert!(all.addr() != usize::MAX, "no memory");
        // SAFETY: the three parts lie within what was just mapped, and nothing uses it yet.
        unsafe {
            let first = all.byte_add(PAGE);
            assert!(
                mprotect(all, PAGE, UNTOUCHABLE) == 0
                    && mprotect(first.byte_add(bytes), PAGE, UNTOUCHABLE) == 0
            );
            Pages { first: first.cast(), bytes }
        }
    }

    fn take(bytes: usize) -> Pages {
        let fitting = |free: &mut Vec<Pages>| {
            let place = free.iter().position(|pages| pages.bytes >= bytes)?;
            Some(free.swap_remove(place))
        };
        FREE.with_borrow_mut(fitting).unwrap_or_else(|| Pages::map(bytes))
    }
}

/// A list of numbers that ends right before an untouchable page, or starts right after one.
pub struct Guarded<T> {
    pages: Pages,
    start: *mut T,
    length: usize,
}

impl<T: Clone> Guarded<T> {
    /// A list that holds `values`, before the page or else after it.
    pub fn holding(values: &[T], before: bool) -> Guarded<T> {
        assert!(!needs_drop::<T>());
        let pages = Pages::take(size_of_val(values));
        let skipped = if before { pages.bytes - size_of_val(values) } else { 0 };
        // SAFETY: the pages have room for the values, so that what is skipped lies within them.
        let start: *mut T = unsafe { pages.first.add(skipped) }.cast();
        assert!(start.is_aligned());
        for (i, value) in values.iter().enumerate() {
            // SAFETY: from `start` on there is aligned room for all values, which only this list
            // has.
            unsafe { start.add(i).write(value.clone()) };
        }
        Guarded { pages, start, length: values.len() }
    }
}

impl<T> Drop for Guarded<T> {
    fn drop(&mut self) {
        let Pages { first, bytes } = self.pages;
        FREE.with_borrow_mut(|free| free.push(Pages { first, bytes }));
    }
}

impl<T> Deref for Guarded<T> {
    type Target = [T];
    fn deref(&self) -> &[T] {
        // SAFETY: `length` values were written from `start` on, and only this list has its pages.
        unsafe { from_raw_parts(self.start, self.length) }
    }
}

impl<T> DerefMut for Guarded<T> {
    fn deref_mut(&mut self) -> &mut [T] {
        // SAFETY: as in `deref`, and the list is lent to this call alone.
        unsafe { from_raw_parts_mut(self.start, self.length) }
    }
}

/// Whether reading the byte just outside a list is stopped, before the page and after it.
pub fn holds() -> bool {
    [true, false].into_iter().all(|before| {
        let list = Guarded::holding(&[0_u8; 5], before);
        let outside = if before { list.start.wrapping_add(5) } else { list.start.wrapping_sub(1) };
        // SAFETY: the place is in the untouchable page beside the list, where no value lies; the
        // processor ends the child.
        strays(|| unsafe { outside.read_volatile() })
    })
}
