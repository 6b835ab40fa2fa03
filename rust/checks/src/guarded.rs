//! Memory between two closed pages: a read or write beside it ends the process.

use std::cell::RefCell;
use std::collections::BTreeMap;
use std::ffi::c_void;
use std::{ptr, slice};

/// Of x86-64, which the engine's archive is for; so are the numbers below, as Linux has them.
const PAGE: usize = 4096;

const PROT_NONE: i32 = 0;
const PROT_READ_WRITE: i32 = 3;
const MAP_PRIVATE_ANONYMOUS: i32 = 0x22;

extern "C" {
    fn mmap(
        address: *mut c_void,
        length: usize,
        protection: i32,
        flags: i32,
        file: i32,
        offset: i64,
    ) -> *mut c_void;
    fn mprotect(address: *mut c_void, length: usize, protection: i32) -> i32;
    fn munmap(address: *mut c_void, length: usize) -> i32;
}

/// Whole pages, with a closed one before and a closed one after them.
struct Pages {
    first: *mut u8,
    count: usize,
}

impl Pages {
    fn new(count: usize) -> Self {
        let length = (count + 2) * PAGE;
        // SAFETY: a new mapping, of which only the pages between the first and the last are opened.
        unsafe {
            let closed = mmap(
                ptr::null_mut(),
                length,
                PROT_NONE,
                MAP_PRIVATE_ANONYMOUS,
                -1,
                0,
            );
            assert_ne!(closed as isize, -1, "{} bytes are mapped", length);
            let first = closed.cast::<u8>().add(PAGE);
            let opened = mprotect(first.cast(), count * PAGE, PROT_READ_WRITE);
            assert_eq!(opened, 0, "{} pages are opened", count);
            Pages { first, count }
        }
    }
}

impl Drop for Pages {
    fn drop(&mut self) {
        // SAFETY: the whole mapping, which nothing borrows any more.
        unsafe { munmap(self.first.sub(PAGE).cast(), (self.count + 2) * PAGE) };
    }
}

thread_local! {
    /// Pages that are not in use, by their number.
    static KEPT: RefCell<BTreeMap<usize, Vec<Pages>>> = RefCell::new(BTreeMap::new());
}

/// Memory for a buffer.
pub struct Guarded {
    /// There until it is dropped.
    pages: Option<Pages>,
}

impl Guarded {
    /// Pages for this many bytes. Those of an earlier one of this thread are used again, with what it
    /// left in them: the system's calls would take most of a comparison's time.
    pub fn new(bytes: usize) -> Self {
        let count = (bytes + PAGE - 1) / PAGE;
        let kept = KEPT.with(|kept| kept.borrow_mut().get_mut(&count).and_then(Vec::pop));
        Guarded {
            pages: Some(kept.unwrap_or_else(|| Pages::new(count))),
        }
    }

    fn pages(&self) -> &Pages {
        self.pages.as_ref().expect("not dropped")
    }

    pub fn slice(&self) -> &[u8] {
        let pages = self.pages();
        // SAFETY: these pages are open, and borrowed as `self` is.
        unsafe { slice::from_raw_parts(pages.first, pages.count * PAGE) }
    }

    pub fn slice_mut(&mut self) -> &mut [u8] {
        let pages = self.pages();
        // SAFETY: as above.
        unsafe { slice::from_raw_parts_mut(pages.first, pages.count * PAGE) }
    }
}

impl Drop for Guarded {
    fn drop(&mut self) {
        if let Some(pages) = self.pages.take() {
            // At the thread's end they are not kept.
            let _ = KEPT.try_with(|kept| {
                let mut kept = kept.borrow_mut();
                kept.entry(pages.count).or_default().push(pages);
            });
        }
    }
}
