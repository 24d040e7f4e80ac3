//! Where a shard's words lie.

use std::alloc::{alloc, dealloc, handle_alloc_error, Layout};
use std::ffi::{c_int, c_void};
use std::ops::Deref;
use std::slice::from_raw_parts;
use std::sync::atomic::AtomicU64;

const PAGE: usize = 1 << 21;
const MADV_HUGEPAGE: c_int = 14;

extern "C" {
    fn madvise(at: *mut c_void, length: usize, advice: c_int) -> c_int;
}

/// So many words, 0 at first: from two pages of 2 MiB on they lie on such, as the proved cache's do.
pub struct Words {
    first: *mut AtomicU64,
    count: usize,
    layout: Layout,
}

unsafe impl Send for Words {}
unsafe impl Sync for Words {}

impl Words {
    pub fn new(count: usize) -> Words {
        let bytes = 8 * count;
        let is_large = bytes >= 2 * PAGE;
        let alignment = if is_large { PAGE } else { 8 };
        let layout = Layout::from_size_align(bytes.next_multiple_of(alignment), alignment).unwrap();
        unsafe {
            let first = alloc(layout).cast::<AtomicU64>();
            if first.is_null() {
                handle_alloc_error(layout);
            }
            if is_large {
                madvise(first.cast(), (bytes + PAGE / 2) / PAGE * PAGE, MADV_HUGEPAGE);
            }
            for number in 0..count {
                first.add(number).write(AtomicU64::new(0));
            }
            Words { first, count, layout }
        }
    }
}

impl Deref for Words {
    type Target = [AtomicU64];

    #[inline(always)]
    fn deref(&self) -> &[AtomicU64] {
        unsafe { from_raw_parts(self.first, self.count) }
    }
}

impl Drop for Words {
    fn drop(&mut self) {
        unsafe { dealloc(self.first.cast(), self.layout) };
    }
}
