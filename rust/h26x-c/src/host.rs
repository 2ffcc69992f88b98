//! What a program without std owes: memory, from C's `malloc`, and an end where the code panics, which by the proofs
//! it never does.

use core::alloc::{GlobalAlloc, Layout};
use core::panic::PanicInfo;
use core::ptr::null_mut;

// A shared library has to name C's library: else nothing says which version of `memcpy` it wants, and glibc gives the
// oldest, which takes half again as long.
#[cfg_attr(unix, link(name = "c"))]
unsafe extern "C" {
    fn malloc(size: usize) -> *mut u8;
    fn realloc(block: *mut u8, size: usize) -> *mut u8;
    fn free(block: *mut u8);
    safe fn abort() -> !;
}

struct Malloc;

/// What `malloc` aligns a block to, where that divides its size.
const ALIGNED: usize = 16;

/// Whether `malloc` aligns a block of so many bytes so: nothing here asks for more.
fn is_aligned(size: usize, align: usize) -> bool {
    align <= ALIGNED && size % align == 0
}

// SAFETY: C's blocks are as large as was asked for, NULL where there is none, and by `is_aligned` aligned.
unsafe impl GlobalAlloc for Malloc {
    #[inline]
    unsafe fn alloc(&self, layout: Layout) -> *mut u8 {
        if !is_aligned(layout.size(), layout.align()) {
            return null_mut();
        }
        // SAFETY: of any size.
        unsafe { malloc(layout.size()) }
    }

    #[inline]
    unsafe fn dealloc(&self, block: *mut u8, _layout: Layout) {
        // SAFETY: it is a block of `alloc` or `realloc`.
        unsafe { free(block) }
    }

    #[inline]
    unsafe fn realloc(&self, block: *mut u8, layout: Layout, size: usize) -> *mut u8 {
        if !is_aligned(size, layout.align()) {
            return null_mut();
        }
        // SAFETY: it is such a block, and `size` isn't 0.
        unsafe { realloc(block, size) }
    }
}

#[global_allocator]
static MALLOC: Malloc = Malloc;

#[panic_handler]
fn panic(_: &PanicInfo) -> ! {
    abort()
}
