//! What std does else: memory by C's functions, and the end of a process that panics.
use core::alloc::{GlobalAlloc, Layout};
use core::ffi::c_void;
use core::panic::PanicInfo;

unsafe extern "C" {
    fn malloc(size: usize) -> *mut c_void;
    fn aligned_alloc(align: usize, size: usize) -> *mut c_void;
    fn realloc(at: *mut c_void, size: usize) -> *mut c_void;
    fn free(at: *mut c_void);
    safe fn abort() -> !;
}

/// What malloc's memory is aligned to on each target.
const ALIGNED: usize = 2 * size_of::<usize>();

struct Heap;

#[global_allocator]
static HEAP: Heap = Heap;

// SAFETY: C's memory lies apart from all other, and is as long and as aligned as is asked for.
unsafe impl GlobalAlloc for Heap {
    unsafe fn alloc(&self, layout: Layout) -> *mut u8 {
        let at = if layout.align() <= ALIGNED {
            unsafe { malloc(layout.size()) }
        } else {
            unsafe { aligned_alloc(layout.align(), layout.size().next_multiple_of(layout.align())) }
        };
        at.cast()
    }

    unsafe fn dealloc(&self, at: *mut u8, _: Layout) {
        unsafe { free(at.cast()) }
    }

    unsafe fn realloc(&self, at: *mut u8, layout: Layout, size: usize) -> *mut u8 {
        if layout.align() <= ALIGNED {
            return unsafe { realloc(at.cast(), size) }.cast();
        }
        // SAFETY: the caller's; the new memory is as long as both.
        unsafe {
            let other = self.alloc(Layout::from_size_align_unchecked(size, layout.align()));
            if !other.is_null() {
                at.copy_to_nonoverlapping(other, layout.size().min(size));
                self.dealloc(at, layout);
            }
            other
        }
    }
}

#[panic_handler]
fn panicked(_: &PanicInfo<'_>) -> ! {
    abort()
}
