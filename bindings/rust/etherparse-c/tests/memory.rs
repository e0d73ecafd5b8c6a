//! Tests the error if Rust's allocator fails for the buffer of a pool. The static library has another allocator
//! (`bindings/c/etherparse_heap.c`), whose allocations fail in `bindings/c/tests/statuses.c`.

use etherparse_c::{BoundedPool, DefragLimits, OutOfMemory, Pool};
use std::alloc::{GlobalAlloc, Layout, System};
use std::ptr;

/// The system's allocator, which fails for blocks of the size that the pool here allocates.
struct Refusing;

const REFUSED: usize = 54_321;

// SAFETY: each block is allocated and freed by the system's allocator.
unsafe impl GlobalAlloc for Refusing {
    unsafe fn alloc(&self, layout: Layout) -> *mut u8 {
        if layout.size() == REFUSED {
            return ptr::null_mut();
        }
        unsafe { System.alloc(layout) }
    }

    unsafe fn dealloc(&self, block: *mut u8, layout: Layout) {
        unsafe { System.dealloc(block, layout) };
    }
}

#[global_allocator]
static MEMORY: Refusing = Refusing;

#[test]
fn pools_are_refused_for_want_of_memory() {
    assert_eq!(Pool::with_limit(REFUSED as u16).err(), Some(OutOfMemory));
    assert!(Pool::with_limit(REFUSED as u16 + 1).is_ok());
    let bounded = |payload| BoundedPool::new(DefragLimits { payload, ..DefragLimits::default() }, [7; 16]);
    assert_eq!(bounded(REFUSED as u16).err(), Some(OutOfMemory));
    assert!(bounded(REFUSED as u16 + 1).is_ok());
    assert_eq!(OutOfMemory.to_string(), "out of memory");
}
