//! Calls whose own buffers are refused memory by Rust's allocator. A program of its own, since it sets
//! the allocator of the whole process.

use protolink::{DescriptorPool, OutOfMemory};
use std::alloc::{GlobalAlloc, Layout, System};
use std::cell::Cell;
use std::ptr;

/// An allocator that refuses a thread blocks of a size and more.
struct Sparing;

thread_local! {
    static REFUSED_FROM: Cell<usize> = const { Cell::new(usize::MAX) };
}

// SAFETY: each call is that of the system's allocator, or answers null, which says that no memory is
// given.
unsafe impl GlobalAlloc for Sparing {
    unsafe fn alloc(&self, layout: Layout) -> *mut u8 {
        if layout.size() >= REFUSED_FROM.with(Cell::get) {
            return ptr::null_mut();
        }
        System.alloc(layout)
    }

    unsafe fn dealloc(&self, block: *mut u8, layout: Layout) {
        System.dealloc(block, layout)
    }
}

#[global_allocator]
static SPARING: Sparing = Sparing;

/// Requests as large as linked files are refused while `ask` runs.
fn sparing<T>(ask: impl FnOnce() -> T) -> T {
    REFUSED_FROM.with(|from| from.set(16));
    let answer = ask();
    REFUSED_FROM.with(|from| from.set(usize::MAX));
    answer
}

#[test]
fn a_refused_buffer_is_told() {
    let mut pool = DescriptorPool::new();
    pool.add_script(b"file of_a_long_name.proto\nmessage M\nend\nend\n")
        .unwrap();
    let file = pool.files().next().unwrap();
    assert_eq!(sparing(|| pool.try_encode_to_vec()), Err(OutOfMemory));
    assert_eq!(sparing(|| file.try_encode_to_vec()), Err(OutOfMemory));
    assert!(!pool.try_encode_to_vec().unwrap().is_empty());
    assert!(!file.try_encode_to_vec().unwrap().is_empty());
}
