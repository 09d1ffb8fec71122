//! What a stream of frames makes room for. One test alone, since all allocations of the program are watched.

use befrolan::{FrameReader, Refusal, StreamError};
use std::alloc::{GlobalAlloc, Layout, System};
use std::sync::atomic::{AtomicUsize, Ordering};

/// The most bytes that were asked for at once.
static MOST: AtomicUsize = AtomicUsize::new(0);

struct Watched;

// SAFETY: everything is handed on to the system's allocator.
unsafe impl GlobalAlloc for Watched {
    unsafe fn alloc(&self, layout: Layout) -> *mut u8 {
        MOST.fetch_max(layout.size(), Ordering::Relaxed);
        System.alloc(layout)
    }

    unsafe fn dealloc(&self, at: *mut u8, layout: Layout) {
        System.dealloc(at, layout)
    }

    unsafe fn realloc(&self, at: *mut u8, layout: Layout, size: usize) -> *mut u8 {
        MOST.fetch_max(size, Ordering::Relaxed);
        System.realloc(at, layout, size)
    }
}

#[global_allocator]
static ALLOCATOR: Watched = Watched;

/// How many bytes at most were asked for at once by `f`.
fn asked(f: impl FnOnce()) -> usize {
    MOST.store(0, Ordering::Relaxed);
    f();
    MOST.load(Ordering::Relaxed)
}

#[test]
fn no_room_is_made_for_a_size_over_the_limit() {
    for size in [1_048_577_u32, 2_147_483_647, 2_147_483_648, 4_294_967_295] {
        let bytes = size.to_be_bytes();
        let most = asked(|| {
            let mut frames = FrameReader::new();
            assert_eq!(frames.push(&bytes).unwrap_err().number, Refusal::BAD_SIZE);
            let mut frames = FrameReader::new();
            let mut stream = &bytes[..];
            let Err(StreamError::Refused(e)) = frames.read_response(&mut stream, 0) else { panic!("a size of {size}") };
            assert_eq!(e.number, Refusal::BAD_SIZE);
        });
        assert!(most <= 8192, "{most} bytes for a size of {size}");
    }
    // the largest size has room made for it, and no more than a frame needs
    let mut stream = vec![0, 0x10, 0, 0];
    stream.resize(4 + 1_048_576, 0);
    let most = asked(|| {
        let mut frames = FrameReader::new();
        assert!(frames.read_response(&mut &stream[..], 0).unwrap().is_some());
    });
    assert!((1_048_576..=2 * 1_048_576).contains(&most), "{most} bytes for the largest size");
}
