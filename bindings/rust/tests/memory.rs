//! What calls allocate: the first values of an order, and bitmaps by code.
#![cfg(not(miri))]

use std::alloc::{GlobalAlloc, Layout, System};
use std::sync::atomic::{AtomicUsize, Ordering::Relaxed};
use std::time::{Duration, Instant};

use vortex_bits::{Bitmap, BitmapsByCode, Bits, TopK, values};

/// Counts the requests, and the bytes that are held at once.
struct Counting;

static REQUESTS: AtomicUsize = AtomicUsize::new(0);
static HELD: AtomicUsize = AtomicUsize::new(0);
static MOST: AtomicUsize = AtomicUsize::new(0);

// SAFETY: each call is that of the system's allocator.
unsafe impl GlobalAlloc for Counting {
    unsafe fn alloc(&self, layout: Layout) -> *mut u8 {
        REQUESTS.fetch_add(1, Relaxed);
        MOST.fetch_max(
            HELD.fetch_add(layout.size(), Relaxed) + layout.size(),
            Relaxed,
        );
        // SAFETY: the caller's.
        unsafe { System.alloc(layout) }
    }

    unsafe fn dealloc(&self, at: *mut u8, layout: Layout) {
        HELD.fetch_sub(layout.size(), Relaxed);
        // SAFETY: the caller's.
        unsafe { System.dealloc(at, layout) }
    }
}

#[global_allocator]
static ALLOCATOR: Counting = Counting;

/// Returns the result, the number of requests, and the most bytes held beyond those before.
fn counted<T>(call: impl FnOnce() -> T) -> (T, usize, usize) {
    let (requests, held) = (REQUESTS.load(Relaxed), HELD.load(Relaxed));
    MOST.store(held, Relaxed);
    let result = call();
    (
        result,
        REQUESTS.load(Relaxed) - requests,
        MOST.load(Relaxed) - held,
    )
}

/// The least time of three for the greater half of an ascending column.
fn time_of_half(rows: u32) -> Duration {
    let column: Vec<u32> = (0..rows).collect();
    let once = |_| {
        let start = Instant::now();
        let best = values::top_k(&column, column.len() / 2, None::<Bits>);
        assert_eq!(best[0], column.len() - 1);
        start.elapsed()
    };
    (0..3).map(once).min().unwrap()
}

/// One test, so that no other test allocates at the same time.
#[test]
fn calls_allocate_what_their_documents_say() {
    // Worst case: each row of an ascending column is among the first `k` so far.
    let column: Vec<u64> = (0..100_000).collect();
    let mut best = TopK::greatest(1000);
    let ((), _, most) = counted(|| best.append(&column, None::<Bits>));
    assert!(
        most <= 8 * 1000 * size_of::<(u64, usize)>(),
        "{most} bytes for 1,000 of 100,000"
    );
    let ((), requests, _) = counted(|| best.append(&column[..90_000], None::<Bits>));
    assert_eq!(requests, 0, "no value of this batch is among the first");
    let few: Vec<u64> = (0..1600).map(|row| 100_000 + row).collect();
    let ((), requests, _) = counted(|| few.chunks(16).for_each(|it| best.append(it, None::<Bits>)));
    assert_eq!(requests, 0, "few values are inserted where they belong");
    // Sixteen times the rows take about 20 times as long; if each row moved others, 256 times. On a
    // busy machine single runs say little, so one of ten has to show it.
    let is_fast = |_| time_of_half(80_000) < 100 * time_of_half(5_000);
    assert!(
        (0..10).any(is_fast),
        "16 times the rows take 100 times as long"
    );

    let codes: Vec<u32> = (0..80_000).map(|row| row % 50).collect();
    let mut all = BitmapsByCode::with_capacity(50, 0);
    let ((), requests, _) =
        counted(|| codes.chunks(10).for_each(|it| all.append(it, None::<Bits>)));
    assert!(
        requests <= 10,
        "{requests} requests where each takes twice the capacity"
    );
    let (refused, _, most) = counted(|| all.try_append(&[9999], None::<Bits>).is_err());
    assert_eq!((refused, most), (true, 0));
    let (bitmaps, _, most) = counted(|| all.into_bitmaps());
    assert!(
        most < 10_000,
        "{most} bytes where the bitmaps share those of all rows"
    );
    let (owned, _, most) = counted(|| {
        bitmaps
            .iter()
            .cloned()
            .map(Bitmap::into_owned)
            .collect::<Vec<_>>()
    });
    assert!(
        most < 2 * 50 * 10_000,
        "{most} bytes for 50 bitmaps of 10,000"
    );
    assert!(owned.iter().zip(&bitmaps).all(|(one, other)| one == other));
    let (_, _, most) = counted(|| values::bitmaps_by_code(&codes, 50, None::<Bits>));
    assert!(most < 50 * 10_240, "{most} bytes for 50 bitmaps of 10,000");
}
