//! Document 01's sheet in arrays, weighed with an allocator that counts. This also runs without the feature `alloc`.
use std::alloc::{GlobalAlloc, Layout, System};
use std::cell::Cell;
use ushnazar::{weigh_into, weigh_text, Buffers, Slices};

thread_local! {
    static COUNT: Cell<usize> = const { Cell::new(0) };
}

struct Counting;

// SAFETY: all is handed on to the system's allocator
unsafe impl GlobalAlloc for Counting {
    unsafe fn alloc(&self, layout: Layout) -> *mut u8 {
        COUNT.set(COUNT.get() + 1);
        unsafe { System.alloc(layout) }
    }

    unsafe fn dealloc(&self, place: *mut u8, layout: Layout) {
        COUNT.set(COUNT.get() + 1);
        unsafe { System.dealloc(place, layout) }
    }
}

#[global_allocator]
static ALLOCATOR: Counting = Counting;

/// Lists that a program would keep for its whole life.
static EXAMPLE: Slices<'static> = Slices {
    rows: 1,
    structurals: 1,
    entry_count: 2,
    feasibility: 0.0,
    checked: false,
    leaving_row: 0,
    leaving_up: false,
    starts: &[0, 2],
    columns: &[0, 1],
    entries: &[1.0, 1.0],
    right_sides: &[3.0],
    scales: &[1.0],
    integer: &[1],
    mins: &[0.0, 0.0],
    maxs: &[1.0, 0.0],
    low_tolerances: &[0.0, 0.0],
    high_tolerances: &[0.0, 0.0],
    basic: &[0, 1],
    places: &[0, 0],
    values: &[1.0, 2.0],
    widened: &[],
    rho_hi: &[1.0],
    rho_lo: &[0.0],
    second: &[0.0],
};

const TEXT: &[u8] = b"(sheet 1 1)
(feasibility 0)
(var i 0 3FF0000000000000 0 0 (nonbasic 3FF0000000000000))
(slack 0 0 0 0 (basic 0 4000000000000000))
(row 4008000000000000 3FF0000000000000 (0 3FF0000000000000) (1 3FF0000000000000))
(multipliers unchecked)
(rho 3FF0000000000000 0)
(leave 0 down)
";

#[test]
fn in_buffers() {
    let mut buffers = Buffers::new();
    let before = COUNT.get();
    let verdict = weigh_into(&EXAMPLE, buffers.lists());
    assert_eq!(COUNT.get(), before);
    assert!(verdict.unwrap().declined);
}

#[test]
fn as_text() {
    let before = COUNT.get();
    let verdict = weigh_text(TEXT).verdict();
    assert_eq!(COUNT.get(), before);
    assert!(verdict.unwrap().declined);
}
