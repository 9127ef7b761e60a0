//! How deep a call goes into the stack: the stack below is painted, and what the call wrote over is measured.

use std::hint::black_box;

const STACK: usize = 4 << 20;
const PAINTED: usize = 2 << 20;
/// Left alone below the painter's own frame
const MARGIN: usize = 512;
const PAINT: u8 = 0xA5;

/// The bytes of stack that a call takes, on a thread of its own; `MARGIN` where it takes no more than that
pub fn peak(call: impl FnOnce() + Send) -> usize {
    std::thread::scope(|scope| {
        let thread = std::thread::Builder::new().stack_size(STACK);
        let measured = thread.spawn_scoped(scope, || painted(call));
        measured.expect("a thread").join().expect("no panic")
    })
}

#[inline(never)]
fn painted(call: impl FnOnce()) -> usize {
    let here = 0u8;
    let top = black_box(&here) as *const u8 as usize - MARGIN;
    // the thread's stack reaches further down than is painted, and nothing lives there
    for at in top - PAINTED..top {
        unsafe { (at as *mut u8).write_volatile(PAINT) };
    }
    call();
    let wrote = |at: &usize| unsafe { (*at as *const u8).read_volatile() } != PAINT;
    let deepest = (top - PAINTED..top).find(wrote);
    deepest.map_or(MARGIN, |at| top + MARGIN - at)
}
