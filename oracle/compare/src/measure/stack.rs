//! How deep into the stack a call reaches: the stack of a thread is painted, the call made, and what it
//! wrote over is read by another thread, so that reading writes over nothing.
use std::fs::File;
use std::hint::{black_box, spin_loop};
use std::io;
use std::os::unix::fs::FileExt;
use std::sync::atomic::{AtomicBool, AtomicUsize, Ordering};
use std::thread::{self, Builder};

/// The painted bytes, and those of the whole stack.
const PAINTED: usize = 256 * 1_024;
const STACK: usize = 4 * PAINTED;
const PAINT: u8 = 0xa5;

/// Between the thread that makes the call and the one that reads its stack.
#[derive(Default)]
struct Handed {
    /// Where the paint begins; 0 until the call is made.
    paint: AtomicUsize,
    read: AtomicBool,
}

/// The bytes from the frame that makes the call down to the lowest that the call writes to. The upper two
/// words, which the painting has for itself, are not counted.
pub fn depth(mut call: impl FnMut() + Send) -> Result<usize, String> {
    let handed = Handed::default();
    let wrong = |error: io::Error| format!("the stack: {error}");
    thread::scope(|scope| {
        let calling = Builder::new()
            .stack_size(STACK)
            .spawn_scoped(scope, || on_paint(&mut call, &handed))
            .map_err(wrong)?;
        while handed.paint.load(Ordering::Acquire) == 0 {
            assert!(!calling.is_finished(), "the call ends");
            thread::yield_now();
        }
        let depth = written(handed.paint.load(Ordering::Acquire));
        handed.read.store(true, Ordering::Release);
        depth.map_err(wrong)
    })
}

/// Makes the call on a painted stack, and keeps it from being written to until it is read.
#[inline(never)]
fn on_paint(call: &mut dyn FnMut(), handed: &Handed) {
    let paint = painted();
    call();
    handed.paint.store(paint, Ordering::Release);
    while !handed.read.load(Ordering::Acquire) {
        spin_loop();
    }
}

/// Paints the stack below the caller's frame. Where the paint begins.
#[inline(never)]
fn painted() -> usize {
    let mut room = [0; PAINTED];
    room.fill(PAINT);
    black_box(&room).as_ptr().addr()
}

/// How much of the paint is written over, from its upper end.
fn written(paint: usize) -> io::Result<usize> {
    let mut bytes = vec![0; PAINTED];
    File::open("/proc/self/mem")?.read_exact_at(&mut bytes, paint as u64)?;
    let untouched = bytes.iter().take_while(|byte| **byte == PAINT).count();
    Ok(PAINTED - untouched)
}
