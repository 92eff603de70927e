//! How much of the stack a call uses: the stack below is painted before the call, and looked at afterwards.

const BYTES: usize = 4 << 20;
/// The bytes next below are left to the functions that paint and look.
const NEAR: usize = 1 << 9;
const PAINT: u8 = 0xA5;

/// The bytes of the stack between where the call was made and the lowest one that it wrote to.
pub fn used_by(call: impl FnOnce() + Send) -> usize {
    std::thread::scope(|scope| {
        let thread = std::thread::Builder::new().stack_size(2 * BYTES);
        let measuring = thread.spawn_scoped(scope, || {
            let mark = 0;
            let mark: *const u8 = std::hint::black_box(&mark);
            paint(mark);
            call();
            disturbed(mark)
        });
        measuring.expect("a thread starts").join().expect("it ends")
    })
}

// Both go only where this thread's own stack lies, which is twice as long.

#[inline(never)]
fn paint(mark: *const u8) {
    for i in NEAR..BYTES {
        unsafe { mark.cast_mut().wrapping_sub(i).write_volatile(PAINT) };
    }
}

#[inline(never)]
fn disturbed(mark: *const u8) -> usize {
    let painted = |i: &usize| unsafe { mark.wrapping_sub(*i).read_volatile() } == PAINT;
    let untouched = (NEAR..BYTES).rev().take_while(painted).count();
    BYTES - untouched
}
