//! How much stack a call takes: the free stack is painted, and looked at after the call.

const PAINT: u8 = 0xC5;
const PAINTED: usize = 32 * 1024;
/// What is left alone right below the painting function's own frame.
const GAP: usize = 128;

/// The bytes of stack below this function's frame that a call wrote to, to within the gap.
pub fn depth(call: impl FnOnce() + Send) -> usize {
    // A thread's stack is mapped whole, so that what is below the frame can be written to.
    std::thread::scope(|scope| {
        scope
            .spawn(|| painted(call))
            .join()
            .expect("the call returns")
    })
}

#[inline(never)]
fn painted(call: impl FnOnce()) -> usize {
    let here = 0u8;
    let top = (&raw const here).addr();
    paint(top);
    call();
    let low = (top - PAINTED..top - GAP).find(|at| byte(*at) != PAINT);
    top - low.unwrap_or(top - GAP)
}

#[inline(never)]
fn paint(top: usize) {
    for at in top - PAINTED..top - GAP {
        // SAFETY: free stack of this thread, below every frame in use.
        unsafe { std::ptr::with_exposed_provenance_mut::<u8>(at).write_volatile(PAINT) }
    }
}

#[inline(never)]
fn byte(at: usize) -> u8 {
    // SAFETY: as above; it was painted.
    unsafe { std::ptr::with_exposed_provenance::<u8>(at).read_volatile() }
}
