//! How much stack a call uses: it is run on a stack of its own that was painted before, and the
//! deepest byte that lost its paint is looked for.

use crate::library::fence::{Fence, Side};
use std::arch::asm;
use std::ffi::c_void;

const ROOM: usize = 1 << 20;
const PAINT: u8 = 0xD7;

extern "C" fn enter(call: *mut c_void) {
    // SAFETY: `used` hands over exactly this.
    let call = unsafe { &mut *call.cast::<&mut dyn FnMut()>() };
    call();
}

/// Bytes of stack that the call used, its own frame and what it calls.
fn used(call: &mut dyn FnMut()) -> usize {
    let mut fence = Fence::new(ROOM);
    let base = fence.lay(&[PAINT; ROOM], Side::Back);
    let mut call = call;
    let top = base.wrapping_add(ROOM - 64);
    // SAFETY: the stack pointer is moved to painted memory that is ours for as long as `enter` runs,
    // aligned as the ABI asks, and moved back; all that a call may clobber is said to be.
    unsafe {
        asm!(
            "mov r12, rsp",
            "mov rsp, r13",
            "call r14",
            "mov rsp, r12",
            in("r13") top,
            in("r14") enter as *const (),
            in("rdi") std::ptr::from_mut(&mut call).cast::<c_void>(),
            out("r12") _,
            clobber_abi("C"),
        );
    }
    let untouched = fence.bytes().iter().take_while(|&&byte| byte == PAINT).count();
    ROOM - 64 - untouched
}

/// Peak stack of the call in bytes, beyond that of a call that does nothing.
pub fn peak(mut call: impl FnMut()) -> usize {
    let nothing = used(&mut || {
        std::hint::black_box(0);
    });
    used(&mut call).saturating_sub(nothing)
}

#[cfg(test)]
mod tests {
    use super::*;
    use std::hint::black_box;

    #[inline(never)]
    fn deep(levels: usize) -> u8 {
        let mut frame = [0u8; 1000];
        black_box(&mut frame);
        if levels == 0 {
            frame[0]
        } else {
            deep(levels - 1).wrapping_add(frame[levels % 1000])
        }
    }

    #[test]
    fn a_deeper_call_uses_more() {
        let ten = peak(|| {
            black_box(deep(10));
        });
        let twenty = peak(|| {
            black_box(deep(20));
        });
        assert!((10_000..20_000).contains(&ten), "{ten}");
        assert!((9_000..14_000).contains(&(twenty - ten)), "{ten} {twenty}");
    }
}
