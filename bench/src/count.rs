//! The exact number of x86-64 instructions that a closure runs: the processor traps behind each one, and the traps are counted.
//! The number is the same on every machine, and under an emulator that has the trap flag. Code that allocates moves by a few hundredths, as the
//! allocator's state does.

use std::arch::asm;
use std::sync::atomic::{AtomicU64, Ordering};

static STEPS: AtomicU64 = AtomicU64::new(0);

const SIGTRAP: i32 = 5;

extern "C" {
    fn signal(number: i32, handler: extern "C" fn(i32)) -> usize;
}

extern "C" fn step(_: i32) {
    STEPS.fetch_add(1, Ordering::Relaxed);
}

extern "C" fn call<F: FnMut()>(closure: *mut u8) {
    // SAFETY: `stepped` hands on the closure that it was lent.
    unsafe { (*closure.cast::<F>())() }
}

#[inline(never)]
fn stepped<F: FnMut()>(closure: &mut F) -> u64 {
    let function: extern "C" fn(*mut u8) = call::<F>;
    STEPS.store(0, Ordering::Relaxed);
    // SAFETY: the trap flag is set in front of the call and cleared behind it. The stack is kept in r12, which calls preserve, and
    // the 128 bytes below it, which a leaf may use, are left alone.
    unsafe {
        asm!(
            "mov r12, rsp", "sub rsp, 128", "and rsp, -16",
            "pushfq", "or qword ptr [rsp], 0x100", "popfq",
            "call {function}",
            "pushfq", "and qword ptr [rsp], -257", "popfq",
            "mov rsp, r12",
            function = in(reg) function, out("r12") _, in("rdi") std::ptr::from_mut(closure).cast::<u8>(),
            clobber_abi("C"),
        );
    }
    STEPS.load(Ordering::Relaxed)
}

/// The instructions of the closure's call, without those of calling nothing.
pub fn instructions<F: FnMut()>(mut closure: F) -> u64 {
    // SAFETY: the handler only counts.
    unsafe { signal(SIGTRAP, step) };
    // once before, so that tables are there and pages are touched
    closure();
    let nothing = stepped(&mut || ());
    stepped(&mut closure) - nothing
}
