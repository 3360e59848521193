//! How much stack a function needs: it runs on a stack of its own, painted before.

use std::arch::asm;
use std::hint::black_box;

const SIZE: usize = 256 * 1024;
const PAINT: u8 = 0xA5;

/// What the work hands out, and how many bytes of the stack it reached, from the
/// top down. The few that lead to the work and the arguments it passes count too.
pub fn used<T>(work: impl FnOnce() -> T) -> (T, usize) {
    let mut stack = vec![PAINT; SIZE];
    let bottom = stack.as_mut_ptr() as usize;
    let top = (bottom + SIZE) & !15;
    let (mut work, mut result) = (Some(work), None);
    run_at(top, &mut || result = work.take().map(|work| work()));
    let untouched = black_box(&stack).iter().take_while(|byte| **byte == PAINT);
    (result.unwrap(), top - bottom - untouched.count())
}

/// Runs the work with the stack pointer at `top`.
fn run_at<W: FnMut()>(top: usize, work: &mut W) {
    extern "C" fn enter<W: FnMut()>(work: &mut W) {
        work();
    }
    unsafe {
        asm!(
            "mov r12, rsp",
            "mov rsp, {top}",
            "call {enter}",
            "mov rsp, r12",
            top = in(reg) top,
            enter = sym enter::<W>,
            in("rdi") work,
            out("r12") _,
            clobber_abi("C"),
        );
    }
}
