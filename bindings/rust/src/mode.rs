//! The floating-point mode of a call: MXCSR as the proofs assume it, and the caller's put back.
use core::arch::asm;

/// Exceptions masked, to nearest, nothing flushed, no flag raised.
const ORDER: u32 = 0x1f80;

/// The register as it is.
pub(crate) fn read() -> u32 {
    let mut mxcsr = 0u32;
    // SAFETY: the instruction writes the four bytes of a local variable that it is given the address of, and changes nothing else.
    unsafe { asm!("stmxcsr [{}]", in(reg) &raw mut mxcsr, options(nostack, preserves_flags)) };
    mxcsr
}

/// Sets the register.
///
/// # Safety
///
/// No reserved bit of the value is set. Rust's own arithmetic assumes `ORDER` but for the flags: where the value is another, none is done
/// until the register is set back, or the thread had that value when it came here.
pub(crate) unsafe fn load(mxcsr: u32) {
    // SAFETY: the instruction reads the four bytes of a variable that it is given the address of; the value is as the caller vouches.
    unsafe { asm!("ldmxcsr [{}]", in(reg) &raw const mxcsr, options(nostack, readonly)) };
}

/// Makes a call of the library in the mode that the proofs assume. Afterwards the register is as it was, its flags included.
pub(crate) fn ordered<T>(call: impl FnOnce() -> T) -> T {
    let before = read();
    // SAFETY: this is the mode that Rust assumes.
    unsafe { load(ORDER) };
    let answer = call();
    // SAFETY: this is the value that the thread had when it came here.
    unsafe { load(before) };
    answer
}
