//! The regions that the plugin counts: a no-operation before and one behind.

use std::arch::asm;
use std::hint::black_box;

/// Does the work in the region of that number.
///
/// The input passes a `black_box` before the region and the result one behind it, so that the work can be neither
/// foreseen nor dropped, and their own instructions are not counted. The markers may touch any memory as far as the
/// compiler knows, so that it moves no access of the work past them.
#[inline(never)]
pub fn counted<const REGION: u8, Input, Output>(
    input: Input,
    work: impl FnOnce(Input) -> Output,
) -> Output {
    let input = black_box(input);
    begin::<REGION>();
    let output = work(input);
    end::<REGION>();
    black_box(output)
}

/// `nopl disp32(%rax,%rax,1)`, with the displacement REGION, 'B', 'C', 'I'.
#[inline(always)]
fn begin<const REGION: u8>() {
    // SAFETY: a no-operation changes no register, flag or memory.
    unsafe {
        asm!(
            ".byte 0x0F, 0x1F, 0x84, 0x00, {region}, 0x42, 0x43, 0x49",
            region = const REGION,
            options(nostack, preserves_flags)
        );
    }
}

/// The same, with 'E' for 'B'.
#[inline(always)]
fn end<const REGION: u8>() {
    // SAFETY: a no-operation changes no register, flag or memory.
    unsafe {
        asm!(
            ".byte 0x0F, 0x1F, 0x84, 0x00, {region}, 0x45, 0x43, 0x49",
            region = const REGION,
            options(nostack, preserves_flags)
        );
    }
}
