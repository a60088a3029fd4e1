//! How deep a call goes into the stack: the stack below is painted, and looked at after the call.

use std::arch::asm;
use std::thread;

const DEEP: usize = 1 << 20;
const PAINT: u64 = 0x5a5a_a5a5_5a5a_a5a5;

#[inline(never)]
fn touched(call: &mut dyn FnMut()) -> usize {
    let sp: usize;
    unsafe { asm!("mov {}, rsp", out(reg) sp) };
    // what stands just below the stack pointer is left alone
    let top = (sp - 256) & !7;
    let low = top - DEEP;
    for at in (low..top).step_by(8) {
        unsafe { std::ptr::write_volatile(at as *mut u64, PAINT) };
    }
    call();
    let first = (low..top)
        .step_by(8)
        .find(|&at| unsafe { std::ptr::read_volatile(at as *const u64) } != PAINT)
        .unwrap_or(top);
    sp - first
}

/// The bytes of stack that a call takes, the driver's own frame for it included.
pub fn depth(call: impl FnMut() + Send) -> usize {
    thread::scope(|s| {
        let mut call = call;
        let made = thread::Builder::new().stack_size(4 * DEEP);
        let run = made.spawn_scoped(s, move || touched(&mut call)).unwrap();
        run.join().unwrap()
    })
}
