//! Requests to callgrind, as valgrind.h and callgrind.h put them. Outside valgrind they do nothing.

use std::arch::asm;
use std::ffi::CStr;

const BASE: u64 = 0x4354_0000;
const TOGGLE_COLLECT: u64 = BASE + 2;
const DUMP_STATS_AT: u64 = BASE + 3;

fn request(number: u64, argument: u64) {
    let words = [number, argument, 0, 0, 0, 0];
    // SAFETY: the rotations add up to two turns and the exchange is with itself, so nothing changes;
    // valgrind knows the sequence, reads the words and answers in rdx.
    unsafe {
        asm!(
            "rol rdi, 3",
            "rol rdi, 13",
            "rol rdi, 61",
            "rol rdi, 51",
            "xchg rbx, rbx",
            in("rax") words.as_ptr(),
            inout("rdx") 0u64 => _,
        );
    }
}

/// Counts what the job does, and dumps the count under a name.
pub fn counted(name: &CStr, job: impl FnOnce()) {
    request(TOGGLE_COLLECT, 0);
    job();
    request(TOGGLE_COLLECT, 0);
    request(DUMP_STATS_AT, name.as_ptr() as u64);
}
