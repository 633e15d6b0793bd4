//! Requests to callgrind, which counts instructions. Without it they are a few instructions that do nothing.
//!
//! Its option to count within a named function would need no request, but on aarch64 valgrind 3.19 missed the end.
use std::arch::asm;

const CALLGRIND: u64 = (b'C' as u64) << 24 | (b'T' as u64) << 16;
const DUMP: u64 = CALLGRIND;
const ZERO: u64 = CALLGRIND + 1;
const TOGGLE: u64 = CALLGRIND + 2;

#[inline(always)]
fn request(number: u64) {
    let words = [number, 0, 0, 0, 0, 0];
    // SAFETY: four turns of a register that make a whole number of rounds, and an instruction without effect; callgrind
    // knows the five as a request, reads the words and puts an answer into one register.
    unsafe {
        #[cfg(target_arch = "aarch64")]
        asm!(
            "ror x12, x12, #3",
            "ror x12, x12, #13",
            "ror x12, x12, #51",
            "ror x12, x12, #61",
            "orr x10, x10, x10",
            inout("x3") 0u64 => _,
            in("x4") words.as_ptr(),
        );
        #[cfg(target_arch = "x86_64")]
        asm!(
            "rol rdi, 3",
            "rol rdi, 13",
            "rol rdi, 61",
            "rol rdi, 51",
            "xchg rbx, rbx",
            inout("rdx") 0u64 => _,
            in("rax") words.as_ptr(),
        );
    }
}

/// Counts what the call does, and has the count written to callgrind's next file. Were it part of its callers, each would
/// have some instructions of its own between the requests.
#[inline(never)]
pub fn count(call: &mut dyn FnMut()) {
    request(ZERO);
    request(TOGGLE);
    call();
    request(TOGGLE);
    request(DUMP);
}
