//! What libFuzzer calls. A difference is printed and ends the process by a
//! signal, which libFuzzer answers by keeping the input.

use std::process::abort;
use std::sync::{Mutex, PoisonError};

use crate::comparison::compare;
use crate::library::PROVED;
use crate::tally::Tally;

static TALLY: Mutex<Tally> = Mutex::new(Tally::new());

extern "C" {
    fn atexit(callback: extern "C" fn()) -> i32;
}

/// libFuzzer ends the process itself when the time is over, so the count is
/// printed on the way out.
extern "C" fn print_tally() {
    let tally = TALLY.lock().unwrap_or_else(PoisonError::into_inner);
    eprint!("compared {} calls\n{}", tally.calls(), tally.report());
}

#[no_mangle]
pub extern "C" fn LLVMFuzzerInitialize(_count: *mut i32, _words: *mut *mut *mut u8) -> i32 {
    // SAFETY: C's own function, with a callback that lives as long as the
    // process.
    unsafe { atexit(print_tally) }
}

/// # Safety
///
/// The pointer is valid for the length, as libFuzzer promises.
#[no_mangle]
pub unsafe extern "C" fn LLVMFuzzerTestOneInput(data: *const u8, size: usize) -> i32 {
    let bytes = match size {
        0 => &[],
        // SAFETY: the caller's promise; it keeps the bytes as they are during
        // the call.
        _ => unsafe { std::slice::from_raw_parts(data, size) },
    };
    let outcome = {
        let mut tally = TALLY.lock().unwrap_or_else(PoisonError::into_inner);
        compare(&PROVED, bytes, &mut tally)
    };
    if let Err(difference) = outcome {
        eprintln!("{difference}");
        print_tally();
        abort();
    }
    0
}
