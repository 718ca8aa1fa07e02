//! The entry points of libFuzzer. An input is changed by libFuzzer (2 of 10), by the damages of `typetool
//! gen at` (1 of 10), or so that it mostly stays right (the others).

use std::cell::RefCell;
use std::ffi::{c_int, c_uint};
use std::slice;
use std::sync::Mutex;

use typetool::generate::{Random, damage};

use crate::{Counts, Target, gentle};

thread_local! {
    static TARGET: RefCell<Target> = RefCell::default();
}

/// The counts after the last input: a thread's own values are gone when the process ends.
static COUNTS: Mutex<Option<Counts>> = Mutex::new(None);

unsafe extern "C" {
    fn LLVMFuzzerMutate(data: *mut u8, size: usize, max_size: usize) -> usize;
    fn atexit(run: extern "C" fn()) -> c_int;
}

extern "C" fn say_counts() {
    if let Ok(Some(counts)) = COUNTS.lock().as_deref() {
        eprintln!("{counts}");
    }
}

/// Once, at the start.
#[unsafe(no_mangle)]
pub extern "C" fn LLVMFuzzerInitialize(_: *mut c_int, _: *mut *mut *mut u8) -> c_int {
    // SAFETY: a function without arguments.
    unsafe { atexit(say_counts) }
}

/// # Safety
/// libFuzzer gives bytes and their number.
#[unsafe(no_mangle)]
pub unsafe extern "C" fn LLVMFuzzerTestOneInput(data: *const u8, size: usize) -> c_int {
    let file = match size {
        0 => &[],
        // SAFETY: as libFuzzer promises.
        _ => unsafe { slice::from_raw_parts(data, size) },
    };
    let counts = TARGET.with_borrow_mut(|target| {
        target.one_input(file);
        target.counts
    });
    if let Ok(mut last) = COUNTS.lock() {
        *last = Some(counts);
    }
    0
}

/// # Safety
/// libFuzzer gives `size` bytes in a buffer of `max_size`.
#[unsafe(no_mangle)]
pub unsafe extern "C" fn LLVMFuzzerCustomMutator(
    data: *mut u8,
    size: usize,
    max_size: usize,
    seed: c_uint,
) -> usize {
    let mut random = Random::new(u64::from(seed));
    let way = random.below(10);
    if size == 0 || way < 2 {
        // SAFETY: as libFuzzer promises.
        return unsafe { LLVMFuzzerMutate(data, size, max_size) };
    }
    // SAFETY: as libFuzzer promises.
    let buffer = unsafe { slice::from_raw_parts_mut(data, max_size) };
    let file = buffer[..size].to_vec();
    let mut changed = match way {
        2 => damage::damage_at(&mut random, file),
        _ => gentle::change(&mut random, file),
    };
    changed.truncate(max_size);
    buffer[..changed.len()].copy_from_slice(&changed);
    changed.len()
}
