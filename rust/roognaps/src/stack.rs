//! Stack enough for the deepest question.

use std::cell::Cell;
use std::io;
use std::panic::resume_unwind;
use std::thread;

/// The stack of a thread of [`on_large_stack`]. The system only gives the part that is used. The most
/// that a question was found to take is 4.7 MB, with 256 demands open, each inside the one before; no
/// bound is proved (`docs/BENCHMARKS.md`), and this is about three times as much.
pub const STACK_BYTES: usize = 16 << 20;

thread_local! {
    static IS_LARGE: Cell<bool> = const { Cell::new(false) };
}

/// Runs something on a thread that has [`STACK_BYTES`] of stack, and waits for it.
///
/// A [`Resolver`](crate::Resolver) does this by itself for each call that answers, since a thread of
/// Rust has 2 MB where the deepest questions take more, and too little stack ends the process. Who
/// makes many calls puts them into one `on_large_stack`: inside it a call stays on the thread that it
/// is on, and only the first one pays for a thread (some 35 microseconds).
///
/// The error is the system's, where it gives no thread. A panic inside goes on outside.
///
/// ```
/// use roognaps::{Resolver, on_large_stack};
///
/// let file = b"index\t1\nQ\tdef\t0\t0\nQ\tdef\t0\t1\n";
/// let types = on_large_stack(|| {
///     let mut resolver = Resolver::new();
///     let types = (0..2).map(|question| resolver.answer(file, question));
///     types.collect::<Result<Vec<_>, _>>()
/// })??;
/// assert_eq!(types[1].to_string(), "def\t0\t1\ttype\terror");
/// # Ok::<(), Box<dyn std::error::Error>>(())
/// ```
pub fn on_large_stack<T: Send>(run: impl FnOnce() -> T + Send) -> io::Result<T> {
    if IS_LARGE.get() {
        return Ok(run());
    }
    thread::scope(|scope| {
        let thread = thread::Builder::new().stack_size(STACK_BYTES);
        let thread = thread.spawn_scoped(scope, || {
            IS_LARGE.set(true);
            run()
        })?;
        match thread.join() {
            Ok(result) => Ok(result),
            Err(payload) => resume_unwind(payload),
        }
    })
}

#[cfg(test)]
mod tests {
    use super::*;

    #[test]
    fn a_second_one_stays_on_the_thread() {
        let here = thread::current().id();
        let (first, second) = on_large_stack(|| {
            let first = thread::current().id();
            let second = on_large_stack(|| thread::current().id());
            (first, second.expect("no new thread"))
        })
        .expect("a thread");
        assert_ne!(first, here);
        assert_eq!(first, second);
    }

    #[test]
    fn a_panic_goes_on_outside() {
        let caught = std::panic::catch_unwind(|| on_large_stack(|| resume_unwind(Box::new("x"))));
        let payload: Box<dyn std::any::Any + Send> = match caught {
            Ok(result) => {
                let _: io::Result<()> = result;
                panic!("it ended well")
            }
            Err(payload) => payload,
        };
        assert_eq!(payload.downcast_ref(), Some(&"x"));
    }
}
