//! How a question ends without a type: the runtime's faults, and the Rust's unwrap of a missing
//! child.

use std::cell::RefCell;
use std::panic::{AssertUnwindSafe, catch_unwind};

use salsa::Fault;

/// Why a question ended without a type.
pub enum Stop {
    Fault(Fault),
    MissingChild,
}

thread_local! {
    /// While set, panics are silent and leave their place and message here.
    static PANIC: RefCell<Option<Option<String>>> = const { RefCell::new(None) };
}

/// Runs the function; a panic that is neither a fault nor the unwrap of a missing child goes on.
pub fn catch<T>(run: impl FnOnce() -> T) -> Result<T, Stop> {
    keep_panics_silent();
    PANIC.set(Some(None));
    let result = catch_unwind(AssertUnwindSafe(run));
    let message = PANIC.take().flatten().unwrap_or_default();
    result.map_err(|payload| {
        if let Some(fault) = payload.downcast_ref::<Fault>() {
            return Stop::Fault(*fault);
        }
        let missing_child = message.contains("type_resolution.rs")
            && message.contains("called `Option::unwrap()` on a `None` value");
        if !missing_child {
            panic!("the Rust panicked otherwise: {message}");
        }
        Stop::MissingChild
    })
}

/// Panics inside [`catch`] are kept; all others are reported as usual.
fn keep_panics_silent() {
    static HOOK: std::sync::Once = std::sync::Once::new();
    HOOK.call_once(|| {
        let usual = std::panic::take_hook();
        std::panic::set_hook(Box::new(move |info| {
            let caught = PANIC.with_borrow_mut(|panic| {
                if let Some(message) = panic {
                    *message = Some(info.to_string());
                }
                panic.is_some()
            });
            if !caught {
                usual(info);
            }
        }));
    });
}
