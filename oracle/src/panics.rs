//! Panics of the published code as values.

use std::cell::Cell;
use std::panic::{self, AssertUnwindSafe};
use std::sync::Once;

thread_local! {
    /// Whether this thread's panics are expected and go unreported.
    static QUIET: Cell<bool> = const { Cell::new(false) };
}

/// Keeps expected panics off standard error; all others are reported as usual.
fn install_hook() {
    static ONCE: Once = Once::new();
    ONCE.call_once(|| {
        let usual = panic::take_hook();
        panic::set_hook(Box::new(move |info| {
            if !QUIET.get() {
                usual(info);
            }
        }));
    });
}

/// What `run` returns, or the message with which it panics. `run` only reads
/// what it borrows, so a panic leaves nothing half changed.
pub fn caught<T>(run: impl FnOnce() -> T) -> Result<T, String> {
    install_hook();
    QUIET.set(true);
    let result = panic::catch_unwind(AssertUnwindSafe(run));
    QUIET.set(false);
    result.map_err(|payload| {
        let text = payload.downcast_ref::<String>().map(String::as_str);
        text.or_else(|| payload.downcast_ref::<&str>().copied())
            .unwrap_or("panic without a message")
            .to_string()
    })
}
