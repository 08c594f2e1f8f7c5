//! Calls that may panic, or never end.

use std::panic::{AssertUnwindSafe, catch_unwind};
use std::sync::mpsc;
use std::thread;
use std::time::Duration;

/// Why a call didn't return, as it is printed.
pub const PANICS: &str = "panics";
pub const NO_END: &str = "no end";

/// What a call returns, or that it panics.
pub fn guarded<T>(call: impl FnOnce() -> T) -> Result<T, &'static str> {
    catch_unwind(AssertUnwindSafe(call)).map_err(|_| PANICS)
}

/// What a call returns within this time, in a separate thread; that it panics; or that it doesn't end. The thread of a
/// call that doesn't end runs until the process ends.
pub fn within<T: Send + 'static>(
    limit: Duration,
    call: impl FnOnce() -> T + Send + 'static,
) -> Result<T, &'static str> {
    let (sender, receiver) = mpsc::channel();
    thread::spawn(move || sender.send(guarded(call)));
    receiver.recv_timeout(limit).unwrap_or(Err(NO_END))
}
