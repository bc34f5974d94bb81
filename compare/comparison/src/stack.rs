// Runs work on a thread with a large stack: an entry point of the port may hold arrays of document 01's full
// limits in its frame, and a test's own thread has two megabytes.

use std::panic::resume_unwind;
use std::thread;

const BYTES: usize = 256 << 20;

/// Does the work and gives what it gives, or panics as it panics.
pub fn with_room<T: Send>(work: impl FnOnce() -> T + Send) -> T {
    thread::scope(|scope| {
        let thread = thread::Builder::new().stack_size(BYTES);
        let running = thread.spawn_scoped(scope, work).expect("a thread");
        running.join().unwrap_or_else(|panic| resume_unwind(panic))
    })
}
