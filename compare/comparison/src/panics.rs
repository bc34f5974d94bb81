// What the original answers, and whether it panics: where it does, the port has to refuse.
// The panic's own message is kept from the output, since here it is an answer and no fault.

use std::panic;

/// What the original answers; None if it panics. Not for tests that run beside others, whose messages it would
/// keep back too.
pub fn answer_of_original<T>(work: impl FnOnce() -> T) -> Option<T> {
    let printer = panic::take_hook();
    panic::set_hook(Box::new(|_| ()));
    let ended = panic::catch_unwind(panic::AssertUnwindSafe(work));
    panic::set_hook(printer);
    ended.ok()
}

pub fn original_panics(work: impl FnOnce()) -> bool {
    answer_of_original(work).is_none()
}
