//! Panics caught in silence, with the line they come from.
use std::cell::Cell;
use std::panic::{catch_unwind, set_hook, take_hook, AssertUnwindSafe};
use std::sync::Once;

thread_local! {
    /// Whether panics are caught in silence now.
    static QUIET: Cell<bool> = const { Cell::new(false) };
    /// The line of the last such panic.
    static LINE: Cell<u32> = const { Cell::new(0) };
}

/// Whether the hook stands.
static HOOK: Once = Once::new();

/// Puts a hook before the present one that notes the line of a panic inside `quietly` and says
/// nothing; all other panics go to the present hook.
fn hook() {
    let present = take_hook();
    set_hook(Box::new(move |panic| {
        if QUIET.get() {
            LINE.set(panic.location().map_or(0, |place| place.line()));
        } else {
            present(panic);
        }
    }));
}

/// What a step gives, or the line on which it panicked.
pub fn quietly<T>(step: impl FnOnce() -> T) -> Result<T, u32> {
    HOOK.call_once(hook);
    let before = QUIET.replace(true);
    let result = catch_unwind(AssertUnwindSafe(step));
    QUIET.set(before);
    result.map_err(|_| LINE.get())
}
