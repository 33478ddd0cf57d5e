//! Runs work that may panic, without a word on standard error. The text panics at three known places.

use std::cell::Cell;
use std::panic::{self, UnwindSafe};
use std::sync::Once;

thread_local! {
    /// Whether this thread's panics are to be silent.
    static SILENT: Cell<bool> = const { Cell::new(false) };
}

static HOOK: Once = Once::new();

/// What `f` returns, or `None` where it panics. Only panics of this thread inside `f` are silent; the hook that was
/// there before the first call goes on reporting all others.
pub fn quiet<T>(f: impl FnOnce() -> T + UnwindSafe) -> Option<T> {
    HOOK.call_once(|| {
        let report = panic::take_hook();
        panic::set_hook(Box::new(move |info| {
            if !SILENT.get() {
                report(info);
            }
        }));
    });

    let outer = SILENT.replace(true);
    let result = panic::catch_unwind(f);
    SILENT.set(outer);
    result.ok()
}
