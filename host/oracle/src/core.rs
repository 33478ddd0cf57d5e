//! What the text asks of `crate::core`, and how many length units a metre has while it works.

use std::cell::Cell;

/// No feature.
pub const NULL_INDEX: i32 = -1;

thread_local! {
    /// As the repository's global is before it is set. Each thread has its own, so that tests on several do not meet.
    static LENGTH_UNITS: Cell<f32> = const { Cell::new(1.0) };
}

/// One, or what [`with_length_units`] says.
#[inline]
pub fn get_length_units_per_meter() -> f32 {
    LENGTH_UNITS.get()
}

/// What `work` returns with so many length units per metre, on this thread and until it ends, by a panic too.
#[inline]
pub fn with_length_units<T>(per_meter: f32, work: impl FnOnce() -> T) -> T {
    struct Before(f32);

    impl Drop for Before {
        fn drop(&mut self) {
            LENGTH_UNITS.set(self.0);
        }
    }

    let _before = Before(LENGTH_UNITS.replace(per_meter));
    work()
}
