//! What `libcontactlib.a` exports. A slice is a pointer and a length.

use crate::{check_library, OtherLibrary};
use records::{Apart, HullSize, Outcome, SatCache, Step, Transform};

/// Nothing of a library with other records is called: they would be misread in silence.
#[inline]
pub fn fits() {
    if let Err(other) = check_library() {
        stop(other);
    }
}

#[cold]
#[inline(never)]
fn stop(other: OtherLibrary) -> ! {
    // Without the library the crate can be checked and documented, and not built: a constant in the body of a function is
    // worked out when code is made of it, which `cargo check` does not do.
    #[cfg(without_library)]
    const {
        panic!("{}", env!("CONTACT_WITHOUT_LIBRARY"))
    };
    panic!("{other}")
}

extern "C" {
    pub fn contact_abi() -> u32;

    pub fn contact_answer(
        frame: *const u8,
        frame_len: usize,
        answer: *mut u8,
        answer_len: usize,
    ) -> usize;

    pub fn contact_first_broken_rule(
        numbers: *const f32,
        numbers_len: usize,
        links: *const u8,
        links_len: usize,
        size: HullSize,
    ) -> u8;

    pub fn contact_collide(
        capacity: i32,
        numbers_a: *const f32,
        numbers_a_len: usize,
        links_a: *const u8,
        links_a_len: usize,
        size_a: HullSize,
        numbers_b: *const f32,
        numbers_b_len: usize,
        links_b: *const u8,
        links_b_len: usize,
        size_b: HullSize,
        transform: Transform,
        cache: *mut SatCache,
    ) -> Outcome;

    pub fn contact_apart(
        numbers_a: *const f32,
        numbers_a_len: usize,
        links_a: *const u8,
        links_a_len: usize,
        size_a: HullSize,
        numbers_b: *const f32,
        numbers_b_len: usize,
        links_b: *const u8,
        links_b_len: usize,
        size_b: HullSize,
        transform: Transform,
    ) -> Apart;

    pub fn contact_step(
        numbers: *const f32,
        numbers_len: usize,
        links: *const u8,
        links_len: usize,
        hulls: *const u32,
        hulls_len: usize,
        pairs: *const u32,
        pairs_len: usize,
        transforms: *const f32,
        transforms_len: usize,
        judged: *mut u8,
        judged_len: usize,
        caches: *mut u32,
        caches_len: usize,
        floats: *mut f32,
        floats_len: usize,
        bytes: *mut u8,
        bytes_len: usize,
    ) -> Step;
}
