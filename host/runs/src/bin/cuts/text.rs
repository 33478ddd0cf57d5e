//! What is held to the Rust text itself.

use cases::Numbers;

mod contacts;
mod cut;
mod faces;
mod picks;
mod polygons;

pub fn run(n: &mut Numbers, count: usize) -> bool {
    cut::run(n, count) & picks::run(n, count) & faces::run(n, count) & contacts::run(n, count)
}
