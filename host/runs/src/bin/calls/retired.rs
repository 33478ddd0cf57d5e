//! How often a cache of each retired type was met in each way: accepted with the mark, and without it where the call was
//! refused or had a capacity below 4.

use cases::calls::{Answer, Call};
use cases::{met, one_in};
use records::SatCache;

/// By the type.
#[derive(Default)]
pub struct Retired([Ways; 3]);

#[derive(Default)]
struct Ways {
    touching: u64,
    apart: u64,
    /// No points, though no axis keeps the two apart.
    nothing: u64,
    /// By the number.
    refused: [u64; 18],
    small_capacity: u64,
}

impl Retired {
    /// One call and its answer.
    pub fn add(&mut self, call: &Call, wanted: &Answer) {
        for (kind, ways) in SatCache::RETIRED_TYPES.into_iter().zip(&mut self.0) {
            if kind == call.cache.kind {
                ways.add(wanted);
            }
        }
    }

    pub fn report(&self, count: usize) -> bool {
        let mut good = true;
        for (kind, ways) in SatCache::RETIRED_TYPES.into_iter().zip(&self.0) {
            good &= ways.report(kind, count);
        }
        good
    }
}

impl Ways {
    fn add(&mut self, wanted: &Answer) {
        let outcome = &wanted.outcome;
        let count = match (outcome.status, outcome.retired_type_read()) {
            (0, false) => &mut self.small_capacity,
            (0, true) if outcome.contact.count > 0 => &mut self.touching,
            (0, true) if wanted.cache.kind > 0 => &mut self.apart,
            (0, true) => &mut self.nothing,
            (refusal, _) => &mut self.refused[usize::from(refusal)],
        };
        *count += 1;
    }

    fn report(&self, kind: u8, count: usize) -> bool {
        let text = u64::from(cfg!(rust_text));
        let [often, few, very_few] = [2, 50, 200].map(|of| one_in(of, count));
        let of = |refusal: usize| self.refused[refusal];
        let touching = format!("type {kind} is retired; marked: touching");
        met(&[
            (&touching, self.touching, text * often),
            ("apart", self.apart, text * often),
            ("neither", self.nothing, text * few),
            ("not marked: capacity below 4", self.small_capacity, often),
            ("refused by 1", of(1), often),
            ("2", of(2), often),
            ("17", of(17), often),
            ("3", of(3), often),
            ("5", of(5), text * very_few),
            ("6", of(6), text * few),
        ])
    }
}
