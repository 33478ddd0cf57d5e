//! How often each way through a call was met.

use cached::{Cached, Edges};
use cases::calls::{Answer, Call, Work};
use cases::{met, one_in};
use full::Full;
use oracle::transcribed::End;
use records::Unit;

mod cached;
mod full;

#[derive(Default)]
pub struct Met {
    /// Of a face of A, a face of B, a pair of edges.
    cached: [Cached; 3],
    edges: Edges,
    full: Full,
    /// By the number of the refusal.
    refused: [u64; 18],
    refused_by_cached: u64,
    kept_nan: u64,
    units: [OfUnit; 4],
}

/// Calls in one unit that did some work.
#[derive(Default)]
struct OfUnit {
    touching: u64,
    without_points: u64,
    hits: u64,
    /// A cached axis, or the better face of a search, just at the speculative distance.
    at_speculative: u64,
    /// A cached separation that differs by just the slop, or an edge pair above a face by it.
    at_slop: u64,
}

impl Met {
    /// One call and its answer.
    pub fn add(&mut self, call: &Call, wanted: &Answer) {
        if call.capacity < 4 {
            return;
        }
        let (cache, status) = (call.cache, wanted.outcome.status);
        self.refused[usize::from(status)] += 1;
        if ![0, 5, 6].contains(&status) {
            return;
        }
        let nan = f32::from_bits(cache.separation).is_nan();
        let kept = status == 0 && wanted.cache.separation == cache.separation;
        self.kept_nan += u64::from(nan && kept);
        self.add_searched(call, wanted);
    }

    /// A cached axis, and the full search where there is none or it does not serve again.
    fn add_searched(&mut self, call: &Call, wanted: &Answer) {
        let work = Work::of_call(call);
        let hit = wanted.outcome.status == 0 && wanted.cache.hit == 1;
        let place = Unit::ALL.iter().position(|&unit| unit == work.unit);
        let of_unit = &mut self.units[place.expect("one of the four")];
        of_unit.hits += u64::from(hit);
        match wanted.outcome.contact.count {
            0 => of_unit.without_points += 1,
            _ => of_unit.touching += 1,
        }
        if let Some(again) = work.again(call.cache) {
            let cached = &mut self.cached[usize::from(call.cache.kind) - 2];
            let [at_speculative, at_slop] = cached.add(call.cache, &again, hit, work.unit);
            of_unit.at_speculative += u64::from(at_speculative);
            of_unit.at_slop += u64::from(at_slop);
            self.edges.add(&again);
            if again.end == End::Full {
                self.refused_by_cached += 1;
                return;
            }
        }
        if !hit {
            let [at_speculative, at_slop] = self.full.add(&work, wanted);
            of_unit.at_speculative += u64::from(at_speculative);
            of_unit.at_slop += u64::from(at_slop);
        }
    }

    pub fn report(&self, count: usize) -> bool {
        let names = ["face of A", "face of B", "pair of edges"];
        let mut good = true;
        for (cached, name) in self.cached.iter().zip(names) {
            good &= cached.report(name, count);
        }
        good &= self.edges.report(count) & self.full.report(count);
        let of = |refusal: usize| self.refused[refusal];
        let (often, few) = (one_in(2, count), one_in(50, count));
        for (unit, of) in Unit::ALL.into_iter().zip(&self.units) {
            good &= met(&[
                (&format!("in {unit}: touching"), of.touching, often),
                ("without points", of.without_points, often),
                ("hits", of.hits, often),
                (
                    "exactly at the speculative distance",
                    of.at_speculative,
                    few,
                ),
                ("exactly at the slop", of.at_slop, few),
            ]);
        }
        good & met(&[
            ("refusal 4", of(4), often),
            ("refusal 5", of(5), few),
            ("refusal 6", of(6), few),
            ("by a cached face", self.refused_by_cached, few),
            ("a NaN kept in the cache", self.kept_nan, often),
        ])
    }
}
