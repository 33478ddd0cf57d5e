//! What is held to the Rust text itself.

use crate::retired::Retired;
use cases::calls::more::{tiny_parts, BANDS, MORE};
use cases::calls::placed::Placed;
use cases::calls::series::Series;
use cases::calls::{same_answers, Answer, Call};
use cases::sorts::{acceptable, SORTS};
use cases::{one_in, Numbers, Tally};
use met::Met;
use records::SatCache;
use runs::ours;

mod met;

pub fn run(n: &mut Numbers, count: usize, retired: &mut Retired) -> bool {
    let mut good = true;
    let mut all = All {
        met: Met::default(),
        placed: Placed::default(),
        retired,
    };
    for (name, make) in SORTS.into_iter().chain(MORE).chain([BANDS]) {
        let mut t = Tally::default();
        for _ in 0..count {
            let unit = n.unit();
            let pair = acceptable(make, unit, n);
            Series::new(pair, &mut |call| all.held(&mut t, call)).twelve(n);
        }
        good &= t.report(&format!("calls, {name}"));
    }
    let mut t = Tally::default();
    let pairs = count.div_ceil(100);
    for place in 0..pairs {
        let (_, make) = SORTS[n.below(SORTS.len())];
        let unit = n.unit();
        let pair = acceptable(make, unit, n);
        let mut ask = |call: &Call| all.held(&mut t, call);
        let mut series = Series::new(pair, &mut ask);
        series.every_type_and_index(n);
        // The types are dealt out to the pairs; the retired ones go to all.
        let dealt = |kind: &u8| usize::from(*kind) % pairs == place;
        let own = |kind: &u8| dealt(kind) || SatCache::RETIRED_TYPES.contains(kind);
        series.with_every_index((0..=255).filter(own), n);
    }
    good &= t.report("calls, every type and every index, capacities on both sides of 4");
    let mut t = Tally::default();
    for _ in 0..count.div_ceil(10) {
        let pair = tiny_parts(n.unit(), n);
        Series::new(pair, &mut |call| all.held(&mut t, call)).every_pair_of_edges(n);
    }
    good &= t.report("calls, every pair of edges, normals with tiny parts");
    good & all.met.report(count) & all.placed.report(one_in(2, count))
}

/// All that was met.
struct All<'a> {
    met: Met,
    placed: Placed,
    retired: &'a mut Retired,
}

impl All<'_> {
    /// One call; the answer that document 01 wants.
    fn held(&mut self, tally: &mut Tally, call: &Call) -> Answer {
        let (ours, wanted) = (ours(call), call.wanted());
        tally.compare(same_answers(&ours, &wanted), || {
            format!("ours {ours:?}, wanted {wanted:?}: {call:?}")
        });
        self.met.add(call, &wanted);
        self.placed.add(call, &wanted);
        self.retired.add(call, &wanted);
        wanted
    }
}
