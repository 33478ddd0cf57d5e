//! What is held to the Rust text itself.

use cases::calls::Work;
use cases::pairs::Pair;
use cases::sorts::{acceptable, SORTS};
use cases::{convert, met, one_in, Numbers, Tally};
use oracle::open::{AxisQuery, SeparatingFeature};
use probes::{Placed, Unit};
use runs::accepted;
use runs::searches::{answer, same_answers};

#[derive(Default)]
struct Met {
    apart_a: u64,
    apart_b: u64,
    apart_edges: u64,
    with_pair: u64,
    without_pair: u64,
    padding: u64,
    a_wins: u64,
    b_wins: u64,
    tie: u64,
    edge_above: u64,
    units: [OfUnit; 4],
}

/// Pairs of one unit.
#[derive(Default)]
struct OfUnit {
    apart: u64,
    found: u64,
    /// The better face is just the speculative distance away, at which the search goes on.
    at_speculative: u64,
}

pub fn run(n: &mut Numbers, count: usize) -> bool {
    let mut good = true;
    let mut m = Met::default();
    for (name, make) in SORTS {
        let mut t = Tally::default();
        for _ in 0..count {
            let unit = n.unit();
            searched(&mut t, &mut m, &acceptable(make, unit, n));
        }
        good &= t.report(&format!("axis searches, {name}"));
    }
    let (often, least, few) = (one_in(5, count), one_in(20, count), one_in(100, count));
    for (unit, of) in Unit::ALL.into_iter().zip(&m.units) {
        good &= met(&[
            (&format!("in {unit}: apart"), of.apart, often),
            ("found", of.found, often),
            (
                "exactly at the speculative distance",
                of.at_speculative,
                few,
            ),
        ]);
    }
    good & met(&[
        ("apart along a face of A", m.apart_a, often),
        ("along a face of B", m.apart_b, often),
        ("along an edge pair", m.apart_edges, often),
        ("found with an edge pair", m.with_pair, often),
        ("without", m.without_pair, often),
        ("a padding lane won", m.padding, least),
        ("face A above face B", m.a_wins, often),
        ("face B above face A", m.b_wins, often),
        ("a tie of the two", m.tie, least),
        ("an edge pair above both", m.edge_above, often),
    ])
}

/// One pair of hulls.
fn searched(t: &mut Tally, m: &mut Met, pair: &Pair) {
    let query = Work::of_pair(pair).search();
    let theirs = answer(&query);
    let placed = Placed::new(pair.unit(), convert::our_transform(pair.transform));
    let ours = probes::compute_separating_axis(accepted(&pair.a), accepted(&pair.b), placed);
    t.compare(same_answers(&ours, &theirs), || {
        format!("{ours:?}, {theirs:?}: {pair:?}")
    });
    m.add(pair, &query);
}

impl Met {
    fn add(&mut self, pair: &Pair, query: &AxisQuery) {
        let place = Unit::ALL.iter().position(|&unit| unit == pair.unit());
        let of = &mut self.units[place.expect("one of the four")];
        if query.separated_feature == SeparatingFeature::InvalidAxis {
            let best = query.face_a.separation.max(query.face_b.separation);
            of.found += 1;
            of.at_speculative += u64::from(best == pair.unit().speculative_distance());
        } else {
            of.apart += 1;
        }
        match query.separated_feature {
            SeparatingFeature::FaceAxisA => self.apart_a += 1,
            SeparatingFeature::FaceAxisB => self.apart_b += 1,
            SeparatingFeature::EdgePairAxis => self.apart_edges += 1,
            _ => self.add_found(pair, query),
        }
    }

    fn add_found(&mut self, pair: &Pair, query: &AxisQuery) {
        let AxisQuery {
            face_a,
            face_b,
            edge,
            ..
        } = query;
        let (a, b) = (face_a.separation, face_b.separation);
        let padding = face_a.index_b as usize >= pair.b.size.vertices
            || face_b.index_a as usize >= pair.a.size.vertices;
        self.with_pair += u64::from(edge.index_a >= 0);
        self.without_pair += u64::from(edge.index_a < 0);
        self.padding += u64::from(padding);
        self.a_wins += u64::from(a > b);
        self.b_wins += u64::from(b > a);
        self.tie += u64::from(a == b);
        self.edge_above += u64::from(edge.separation > a.max(b));
    }
}
