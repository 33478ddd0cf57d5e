//! The full search.

use cases::calls::{Answer, Work};
use cases::{met, one_in};
use oracle::open::{AxisQuery, SeparatingFeature};

#[derive(Default)]
pub struct Full {
    apart_a: u64,
    apart_b: u64,
    apart_edges: u64,
    padding: u64,
    cut_full: u64,
    a_wins: u64,
    b_wins: u64,
    tie: u64,
    at_speculative: u64,
    without_pair: u64,
    not_tried: u64,
    at_slop: u64,
    in_vain: u64,
    replaced: u64,
    edge_alone: u64,
    nothing: u64,
    nothing_in_vain: u64,
}

impl Full {
    /// Whether the better face lies exactly at the speculative distance, and whether a pair of edges is above it by exactly the
    /// slop.
    pub fn add(&mut self, work: &Work, wanted: &Answer) -> [bool; 2] {
        let query = work.search();
        let before = [self.at_speculative, self.at_slop];
        match (wanted.outcome.status, query.separated_feature) {
            (5, _) => self.padding += 1,
            (6, _) => self.cut_full += 1,
            (_, SeparatingFeature::FaceAxisA) => self.apart_a += 1,
            (_, SeparatingFeature::FaceAxisB) => self.apart_b += 1,
            (_, SeparatingFeature::EdgePairAxis) => self.apart_edges += 1,
            _ => self.add_found(work, &query, wanted),
        }
        let [at_speculative, at_slop] = before;
        [self.at_speculative > at_speculative, self.at_slop > at_slop]
    }

    fn add_found(&mut self, work: &Work, query: &AxisQuery, wanted: &Answer) {
        let (a, b) = (query.face_a.separation, query.face_b.separation);
        let (slop, speculative) = (work.unit.slop(), work.unit.speculative_distance());
        self.a_wins += u64::from(a > b);
        self.b_wins += u64::from(a < b);
        self.tie += u64::from(a == b);
        self.at_speculative += u64::from(a.max(b) == speculative);

        let pair = query.edge.index_a >= 0;
        let cache = wanted.cache;
        match (wanted.outcome.contact.count, cache.kind) {
            (0, _) if pair => self.nothing_in_vain += 1,
            (0, _) => self.nothing += 1,
            (_, 4) => {
                let alone = work.face_separation(query).is_none();
                self.edge_alone += u64::from(alone);
                self.replaced += u64::from(!alone);
            }
            _ if pair => {
                let least = f32::from_bits(cache.separation) + slop;
                let tried = query.edge.separation > least;
                self.in_vain += u64::from(tried);
                self.not_tried += u64::from(!tried);
                self.at_slop += u64::from(query.edge.separation == least);
            }
            _ => self.without_pair += 1,
        }
    }

    pub fn report(&self, count: usize) -> bool {
        let (often, few) = (one_in(2, count), one_in(50, count));
        let at_speculative = self.at_speculative;
        met(&[
            ("full search apart along a face of A", self.apart_a, often),
            ("along a face of B", self.apart_b, often),
            ("along a pair of edges", self.apart_edges, often),
            ("a padding lane won", self.padding, few),
            ("a 65th vertex", self.cut_full, few),
            ("face A wins", self.a_wins, often),
            ("face B wins", self.b_wins, often),
            ("a tie, so face B", self.tie, often),
            ("exactly at the speculative distance", at_speculative, few),
        ]) & met(&[
            ("face contact, no pair of edges", self.without_pair, often),
            ("the pair not tried", self.not_tried, often),
            ("above it by exactly the slop", self.at_slop, few),
            ("tried in vain", self.in_vain, often),
            ("an edge contact in its place", self.replaced, often),
            (
                "an edge contact where it has no points",
                self.edge_alone,
                often,
            ),
            ("no points and no pair", self.nothing, few),
            (
                "no points, a pair tried in vain",
                self.nothing_in_vain,
                often,
            ),
        ])
    }
}
