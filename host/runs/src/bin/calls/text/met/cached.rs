//! The cached axis tried again.

use cases::{met, one_in};
use oracle::transcribed::{Again, End};
use records::{SatCache, Unit};

/// A cached axis of one type.
#[derive(Default)]
pub struct Cached {
    apart: u64,
    hit: u64,
    no_contact: u64,
    differs: u64,
    at_speculative: u64,
    at_slop: u64,
}

impl Cached {
    /// Whether it lies exactly at the speculative distance, and whether it differs by exactly the slop. Panics where the
    /// transcription and the text differ in whether it is a hit.
    pub fn add(&mut self, cache: SatCache, again: &Again, hit: bool, unit: Unit) -> [bool; 2] {
        let (mut near, mut at_slop) = (false, false);
        match again.end {
            End::Signs(_) | End::Parallel | End::Full => {}
            End::Apart => self.apart += 1,
            End::Missed => self.no_contact += 1,
            End::Touching(separation) => {
                let difference = (f32::from_bits(cache.separation) - separation).abs();
                near = difference < unit.slop();
                at_slop = difference == unit.slop();
                self.hit += u64::from(near);
                self.differs += u64::from(!near);
            }
        }
        let at_speculative = again.separation == Some(unit.speculative_distance());
        self.at_slop += u64::from(at_slop);
        self.at_speculative += u64::from(at_speculative);
        assert_eq!(hit, near || again.end == End::Apart, "{cache:?}: {again:?}");
        [at_speculative, at_slop]
    }

    pub fn report(&self, name: &str, count: usize) -> bool {
        let (often, few) = (one_in(2, count), one_in(50, count));
        let at_speculative = self.at_speculative;
        met(&[
            (&format!("cached {name} apart"), self.apart, often),
            ("a hit with points", self.hit, often),
            ("no contact, so a full search", self.no_contact, often),
            ("another separation, so a full search", self.differs, often),
            ("exactly at the speculative distance", at_speculative, few),
            ("a difference of exactly the slop", self.at_slop, few),
        ])
    }
}

/// The tests of a cached pair of edges.
#[derive(Default)]
pub struct Edges {
    signs: [u64; 3],
    zeros: [u64; 3],
    parallel: u64,
    at_tolerance: u64,
}

impl Edges {
    pub fn add(&mut self, again: &Again) {
        let Some(crossing) = again.crossing else {
            return;
        };
        match again.end {
            End::Signs(test) => {
                self.signs[test] += 1;
                self.zeros[test] += u64::from(crossing.signs[test] == 0.0);
            }
            End::Parallel => self.parallel += 1,
            _ => self.at_tolerance += u64::from(crossing.width == crossing.tolerance),
        }
    }

    pub fn report(&self, count: usize) -> bool {
        let (often, few) = (one_in(2, count), one_in(50, count));
        let ([first, second, third], [zero1, zero2, zero3]) = (self.signs, self.zeros);
        met(&[
            ("the first test of signs failed", first, often),
            ("by a zero", zero1, often),
            ("the second", second, often),
            ("the second by a zero", zero2, few),
            ("the third", third, often),
            ("the third by a zero", zero3, few),
            ("near parallel", self.parallel, few),
            ("passed exactly at the tolerance", self.at_tolerance, few),
        ])
    }
}
