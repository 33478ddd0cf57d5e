//! How often each unit was met, and in which way.

use super::LEAST_OF_UNITS;
use crate::codec::{COUNT, HIT, NEXT_CACHE, STATUS, TYPE};
use cases::calls::Given;
use cases::met;
use records::Unit;

#[derive(Default)]
pub struct Units {
    /// By the unit.
    of: [Ways; 4],
    /// Refused hulls whose unit is none, of A and of B.
    unknown: [u64; 2],
    /// A capacity below 4 with unlike or unknown units, which is accepted.
    not_looked_at: u64,
}

/// Calls whose hulls both have the unit.
#[derive(Default)]
struct Ways {
    touching: u64,
    on_edges: u64,
    apart: u64,
    /// A cached axis that serves again.
    hits: u64,
    /// Refused by 1 or 2 for H8, and by 3.
    numbers: u64,
    positions: u64,
}

impl Units {
    pub fn add(&mut self, given: &Given, answer: &[u8]) {
        let (a, b) = (given.a.size.known_unit(), given.b.size.known_unit());
        let status = answer[STATUS];
        if given.capacity < 4 {
            self.not_looked_at += u64::from(a.is_err() || a != b);
            return;
        }
        self.unknown[0] += u64::from(a.is_err());
        self.unknown[1] += u64::from(a.is_ok() && status == 2 && b.is_err());
        let place = |unit| Unit::ALL.iter().position(|&own| own == unit);
        let (true, Some(place)) = (a == b, a.ok().and_then(place)) else {
            return;
        };
        let ways = &mut self.of[place];
        match status {
            0 => {
                let touching = answer[COUNT] > 0;
                let next_type = answer[NEXT_CACHE + TYPE];
                ways.touching += u64::from(touching);
                ways.on_edges += u64::from(touching && next_type == 4);
                ways.apart += u64::from(!touching && next_type != 0);
                ways.hits += u64::from(answer[NEXT_CACHE + HIT] == 1);
            }
            1 => ways.numbers += u64::from(given.a.broken_rule() == 8),
            2 => ways.numbers += u64::from(given.b.broken_rule() == 8),
            3 => ways.positions += 1,
            _ => {}
        }
    }

    pub fn report(&self, text: u64) -> bool {
        let least = LEAST_OF_UNITS;
        println!("units");
        let mut good = true;
        for (unit, ways) in Unit::ALL.into_iter().zip(&self.of) {
            good &= met(&[
                (&format!("in {unit}: touching"), ways.touching, text * least),
                ("on a pair of edges", ways.on_edges, text * least),
                ("apart", ways.apart, text * least),
                ("hits", ways.hits, text * least),
                ("refused for H8", ways.numbers, least),
                ("by 3", ways.positions, least),
            ]);
        }
        let [a, b] = self.unknown;
        good & met(&[
            ("unknown unit of A", a, least),
            ("of B", b, least),
            ("unlike or unknown, not looked at", self.not_looked_at, 1),
        ])
    }
}
