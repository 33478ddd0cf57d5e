//! How often each case of the question was met, and whether all that must be were.

use super::wanted::{Seen, Told};
use cases::calls::{transform_accepted, Answer, Question};
use cases::shapes::broken_rule;
use cases::sorts::about;
use cases::{met, one_in};
use records::Unit;

#[derive(Default)]
pub struct Met {
    /// Left out, since the Rust text would be needed.
    untold: u64,
    refused: Refused,
    units: [OfUnit; 4],
    /// Pairs of hulls with a NaN among the separations of edges: a no, a yes.
    nan: [u64; 2],
    /// Whose best face of A or of B has a padding lane as its support: a no, a yes.
    padding: [u64; 2],
    /// That are no refusal here: the call is refused by 5, or by 6.
    call_refused: [u64; 2],
    /// A no where the call has points, and where it has none.
    no: [u64; 2],
}

/// By 1, 2, 17 and 3; and those that have a later reason too.
#[derive(Default)]
struct Refused {
    by: [u64; 4],
    beside: [u64; 3],
}

/// Questions about hulls of one unit.
#[derive(Default)]
struct OfUnit {
    /// By a face of A, by a face of B and none of A, by a pair of edges and no face.
    yes: [u64; 3],
    no: u64,
    /// Whose largest separation is the speculative distance, the next float above, the next below; and whether a face of A, a face
    /// of B and none of A, or a pair of edges and no face has it.
    limits: [[u64; 3]; 3],
}

impl Met {
    pub fn add(&mut self, question: &Question, told: Option<&Told>, call: &Answer) {
        match told {
            None => self.untold += 1,
            Some(Told { answer, seen: None }) => self.refused.add(question, answer.status),
            Some(Told {
                answer,
                seen: Some(seen),
            }) => self.add_seen(question, answer.apart, seen, call),
        }
    }

    fn add_seen(&mut self, question: &Question, apart: u8, seen: &Seen, call: &Answer) {
        let unit = question.a.size.known_unit().expect("the hull is good");
        let place = Unit::ALL.iter().position(|&own| own == unit);
        self.units[place.expect("one of the four")].add(seen);
        let answer = usize::from(apart);
        self.nan[answer] += u64::from(seen.nan);
        self.padding[answer] += u64::from(seen.padding);
        match (call.outcome.status, apart) {
            (5, _) => self.call_refused[0] += 1,
            (6, _) => self.call_refused[1] += 1,
            (_, 0) => self.no[usize::from(call.outcome.contact.count == 0)] += 1,
            _ => {}
        }
    }

    /// Prints all of it; whether each was met often enough in so many pairs.
    pub fn report(&self, count: usize) -> bool {
        let text = u64::from(cfg!(rust_text));
        let (often, few) = (one_in(200, count), one_in(1000, count));
        let mut good = self.refused.report(few);
        good &= met(&[("left out for want of the text", self.untold, 0)]);
        for (unit, of) in Unit::ALL.into_iter().zip(&self.units) {
            good &= of.report(unit, text * often, text * few);
        }
        let ([nan_no, nan_yes], [padding_no, padding_yes]) = (self.nan, self.padding);
        let ([by_5, by_6], [points, no_points]) = (self.call_refused, self.no);
        println!("in all units");
        good & met(&[
            ("a NaN among the pairs of edges: no", nan_no, text * few),
            ("yes", nan_yes, text * few),
            ("a padding lane wins: no", padding_no, text * few),
            ("yes", padding_yes, text * few),
            ("the call refused by 5", by_5, text * one_in(4000, count)),
            ("by 6", by_6, text * one_in(4000, count)),
            ("a no, and the call has points", points, text * often),
            ("none", no_points, text * few),
        ])
    }
}

impl Refused {
    fn add(&mut self, question: &Question, status: u8) {
        let Question { a, b, transform } = *question;
        let broken = broken_rule(b) != 0;
        let unlike = a.size.unit != b.size.unit;
        let placed = transform_accepted(a.size.unit, transform);
        match status {
            1 => {
                self.by[0] += 1;
                self.beside[0] += u64::from(broken || unlike || !placed);
            }
            2 => {
                self.by[1] += 1;
                self.beside[1] += u64::from(unlike || !placed);
            }
            17 => {
                self.by[2] += 1;
                self.beside[2] += u64::from(!placed);
            }
            _ => self.by[3] += 1,
        }
    }

    fn report(&self, few: u64) -> bool {
        let ([a, b, units, transform], [beside_a, beside_b, beside_units]) = (self.by, self.beside);
        println!("refused");
        met(&[
            ("by 1", a, few),
            ("of them 2, 17 or 3 too", beside_a, few),
            ("by 2", b, few),
            ("of them 17 or 3 too", beside_b, few),
            ("by 17", units, few),
            ("of them 3 too", beside_units, few),
            ("by 3", transform, few),
        ])
    }
}

impl OfUnit {
    fn add(&mut self, seen: &Seen) {
        let (largest, distance) = (seen.largest, seen.speculative);
        // The first phase of the search in which a separation fulfils this.
        let first = |test: &dyn Fn(f32) -> bool| {
            let phases = [largest.face_a, largest.face_b, largest.edge];
            phases.into_iter().position(test)
        };
        match first(&|separation| separation > distance) {
            Some(phase) => self.yes[phase] += 1,
            None => self.no += 1,
        }
        let of_all = largest.of_all();
        let limits = about(distance).into_iter().zip(&mut self.limits);
        for (_, phases) in limits.filter(|(limit, _)| of_all == *limit) {
            let phase = first(&|separation| separation == of_all);
            phases[phase.expect("the largest is one of them")] += 1;
        }
    }

    fn report(&self, unit: Unit, often: u64, few: u64) -> bool {
        let ([by_a, by_b, by_edges], [at, above, below]) = (self.yes, self.limits);
        println!("in {unit}");
        let mut good = met(&[
            ("a yes by a face of A", by_a, often),
            ("of B and none of A", by_b, often),
            ("by a pair of edges alone", by_edges, few),
            ("a no", self.no, often),
        ]);
        for (name, [of_a, of_b, of_edges]) in [
            ("at the speculative distance", at),
            ("one float above", above),
            ("one float below", below),
        ] {
            good &= met(&[
                (&format!("{name}: a face of A"), of_a, few),
                ("of B alone", of_b, few),
                ("a pair of edges alone", of_edges, few.div_ceil(4)),
            ]);
        }
        good
    }
}
