//! How often each sort, fault, refusal, rule, unit, cache type, place and mark was met, and whether all that must be were.

use crate::codec::{
    self, Asked, Fault, CALL, COUNT, FLIP, HIT, NEXT_CACHE, RETIRED, ROOT, STATUS, TYPE,
};
use crate::sorts::Frames;
use crate::Frame;
#[cfg(rust_text)]
use cases::calls::placed::Placed;
use cases::met;
use cases::shapes::breaks::RULES;
use records::SatCache;
use units::Units;

mod units;

/// How often what is about units must be met at the least.
const LEAST_OF_UNITS: u64 = 20;

/// Types that are told apart: 0 to 8, and all above together.
const TYPES: usize = 10;

/// By the number of a refusal, 0 where there is none.
type Statuses = [u64; MOST_STATUS + 1];

/// The highest number that a call is refused by.
const MOST_STATUS: usize = 17;

#[derive(Default)]
pub struct Mix {
    sorts: Vec<u64>,
    /// Left out, since the Rust text would be needed.
    untold: u64,
    roots: u64,
    pairs: u64,
    faults: [u64; 5],
    /// Calls by their status.
    statuses: Statuses,
    units: Units,
    /// Refused hulls by the rule that is broken first.
    rules: [u64; RULES as usize + 1],
    /// Capacities below 4.
    without_work: u64,
    /// Other accepted calls: by the type that they were given, hits by it, by the type that they return, by points.
    types: [u64; TYPES],
    hits: [u64; TYPES],
    next_types: [u64; TYPES],
    points: [u64; 5],
    retired: Retired,
    #[cfg(rust_text)]
    placed: Placed,
}

/// Calls with a cache of a retired type, by the type.
#[derive(Default)]
struct Retired {
    marked: [u64; 3],
    /// Not marked: capacities below 4, and refused ones, these by their status too.
    without_work: [u64; 3],
    refused: [u64; 3],
    statuses: Statuses,
}

impl Retired {
    fn add(&mut self, which: usize, answer: &[u8]) {
        let status = usize::from(answer[STATUS]);
        match (answer[RETIRED], status) {
            (1, _) => self.marked[which] += 1,
            (_, 0) => self.without_work[which] += 1,
            _ => {
                self.refused[which] += 1;
                self.statuses[status] += 1;
            }
        }
    }

    fn report(&self, text: u64) -> bool {
        let each = |what: &str, counts: [u64; 3], least: u64| {
            let [six, seven, eight] = counts;
            let first = format!("{what}: type 6");
            met(&[
                (&first, six, least),
                ("7", seven, least),
                ("8", eight, least),
            ])
        };
        let of = |refusal: usize| self.statuses[refusal];
        println!("retired types");
        each("marked", self.marked, text)
            & each("capacity below 4, not marked", self.without_work, 1)
            & each("refused, not marked", self.refused, 1)
            & met(&[
                ("refused by 1", of(1), 1),
                ("2", of(2), 1),
                ("17", of(17), 1),
                ("3", of(3), 1),
                ("5", of(5), text),
                ("6", of(6), text),
            ])
    }
}

impl Mix {
    pub fn new(frames: &Frames) -> Mix {
        Mix {
            sorts: vec![0; frames.sorts().len()],
            ..Mix::default()
        }
    }

    /// One frame of the sort at this place of the list, and the answer that is wanted, where it can be told.
    pub fn add(&mut self, sort: usize, frame: &Frame, answer: Option<&[u8]>) {
        self.sorts[sort] += 1;
        let Some(answer) = answer else {
            self.untold += 1;
            return;
        };
        match (answer[0] - 0x80, frame.bytes()) {
            (ROOT, _) => self.roots += 1,
            (FLIP, _) => self.pairs += 1,
            (CALL, Some(bytes)) => self.add_call(bytes, answer),
            _ => {
                let which = Fault::ALL.iter().position(|&f| f as u8 == answer[1]);
                self.faults[which.expect("a fault")] += 1;
            }
        }
    }

    fn add_call(&mut self, frame: &[u8], answer: &[u8]) {
        let Ok(Asked::Call(given)) = codec::decode(frame) else {
            panic!("an answer to a call that is none");
        };
        let status = answer[STATUS];
        self.statuses[usize::from(status)] += 1;
        self.units.add(&given, answer);
        let is_given = |&kind: &u8| kind == given.cache.kind;
        if let Some(which) = SatCache::RETIRED_TYPES.iter().position(is_given) {
            self.retired.add(which, answer);
        }
        match status {
            1 => self.rules[usize::from(given.a.broken_rule())] += 1,
            2 => self.rules[usize::from(given.b.broken_rule())] += 1,
            0 if given.capacity < 4 => self.without_work += 1,
            0 => {
                let kind = |byte: u8| usize::from(byte).min(TYPES - 1);
                let asked = kind(given.cache.kind);
                self.types[asked] += 1;
                self.hits[asked] += u64::from(answer[NEXT_CACHE + HIT] == 1);
                self.next_types[kind(answer[NEXT_CACHE + TYPE])] += 1;
                self.points[usize::from(answer[COUNT])] += 1;
                #[cfg(rust_text)]
                {
                    let wanted = codec::read_answer(answer).expect("the answer to a call");
                    self.placed.add(&given.call(), &wanted);
                }
            }
            _ => {}
        }
    }

    /// Prints all of it; whether each that must be was met. A library is sent no lines.
    pub fn report(&self, frames: &Frames, program: bool) -> bool {
        let text = u64::from(cfg!(rust_text));
        let lines = u64::from(program);
        let sorts: Vec<(&str, u64, u64)> = (frames.sorts().iter().zip(&self.sorts))
            .map(|(sort, &count)| (sort.name, count, if sort.only_lines { lines } else { 1 }))
            .collect();
        let [owner, not_hex, no_kind, length, too_long] = self.faults;
        let of = |refusal: usize| self.statuses[refusal];
        let named = ["type 0", "1", "2", "3", "4", "5", "6", "7", "8", "9 to 255"];
        let types = |counts: &[u64; TYPES], least: [u64; TYPES]| {
            let all: [_; TYPES] = std::array::from_fn(|i| (named[i], counts[i], text * least[i]));
            met(&all)
        };
        let [none, one, two, three, four] = self.points;
        println!("frames by sort");
        let mut good = met(&sorts);
        println!("answers");
        good &= met(&[
            ("roots", self.roots, 1),
            ("pairs", self.pairs, 1),
            ("ff08", owner, 1),
            ("ff21", not_hex, lines),
            ("ff22", no_kind, 1),
            ("ff23", length, 1),
            ("ff24", too_long, lines),
        ]);
        good &= met(&[
            ("calls accepted", of(0), 1),
            ("refused by 1", of(1), 1),
            ("2", of(2), 1),
            ("17", of(17), LEAST_OF_UNITS),
            ("3", of(3), 1),
            ("4", of(4), 1),
            ("5", of(5), text),
            ("6", of(6), text),
            ("capacity below 4", self.without_work, 1),
            ("left out for want of the text", self.untold, 0),
        ]);
        println!("first broken rule of a refused hull");
        let [_, h1, h2, h3, h4, h5, h6, h7, h8, h9] = self.rules;
        good &= met(&[
            ("H1", h1, 1),
            ("H2", h2, 1),
            ("H3", h3, 1),
            ("H4", h4, 1),
            ("H5", h5, 1),
            ("H6", h6, 1),
            ("H7", h7, 1),
            ("H8", h8, 1),
            ("H9", h9, 1),
        ]);
        good &= self.units.report(text);
        println!("caches of accepted calls");
        good &= types(&self.types, [1; TYPES]);
        println!("hits");
        good &= types(&self.hits, [0, 0, 1, 1, 1, 0, 0, 0, 0, 0]);
        println!("caches that come out");
        good &= types(&self.next_types, [1, 0, 1, 1, 1, 0, 0, 0, 0, 0]);
        good &= self.retired.report(text);
        #[cfg(rust_text)]
        {
            good &= self.placed.report(1);
        }
        println!("points");
        good & met(&[
            ("none", none, text),
            ("one", one, text),
            ("two", two, text),
            ("three", three, text),
            ("four", four, text),
        ])
    }
}
