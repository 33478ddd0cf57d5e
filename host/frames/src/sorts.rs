//! Frames of every sort. They come in batches: batch `b` of a seed depends on these two numbers alone, so that any frame of
//! a run can be made again. The sorts take turns. The hulls of a batch have one length unit, but where a sort is about units.

use crate::codec::{self, call_frame, Asked};
use crate::Frame;
use cases::pairs::{long_rings, Pair};
use cases::shapes::kinds::{Kind, COMPACT, STRETCHED};
use cases::shapes::solids::Solid;
use cases::sorts::{acceptable, SORTS};
use cases::Numbers;
use records::Unit;

mod broken;
pub(crate) mod calls;
mod lengths;
mod lines;
pub mod marked;
pub(crate) mod shells;
mod small;
pub(crate) mod units;

/// How many turns of its own a sort has in a batch.
const TURNS: usize = 4;

/// What makes a batch of frames.
#[derive(Clone, Copy)]
enum Make {
    /// From how many turns the sort had before; in metres.
    Frames(fn(usize, &mut Numbers) -> Vec<Frame>),
    /// The same with units of the sort's own choice.
    Units(fn(usize, &mut Numbers) -> Vec<Frame>),
    /// Calls on a pair of hulls in this unit.
    Calls(fn(Unit, &mut Numbers) -> Pair),
    /// Calls on a hull of a kind that is laid or set on any other, or the other on it.
    Kind(fn(&mut Numbers) -> Solid),
    /// Calls on a pair of settled logs, each with the cache of the one before.
    #[cfg(rust_text)]
    Carried,
}

/// A name and a maker.
pub struct Sort {
    pub name: &'static str,
    /// Whether its frames are lines that only a program can be sent.
    pub only_lines: bool,
    make: Make,
}

/// A name and a maker of frames from how many turns the sort had before.
pub(crate) type Named = (&'static str, fn(usize, &mut Numbers) -> Vec<Frame>);

const LINES: [Named; 3] = [
    ("odd lengths", lines::odd),
    ("upper case", lines::upper_case),
    ("not hexadecimal", lines::not_hex),
];

const OWN: [Named; 18] = [
    ("roots", small::roots),
    ("pairs", small::pairs),
    ("empty frames and frames of one byte", small::shortest),
    ("unknown kinds", small::unknown_kinds),
    ("lines about the longest", lines::about_longest),
    ("roots and pairs of other lengths", lengths::small),
    ("calls cut or longer", lengths::calls),
    ("sizes about each limit", lengths::about_limits),
    ("sizes changed", lengths::sizes_changed),
    ("one rule of a hull broken", broken::one_rule),
    ("two rules of a hull broken", broken::two_rules),
    ("refusals alone and at once", broken::refusals),
    ("floats of every sort", broken::floats),
    ("capacities about 4", calls::capacities),
    ("every type and every index", calls::every_type_and_index),
    ("padding unlike vertex 0", calls::padding),
    ("far from the origin", calls::far),
    ("document 01's runs", marked::runs),
];

pub(crate) const NOT_ONE_SHELL: [Named; 3] = [
    ("hulls that are not one shell", shells::alone),
    ("not one shell, beside other faults", shells::beside),
    ("near those that are not one shell", shells::near),
];

/// One frame of a seed: the batch, and its number in it.
#[derive(Debug, Clone, Copy, PartialEq, Eq)]
pub struct Place {
    pub batch: usize,
    pub number: usize,
}

/// The frames of a seed.
pub struct Frames {
    seed: u64,
    sorts: Vec<Sort>,
    /// How many of the sorts are the first ones: those that came later leave their frames as they were.
    first: usize,
    /// Whether the batches of all sorts have any unit; else only those of the sorts about units have another than metres.
    any_unit: bool,
}

impl Frames {
    /// In every unit.
    pub fn new(seed: u64) -> Frames {
        Frames {
            any_unit: true,
            ..Frames::in_metres(seed)
        }
    }

    /// In metres but for the sorts about units, so that the others have the frames that they had before there were units.
    pub fn in_metres(seed: u64) -> Frames {
        let sort = |name, make, only_lines| Sort {
            name,
            only_lines,
            make,
        };
        let named = |(name, make)| sort(name, Make::Frames(make), false);
        let of_pairs = |(name, make)| sort(name, Make::Calls(make), false);
        let of_kind = |(name, make): Kind| sort(name, Make::Kind(make), false);
        let lines = LINES.map(|(name, make)| sort(name, Make::Frames(make), true));
        let mut sorts = Vec::from(lines);
        sorts.extend(OWN.map(named));
        sorts.extend(COMPACT.map(of_kind));
        sorts.extend(STRETCHED.map(of_kind));
        sorts.extend([("faces of 65 corners and more", long_rings as _)].map(of_kind));
        sorts.extend(SORTS.map(of_pairs));
        #[cfg(rust_text)]
        {
            sorts.push(sort("settled logs, caches carried", Make::Carried, false));
            sorts.extend(cases::calls::more::MORE.map(of_pairs));
        }
        let first = sorts.len();
        #[cfg(rust_text)]
        sorts.extend([cases::calls::more::BANDS].map(of_pairs));
        sorts.extend(NOT_ONE_SHELL.map(named));
        sorts.extend(units::SORTS.map(|(name, make)| sort(name, Make::Units(make), false)));
        Frames {
            seed,
            sorts,
            first,
            any_unit: false,
        }
    }

    pub fn seed(&self) -> u64 {
        self.seed
    }

    pub fn sorts(&self) -> &[Sort] {
        &self.sorts
    }

    /// All of them, one batch after another, without an end.
    pub fn iter(&self) -> impl Iterator<Item = (Place, Frame)> + '_ {
        let of_batch = |batch| {
            let frames = self.batch(batch).into_iter().enumerate();
            frames.map(move |(number, frame)| (Place { batch, number }, frame))
        };
        (0..).flat_map(of_batch)
    }

    /// The place of the batch's sort in the list.
    pub fn sort_of(&self, batch: usize) -> usize {
        batch % self.sorts.len()
    }

    /// Where a batch's numbers begin. The batches of the first sorts are counted from below as if there were no others, those
    /// of each later sort on their own from above.
    fn beginning(&self, round: usize, sort: usize) -> u64 {
        match sort.checked_sub(self.first) {
            None => (round * self.first + sort) as u64,
            Some(later) => u64::MAX - ((later as u64) << 32 | round as u64),
        }
    }

    /// The frames of a batch, one or more.
    pub fn batch(&self, batch: usize) -> Vec<Frame> {
        let base = Numbers::new(self.seed).word();
        let (round, sort) = (batch / self.sorts.len(), self.sort_of(batch));
        let start = base.wrapping_add(self.beginning(round, sort));
        let unit = self.unit_from(start);
        let mut numbers = Numbers::new(start);
        let n = &mut numbers;
        let turns = TURNS * round..TURNS * (round + 1);
        match self.sorts[sort].make {
            Make::Frames(make) => {
                let frames = turns.flat_map(|turn| make(turn, n));
                frames.map(|frame| in_unit(frame, unit)).collect()
            }
            Make::Units(make) => turns.flat_map(|turn| make(turn, n)).collect(),
            Make::Calls(make) => calls::on_pair(acceptable(make, unit, n), n),
            Make::Kind(make) => {
                let of_kind = |unit, n: &mut _| calls::pair_of_kind(round, make, n).in_unit(unit);
                calls::on_pair(acceptable(of_kind, unit, n), n)
            }
            #[cfg(rust_text)]
            Make::Carried => turns.flat_map(|_| calls::settled(unit, n)).collect(),
        }
    }

    /// The unit of a batch whose numbers begin here; it takes none of them.
    fn unit_from(&self, start: u64) -> Unit {
        if self.any_unit {
            Numbers::new(start.rotate_left(32)).unit()
        } else {
            Unit::Metres
        }
    }
}

/// A call's frame with both hulls and B's place in this unit; any other stays.
fn in_unit(frame: Frame, unit: Unit) -> Frame {
    match frame.bytes().map(codec::decode) {
        Some(Ok(Asked::Call(given))) if unit != Unit::Metres => {
            Frame::Bytes(call_frame(&given.in_unit(unit).call()))
        }
        _ => frame,
    }
}
