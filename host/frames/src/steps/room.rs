//! The lists of a step with places on either side that are to stay, so that what is written outside of a list shows.

use super::{Lent, Lists};
use crate::library::Library;
use records::Step;

/// How many places are watched on either side of a list.
const WATCHED: usize = 64;

/// Each written list in the middle of a longer one.
pub struct Room {
    judged: Watched<u8>,
    caches: Watched<u32>,
    floats: Watched<f32>,
    bytes: Watched<u8>,
}

struct Watched<T> {
    all: Vec<T>,
    untouched: T,
}

impl<T: Copy> Watched<T> {
    fn new(list: &[T], untouched: T) -> Self {
        let beside = vec![untouched; WATCHED];
        Watched {
            all: [&beside, list, &beside].concat(),
            untouched,
        }
    }

    fn list(&mut self) -> &mut [T] {
        let end = self.all.len() - WATCHED;
        &mut self.all[WATCHED..end]
    }

    /// Whether every place beside the list is as it was.
    fn kept(&mut self, same: impl Fn(T, T) -> bool) -> bool {
        let end = self.all.len() - WATCHED;
        let beside = self.all[..WATCHED].iter().chain(&self.all[end..]);
        beside.copied().all(|place| same(place, self.untouched))
    }
}

impl Room {
    pub fn new(given: &Lists) -> Room {
        Room {
            judged: Watched::new(&given.judged, 0x5a),
            caches: Watched::new(&given.caches, 0x5a5a_5a5a),
            floats: Watched::new(&given.floats, 1.5),
            bytes: Watched::new(&given.bytes, 0x5a),
        }
    }

    /// What the library's step returns, and the lists after it; or what is wrong, where it wrote outside of them.
    pub fn ask(
        mut self,
        given: &Lists,
        library: &mut impl Library,
    ) -> (Result<Step, &'static str>, Lists) {
        let step = library.step(&mut Lent {
            numbers: &given.numbers,
            links: &given.links,
            hulls: &given.hulls,
            pairs: &given.pairs,
            transforms: &given.transforms,
            judged: self.judged.list(),
            caches: self.caches.list(),
            floats: self.floats.list(),
            bytes: self.bytes.list(),
        });
        let kept = self.judged.kept(|a, b| a == b)
            && self.caches.kept(|a, b| a == b)
            && self.floats.kept(|a, b| a.to_bits() == b.to_bits())
            && self.bytes.kept(|a, b| a == b);
        let after = Lists {
            judged: self.judged.list().to_vec(),
            caches: self.caches.list().to_vec(),
            floats: self.floats.list().to_vec(),
            bytes: self.bytes.list().to_vec(),
            ..given.clone()
        };
        let came = if kept {
            Ok(step)
        } else {
            Err("a place beside a list was written")
        };
        (came, after)
    }
}

#[cfg(test)]
mod tests {
    use super::*;

    #[test]
    fn a_place_beside_the_list_is_told() {
        let same = |a: u32, b: u32| a == b;
        let mut watched = Watched::new(&[1, 2, 3], 9);
        watched.list().fill(4);
        assert!(watched.kept(same) && watched.list() == [4; 3]);
        for place in [0, WATCHED - 1, WATCHED + 3, 2 * WATCHED + 2] {
            let mut watched = Watched::new(&[1, 2, 3], 9);
            watched.all[place] = 8;
            assert!(!watched.kept(same), "{place}");
        }
    }
}
