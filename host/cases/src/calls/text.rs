//! The work by the Rust text.

use super::{empty, same_answers, Answer, Call, Largest, Question};
use crate::convert;
use crate::pairs::Pair;
use oracle::constants::speculative_distance;
use oracle::core::with_length_units;
use oracle::hull::HullData;
use oracle::math_functions::Transform;
use oracle::open::{
    self, collide_hulls, collide_hulls_placed, search, AxisQuery, LocalManifold, SeparatingFeature,
};
use oracle::quiet;
use oracle::transcribed::{self, again, Again, End};
use records::{Apart, Contact, Outcome, SatCache, Unit, MAX_MANIFOLD_POINTS};

/// The bits of a NaN that a call works out.
const NAN: u32 = 0x7fc0_0000;

/// The text's `collide_hulls`, or that of the copy in which a candidate carries its place.
type Collide = fn(&mut LocalManifold, i32, &HullData, &HullData, Transform, &mut open::SatCache);

impl Call<'_> {
    /// What document 01 says, the work done by the text.
    pub fn wanted(&self) -> Answer {
        self.without_work()
            .unwrap_or_else(|| Work::of_call(self).answer(self.capacity, self.cache))
    }

    /// The same with the work done once, by the copy alone: for what is timed.
    pub fn wanted_once(&self) -> Answer {
        self.without_work()
            .unwrap_or_else(|| Work::of_call(self).answer_of_copy(self.capacity, self.cache))
    }
}

impl Question<'_> {
    /// What document 02 says (b), the search done by the text: "a search that goes through every axis and then looks at the largest
    /// separation", which is a yes where that is strictly above the speculative distance.
    pub fn wanted(&self) -> Apart {
        self.without_work().unwrap_or_else(|| {
            let work = Work::of_call(&self.call());
            Apart {
                status: 0,
                apart: work.largest().is_above(work.speculative()).into(),
            }
        })
    }
}

impl Largest {
    /// Of a search to its end.
    pub fn of(query: &AxisQuery) -> Largest {
        Largest {
            face_a: query.face_a.separation,
            face_b: query.face_b.separation,
            edge: query.edge.separation,
        }
    }
}

/// Accepted hulls and an accepted transform in the text's records. The text works in the unit of hull A, which is B's too.
pub struct Work {
    pub a: HullData,
    pub b: HullData,
    pub transform: Transform,
    pub unit: Unit,
}

impl Work {
    pub fn of_pair(pair: &Pair) -> Work {
        Work {
            a: convert::hull(&pair.a),
            b: convert::hull(&pair.b),
            transform: pair.transform,
            unit: pair.unit(),
        }
    }

    pub fn of_call(call: &Call) -> Work {
        let unit = call.a.size.known_unit().expect("the hull is good");
        Work::of_call_in(call, unit)
    }

    /// The same in this unit, whatever that of hull A is.
    pub fn of_call_in(call: &Call, unit: Unit) -> Work {
        Work {
            a: convert::lent(call.a),
            b: convert::lent(call.b),
            transform: convert::transform(call.transform),
            unit,
        }
    }

    /// What the text comes to in the hulls' unit.
    fn in_unit<T>(&self, work: impl FnOnce() -> T) -> T {
        with_length_units(self.unit.scale(), work)
    }

    /// The text's answer to a cache whose numbers are in range, with a capacity of 4 or more. Its places alone are those of
    /// the copy in which a candidate carries its place: panics where the two differ in anything else.
    pub fn answer(&self, capacity: i32, cache: SatCache) -> Answer {
        let mut answer = self.answer_of(collide_hulls, capacity, cache);
        let placed = self.answer_of_copy(capacity, cache);
        let (points, others) = (
            &mut answer.outcome.contact.points,
            &placed.outcome.contact.points,
        );
        for (point, other) in points.iter_mut().zip(others) {
            point.place = other.place;
        }
        assert!(same_answers(&answer, &placed), "{answer:?}, {placed:?}");
        answer
    }

    /// The same by the copy alone.
    pub fn answer_of_copy(&self, capacity: i32, cache: SatCache) -> Answer {
        self.answer_of(collide_hulls_placed, capacity, cache)
    }

    /// The text still has the types that are retired; "such a cache now acts as type 0" (document 02, j), and so it is handed
    /// to the text.
    fn answer_of(&self, collide: Collide, capacity: i32, cache: SatCache) -> Answer {
        let mut read = cache;
        if cache.has_retired_type() {
            read.kind = 0;
        }
        match self.collided(collide, capacity, convert::cache(read)) {
            Some((manifold, next)) => accepted(&manifold, cache, next),
            None => empty(self.panicked(read), cache),
        }
    }

    /// What the text's call makes, and the next cache; none where it panics.
    fn collided(
        &self,
        collide: Collide,
        capacity: i32,
        mut cache: open::SatCache,
    ) -> Option<(LocalManifold, open::SatCache)> {
        quiet(move || {
            let mut manifold = LocalManifold::default();
            let (a, b) = (&self.a, &self.b);
            self.in_unit(|| {
                collide(&mut manifold, capacity, a, b, self.transform, &mut cache);
            });
            (manifold, cache)
        })
    }

    /// The candidates of the contact that left this cache, as they stood before any pick.
    pub fn candidates(&self, next: SatCache) -> Vec<open::ClipVertex> {
        let next = convert::cache(next);
        self.in_unit(|| transcribed::candidates(&self.a, &self.b, self.transform, &next))
    }

    /// The separation of the contact on the face that wins, where it touches: what stands before a pair of edges is tried.
    /// The text's own types 6 and 7 are a door to it, since they build on a face of A or of B and end there.
    pub fn face_separation(&self, query: &AxisQuery) -> Option<f32> {
        let door = if a_wins(query) {
            SeparatingFeature::ManualFaceAxisA
        } else {
            SeparatingFeature::ManualFaceAxisB
        };
        let cache = open::SatCache {
            type_: door as u8,
            ..open::SatCache::default()
        };
        let capacity = MAX_MANIFOLD_POINTS as i32;
        let (manifold, next) = self.collided(collide_hulls, capacity, cache)?;
        (manifold.point_count > 0).then_some(next.separation)
    }

    /// How far the text gets with the cached axis, where the cache has one.
    pub fn again(&self, cache: SatCache) -> Option<Again> {
        let cache = convert::cache(cache);
        self.in_unit(|| again(&self.a, &self.b, self.transform, &cache))
    }

    /// The search of a call, which stops at the first new best strictly above the speculative distance.
    pub fn search(&self) -> AxisQuery {
        self.in_unit(|| search(&self.a, &self.b, self.transform, true))
    }

    /// The best axis of each kind, however far apart the hulls are.
    pub fn search_to_end(&self) -> AxisQuery {
        self.in_unit(|| search(&self.a, &self.b, self.transform, false))
    }

    /// The largest separations of a search through every axis.
    pub fn largest(&self) -> Largest {
        Largest::of(&self.search_to_end())
    }

    /// Those of every pair of edges that forms an axis, NaN among them.
    pub fn edge_separations(&self) -> Vec<f32> {
        transcribed::edge_separations(&self.a, &self.b, self.transform)
    }

    /// The text's speculative distance in the hulls' unit.
    pub fn speculative(&self) -> f32 {
        self.in_unit(speculative_distance)
    }

    /// The refusal that the text's panic stands for: "5, 6 as the work meets them", after a cached face. The text also
    /// panics where it has no face of the side that it picks, which accepted input cannot give: there the run ends.
    fn panicked(&self, cache: SatCache) -> u8 {
        if self.again(cache).is_some_and(|a| a.end == End::Full) {
            return 6;
        }
        let query = self.search();
        let (face, vertex, vertices) = self.picked(&query);
        assert!(face >= 0, "the text has no face to pick: {query:?}");
        if (vertex as usize) < vertices {
            6
        } else {
            5
        }
    }

    /// The face that a full search picks for a contact, its support vertex, and how many vertices there are.
    fn picked(&self, query: &AxisQuery) -> (i32, i32, usize) {
        let (a, b) = (query.face_a, query.face_b);
        if a_wins(query) {
            (a.index_a, a.index_b, self.b.points.len())
        } else {
            (b.index_b, b.index_a, self.a.points.len())
        }
    }
}

/// "Face A wins only if strictly above face B".
fn a_wins(query: &AxisQuery) -> bool {
    query.face_a.separation > query.face_b.separation
}

/// What the text or its copy made of the cache, with document 01's two rules added: what is not filled is zero, and a NaN that
/// was worked out has fixed bits. The text leaves the separation where there is a hit. The mark is document 02's (j): "set only
/// on accepted calls with capacity 4 or more"; so are the places that no candidate has (d): "An edge point has place 0; unused
/// places 255".
fn accepted(manifold: &LocalManifold, cache: SatCache, next: open::SatCache) -> Answer {
    let mut contact = Contact::EMPTY;
    let made = &manifold.points[..manifold.point_count as usize];
    if !made.is_empty() {
        contact.normal = convert::ours(manifold.normal);
        contact.count = made.len() as u8;
    }
    for (point, made) in contact.points.iter_mut().zip(made) {
        *point = convert::our_contact_point(made);
        if next.type_ == SeparatingFeature::EdgePairAxis as u8 {
            point.place = 0;
        }
    }
    let bits = next.separation.to_bits();
    let nan = bits & 0x7fff_ffff > 0x7f80_0000;
    let separation = match (nan, next.hit) {
        (true, 1) => cache.separation,
        (true, _) => NAN,
        _ => bits,
    };
    Answer {
        outcome: Outcome {
            status: 0,
            contact,
            retired: u8::from(cache.has_retired_type()),
        },
        cache: SatCache {
            separation,
            kind: next.type_,
            index_a: next.index_a,
            index_b: next.index_b,
            hit: next.hit,
        },
    }
}
