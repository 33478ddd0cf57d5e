//! What a call is given, and the question whether two hulls are apart; the refusals of documents 01 and 02 that come before any
//! work, and the comparison of two answers.

use crate::same;
use crate::shapes::{broken_rule, higher, Shape};
use records::{
    Apart, Contact, HullLists, HullSize, Outcome, Point, SatCache, Transform, Unit, Vec3,
    MAX_MANIFOLD_POINTS,
};

#[cfg(rust_text)]
pub use text::Work;

#[cfg(rust_text)]
pub mod aims;
pub mod broken;
pub mod caches;
#[cfg(rust_text)]
pub mod more;
#[cfg(rust_text)]
pub mod placed;
#[cfg(rust_text)]
pub mod series;
#[cfg(rust_text)]
mod text;

/// What a call returns, and the next cache.
#[derive(Debug, Clone, Copy)]
pub struct Answer {
    pub outcome: Outcome,
    pub cache: SatCache,
}

/// What a call is given.
#[derive(Debug, Clone, Copy)]
pub struct Call<'a> {
    pub capacity: i32,
    pub a: HullLists<'a>,
    pub b: HullLists<'a>,
    pub transform: Transform,
    pub cache: SatCache,
}

/// What the question is given whether two hulls are apart.
#[derive(Debug, Clone, Copy)]
pub struct Question<'a> {
    pub a: HullLists<'a>,
    pub b: HullLists<'a>,
    pub transform: Transform,
}

/// The largest separation of A's faces, of B's faces and of the pairs of edges. The text finds each by `>`, so that a NaN is never
/// it; that of the pairs is minus infinity where none has one.
#[derive(Debug, Clone, Copy, PartialEq)]
pub struct Largest {
    pub face_a: f32,
    pub face_b: f32,
    pub edge: f32,
}

impl Largest {
    pub fn of_all(self) -> f32 {
        higher(higher(self.face_a, self.face_b), self.edge)
    }

    /// Strictly.
    pub fn is_above(self, distance: f32) -> bool {
        self.of_all() > distance
    }
}

/// What a call is given, owned.
#[derive(Debug, Clone)]
pub struct Given {
    pub capacity: i32,
    pub a: Shape,
    pub b: Shape,
    pub transform: Transform,
    pub cache: SatCache,
}

impl Given {
    /// Hull A for an even number, hull B for an odd one.
    pub fn side(&mut self, number: usize) -> &mut Shape {
        if number.is_multiple_of(2) {
            &mut self.a
        } else {
            &mut self.b
        }
    }

    /// The same with both hulls and B's place in this unit. They are in metres; a hull in any other unit, or in none, stays as it
    /// is.
    pub fn in_unit(mut self, unit: Unit) -> Given {
        let Vec3 { x, y, z } = self.transform.p;
        let [x, y, z] = [x, y, z].map(|part| part * unit.scale());
        self.transform.p = Vec3 { x, y, z };
        self.a = self.a.in_unit(unit);
        self.b = self.b.in_unit(unit);
        self
    }

    pub fn call(&self) -> Call<'_> {
        Call {
            capacity: self.capacity,
            a: self.a.lent(),
            b: self.b.lent(),
            transform: self.transform,
            cache: self.cache,
        }
    }
}

impl Call<'_> {
    /// The answer where no work is done: a capacity below 4, which comes first, or one of refusals 1, 2, 17, 3 and 4.
    pub fn without_work(&self) -> Option<Answer> {
        if self.capacity < 4 {
            return Some(empty(0, self.cache));
        }
        match self.refusal() {
            0 => None,
            refusal => Some(empty(refusal, self.cache)),
        }
    }

    /// The first of refusals 1, 2, 17, 3 and 4 that is given, 0 if none.
    pub fn refusal(&self) -> u8 {
        match self.question().refusal() {
            0 if !cache_in_range(self.a.size, self.b.size, self.cache) => 4,
            refusal => refusal,
        }
    }
}

impl<'a> Call<'a> {
    /// The question about the same hulls in the same places.
    pub fn question(&self) -> Question<'a> {
        Question {
            a: self.a,
            b: self.b,
            transform: self.transform,
        }
    }
}

impl<'a> Question<'a> {
    /// The first of refusals 1, 2, 17 and 3 that is given, 0 if none: "17, units differ, after 2 and before 3".
    pub fn refusal(&self) -> u8 {
        if broken_rule(self.a) != 0 {
            1
        } else if broken_rule(self.b) != 0 {
            2
        } else if self.a.size.unit != self.b.size.unit {
            17
        } else if !transform_accepted(self.a.size.unit, self.transform) {
            3
        } else {
            0
        }
    }

    /// The answer where it is a refusal.
    pub fn without_work(&self) -> Option<Apart> {
        match self.refusal() {
            0 => None,
            status => Some(Apart { status, apart: 0 }),
        }
    }

    /// The call about the same hulls in the same places, with room for four points and a cache that has no axis.
    pub fn call(&self) -> Call<'a> {
        Call {
            capacity: MAX_MANIFOLD_POINTS as i32,
            a: self.a,
            b: self.b,
            transform: self.transform,
            cache: SatCache::EMPTY,
        }
    }
}

/// Whether the transform is accepted between hulls of this unit.
pub fn transform_accepted(unit: usize, Transform { p, q }: Transform) -> bool {
    validator::transform_accepted(unit, [p.x, p.y, p.z], [q.v.x, q.v.y, q.v.z, q.s])
}

/// Not where "the cache's type is 2 and index_a >= F of A; 3 and index_b >= F of B; 4 and either index is odd or not
/// below its hull's H".
pub fn cache_in_range(a: HullSize, b: HullSize, cache: SatCache) -> bool {
    let (index_a, index_b) = (usize::from(cache.index_a), usize::from(cache.index_b));
    match cache.kind {
        2 => index_a < a.faces,
        3 => index_b < b.faces,
        4 => {
            let even = index_a.is_multiple_of(2) && index_b.is_multiple_of(2);
            even && index_a < a.half_edges && index_b < b.half_edges
        }
        _ => true,
    }
}

/// No contact, so that every place is unused; no mark; and the cache as it was.
pub fn empty(status: u8, cache: SatCache) -> Answer {
    Answer {
        outcome: Outcome {
            status,
            contact: Contact::EMPTY,
            retired: 0,
        },
        cache,
    }
}

/// Equal in every field, any NaN of a point or a normal being equal to any other.
pub fn same_answers(a: &Answer, b: &Answer) -> bool {
    let Outcome {
        status,
        contact,
        retired,
    } = a.outcome;
    let (points, others) = (contact.points, b.outcome.contact.points);
    (status, retired) == (b.outcome.status, b.outcome.retired)
        && a.cache == b.cache
        && contact.count == b.outcome.contact.count
        && same_vectors(contact.normal, b.outcome.contact.normal)
        && points.iter().zip(&others).all(|(p, q)| same_points(p, q))
}

/// Equal in every field, any NaN being equal to any other.
pub fn same_points(a: &Point, b: &Point) -> bool {
    same_vectors(a.position, b.position)
        && same(a.separation, b.separation)
        && (a.pair, a.place) == (b.pair, b.place)
}

fn same_vectors(a: Vec3, b: Vec3) -> bool {
    same(a.x, b.x) && same(a.y, b.y) && same(a.z, b.z)
}
