//! Probes alone of what is exported require something of their callers. Each call here breaks one requirement by as little
//! as it can be broken, and panics before the library is called; the call beside it keeps to all of them.

use std::panic::{catch_unwind, AssertUnwindSafe};

use contact::{HullBuilder, OwnedHull};
use probes::*;

const UP: Vec3 = Vec3 {
    x: 0.0,
    y: 0.0,
    z: 1.0,
};

const FLOOR: Plane = Plane {
    normal: UP,
    offset: 0.0,
};

fn log(unit: Unit) -> OwnedHull {
    let [butt, top, length] = [0.2, 0.15, 3.0].map(|metres| metres * unit.scale());
    let log = HullBuilder::log(6, butt, top, length).unit(unit);
    log.build().expect("a log")
}

fn accepted(log: &OwnedHull) -> Accepted<'_> {
    Accepted::new(log.numbers(), log.links(), log.size()).expect("an accepted log")
}

fn at_rest(x: f32) -> Transform {
    Transform {
        p: Vec3 { x, ..UP },
        q: Quat {
            v: Vec3 {
                x: 0.0,
                y: 0.0,
                z: 0.0,
            },
            s: 1.0,
        },
    }
}

fn lanes(w: f32) -> FloatW {
    FloatW {
        x: 1.0,
        y: 1.0,
        z: 1.0,
        w,
    }
}

fn keeps<T>(what: &str, call: impl FnOnce() -> T) {
    assert!(
        catch_unwind(AssertUnwindSafe(call)).is_ok(),
        "{what}: a call that keeps to what is required panics"
    );
}

fn breaks<T>(what: &str, call: impl FnOnce() -> T) {
    assert!(
        catch_unwind(AssertUnwindSafe(call)).is_err(),
        "{what}: a call that breaks what is required reaches the library"
    );
}

#[test]
fn lists_hold_the_vertices() {
    let (long, short) = ([0.0; 4], [0.0; 3]);
    keeps("four", || support_vertex(&long, &long, &long, 4, UP));
    breaks("none", || support_vertex(&long, &long, &long, 0, UP));
    breaks("x", || support_vertex(&short, &long, &long, 4, UP));
    breaks("y", || support_vertex(&long, &short, &long, 4, UP));
    breaks("z", || support_vertex(&long, &long, &short, 4, UP));
}

#[test]
fn lanes_are_finite_and_numbers_below_128() {
    keeps("124 to 127", || embed_index_w(lanes(1.0), 124));
    breaks("128", || embed_index_w(lanes(1.0), 125));
    breaks("infinite", || embed_index_w(lanes(f32::INFINITY), 0));
    breaks("NaN", || embed_index_w(lanes(f32::NAN), 0));
    keeps("finite", || min_w(lanes(1.0), lanes(2.0)));
    breaks("NaN first", || min_w(lanes(f32::NAN), lanes(2.0)));
    breaks("infinite second", || {
        min_w(lanes(1.0), lanes(f32::INFINITY))
    });
    keeps("finite", || min_index_w(lanes(1.0)));
    breaks("NaN", || min_index_w(lanes(f32::NAN)));
}

#[test]
fn polygons_have_1_to_64_corners() {
    let cut = |n: usize| Places::default().clip_polygon(n, FLOOR, 0, FLOOR);
    keeps("1", || cut(1));
    keeps("64", || cut(64));
    breaks("0", || cut(0));
    breaks("65", || cut(65));
}

#[test]
fn candidates_stand_in_the_lists() {
    let places = Places::default();
    keeps("the last corner", || places.image_at(127, UP));
    breaks("none there", || places.image_at(128, UP));
    let (last, many, late) = ([64, 64], [0, 65], [65, 0]);
    let kept = |[from, count]: [usize; 2]| Kept { from, count };
    let least = |at| places.least_separation(kept(at));
    keeps("least of 64", || least(last));
    breaks("least of 65", || least(many));
    breaks("least past corner 64", || least(late));
    let picks = |at| places.reduce_manifold_points(1, kept(at), UP);
    keeps("picks of 64", || picks(last));
    breaks("picks of 65", || picks(many));
    breaks("picks past corner 64", || picks(late));
    let rounds = |at, rounds| places.reduce_rounds(1, kept(at), UP, rounds);
    keeps("rounds", || rounds(last, 1));
    breaks("rounds of 65", || rounds(many, 1));
    breaks("rounds past corner 64", || rounds(late, 1));
    breaks("too many rounds", || rounds(last, MOST_ROUNDS + 1));
}

#[test]
fn hulls_are_accepted_and_numbers_theirs() {
    let owned = log(Unit::Metres);
    let (hull, size) = (accepted(&owned), owned.size());
    assert!(
        Accepted::new(&owned.numbers()[1..], owned.links(), size).is_none(),
        "a hull that breaks H1 is taken for an accepted one"
    );
    keeps("last vertex", || {
        find_incident_face(hull, UP, size.vertices - 1)
    });
    breaks("no such vertex", || {
        find_incident_face(hull, UP, size.vertices)
    });
    let build = |face| Places::default().build_polygon(hull, at_rest(0.0), face, FLOOR);
    keeps("last face", || build(size.faces - 1));
    breaks("no such face", || build(size.faces));
    let candidates = |face, vertex| {
        let mut places = Places::default();
        places.candidates(hull, hull, at_rest(0.0), face, vertex)
    };
    keeps("last of both", || {
        candidates(size.faces - 1, size.vertices - 1)
    });
    breaks("no such face of A", || candidates(size.faces, 0));
    breaks("no such vertex of B", || candidates(0, size.vertices));
}

/// In each unit by its own limit, and only between hulls of that unit.
#[test]
fn transforms_are_accepted() {
    for unit in Unit::ALL {
        let owned = log(unit);
        let hull = accepted(&owned);
        let far = unit.farthest();
        let search = |x: f32| compute_separating_axis(hull, hull, Placed::new(unit, at_rest(x)));
        keeps("at the limit", || search(far));
        breaks("beyond it", || search(far.next_up()));
        for other in Unit::ALL.into_iter().filter(|&other| other != unit) {
            let placed = Placed::new(other, at_rest(0.0));
            breaks("another unit", || {
                compute_separating_axis(hull, hull, placed)
            });
            let unlike = log(other);
            let placed = Placed::new(unit, at_rest(0.0));
            breaks("unlike units", || {
                compute_separating_axis(hull, accepted(&unlike), placed)
            });
        }
    }
}
