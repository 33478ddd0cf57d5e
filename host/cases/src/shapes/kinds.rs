//! The sorts of hulls that the runs try, each with a maker of random ones.

use super::solids::*;
use crate::Numbers;

/// A name and a maker of solids about the origin.
pub type Kind = (&'static str, fn(&mut Numbers) -> Solid);

/// Solids at most 30 from the origin.
pub const COMPACT: [Kind; 14] = [
    CUBES,
    BOXES,
    ("logs", any_log),
    ("tapered logs", |n| {
        let (sides, radius) = (3 + n.below(40), n.between(0.5, 5.0));
        frustum(
            &polygon(sides, radius),
            n.between(0.3, 1.0),
            n.between(1.0, 20.0),
        )
    }),
    ("prisms", |n| {
        let (sides, radius) = (3 + n.below(40), n.between(0.5, 5.0));
        frustum(&polygon(sides, radius), 1.0, n.between(0.2, 20.0))
    }),
    WEDGES,
    TETRAHEDRA,
    ("octahedra", |n| {
        bipyramid(4, n.between(0.2, 5.0), n.between(0.2, 5.0))
    }),
    ("bipyramids", |n| {
        bipyramid(3 + n.below(40), n.between(0.5, 5.0), n.between(0.2, 5.0))
    }),
    ("pyramids", |n| {
        pyramid(3 + n.below(62), n.between(0.5, 5.0), n.between(0.2, 9.0))
    }),
    ("64-gon pyramids", |n| {
        pyramid(64, n.between(0.5, 5.0), n.between(0.2, 9.0))
    }),
    ("largest sizes", |n| {
        let radius = n.between(0.5, 5.0);
        let kinds = [PRISMS, ANTIPRISMS, MOST_FACES, MOST_VERTICES];
        kinds[n.below(4)].1(radius, n)
    }),
    ("with a corner alone in a face", |n| {
        let (sides, radius) = (3 + n.below(9), n.between(0.5, 5.0));
        frustum(&polygon(sides, radius), 1.0, n.between(1.0, 9.0)).with_corner_in_face(n.below(2))
    }),
    ("two made one by a common face", |n| {
        let (sides, radius) = (3 + n.below(23), n.between(0.5, 5.0));
        let taper = [1.0, n.between(0.3, 1.0)][n.below(2)];
        frustum(&polygon(sides, radius), taper, n.between(0.2, 9.0)).doubled(0)
    }),
];

pub const CUBES: Kind = ("cubes", |n| {
    let half = n.between(0.1, 5.0);
    block([half; 3])
});
pub const BOXES: Kind = ("boxes", any_box);
pub const WEDGES: Kind = ("wedges", |n| {
    let base = [
        [0.0, 0.0],
        [n.between(0.1, 5.0), 0.0],
        [0.0, n.between(0.1, 5.0)],
    ];
    frustum(&base, 1.0, n.between(0.1, 10.0))
});
pub const TETRAHEDRA: Kind = ("tetrahedra", |n| {
    let sheared = [n.between(-2.0, 2.0), n.between(-2.0, 2.0)];
    pyramid(3, n.between(0.2, 5.0), n.between(0.2, 5.0)).sheared(sheared)
});

/// A name and a maker of solids of a radius.
pub type KindOfRadius = (&'static str, fn(f64, &mut Numbers) -> Solid);

/// As many half-edges, faces or vertices as the rules allow, and faces of 64 corners.
pub const LARGEST: [KindOfRadius; 5] = [PRISMS, ANTIPRISMS, MOST_FACES, MOST_VERTICES, PYRAMIDS];

pub const PRISMS: KindOfRadius = ("prisms: V 84, H 252, F 44", |radius, n| {
    frustum(&polygon(42, radius), 1.0, n.between(1.0, 9.0))
});
pub const ANTIPRISMS: KindOfRadius = ("antiprisms: V 64, H 256, F 66", |radius, n| {
    antiprism(32, radius, n.between(1.0, 9.0))
});
/// Faces times edges are the most that there are.
pub const MOST_FACES: KindOfRadius = ("V 45, H 256, most faces: 85", |radius, _| {
    most_faces(radius)
});
pub const MOST_VERTICES: KindOfRadius = ("most vertices: 126, H 256, F 4", |radius, _| {
    most_vertices(radius)
});
pub const PYRAMIDS: KindOfRadius = ("pyramids: V 65, H 256, F 65", |radius, n| {
    pyramid(64, radius, n.between(0.2, 9.0))
});

/// Solids that are long and thin or wide and thin.
pub const STRETCHED: [Kind; 2] = [
    ("needles", |n| {
        any_stretched([(0.01, 0.1), (0.01, 0.1), (5.0, 500.0)], n)
    }),
    ("flat plates", |n| {
        any_stretched([(5.0, 500.0), (5.0, 500.0), (0.004, 0.05)], n)
    }),
];

/// Stretched along each axis by a number from such a range.
fn any_stretched(ranges: [(f64, f64); 3], n: &mut Numbers) -> Solid {
    let scale = ranges.map(|(low, high)| n.between(low, high));
    any_simple(n).stretched(scale)
}

/// A log of the simulator: V 24, H 72, F 14.
pub fn any_log(n: &mut Numbers) -> Solid {
    frustum(&polygon(12, n.between(0.1, 0.6)), 1.0, n.between(2.0, 12.0))
}

fn any_box(n: &mut Numbers) -> Solid {
    block([0.0; 3].map(|_: f64| n.between(0.1, 5.0)))
}

/// Corners about one apart.
fn any_simple(n: &mut Numbers) -> Solid {
    match n.below(5) {
        0 => block([0.5; 3]),
        1 => frustum(&polygon(3 + n.below(6), 1.0), 1.0, 1.0),
        2 => frustum(&[[0.0, 0.0], [1.0, 0.0], [0.0, 1.0]], 1.0, 1.0),
        3 => pyramid(3 + n.below(4), 1.0, 1.0),
        _ => bipyramid(3 + n.below(4), 1.0, 1.0),
    }
}

/// Solids that keep every rule up to H8 and are not one closed shell.
pub struct Shells {
    pub name: &'static str,
    pub shells: usize,
    /// In all the shells together. V - H/2 + F is twice the shells less twice the holes.
    pub holes: usize,
    pub solid: fn(&mut Numbers) -> Solid,
}

/// At most 100 from the origin.
pub const SHELLS: [Shells; 13] = [
    Shells {
        name: "two that share nothing",
        shells: 2,
        holes: 0,
        solid: |n| {
            let apart = [12.0, 0.0, n.between(-5.0, 5.0)];
            any_log(n).joined(&bipyramid(3 + n.below(8), n.between(0.5, 5.0), 1.0).moved(apart))
        },
    },
    Shells {
        name: "two boxes far apart",
        shells: 2,
        holes: 0,
        solid: |n| any_box(n).joined(&any_box(n).moved([50.0, 0.0, 0.0])),
    },
    Shells {
        name: "three",
        shells: 3,
        holes: 0,
        solid: |n| {
            let pyramid = pyramid(3 + n.below(12), n.between(0.5, 5.0), 1.0);
            let two = any_log(n).joined(&any_box(n).moved([0.0, 15.0, 0.0]));
            two.joined(&pyramid.moved([15.0, 0.0, 0.0]))
        },
    },
    Shells {
        name: "21 tetrahedra: V 84, H 252, F 84",
        shells: 21,
        holes: 0,
        solid: |n| {
            let one = pyramid(3, n.between(0.2, 1.0), n.between(0.2, 1.0));
            let at = |place: usize| [2.0 * (place % 5) as f64, 2.0 * (place / 5) as f64, 0.0];
            (1..21).fold(one.clone(), |all, place| {
                all.joined(&one.clone().moved(at(place)))
            })
        },
    },
    Shells {
        name: "two flat ones: V 128, H 256, F 4",
        shells: 2,
        holes: 0,
        solid: |n| {
            let one = two_sided(64, n.between(0.5, 5.0));
            one.joined(&one.clone().moved([0.0, 0.0, n.between(0.1, 5.0)]))
        },
    },
    Shells {
        name: "a box inside a box",
        shells: 2,
        holes: 0,
        solid: |n| {
            let half = [0.0; 3].map(|_: f64| n.between(0.5, 5.0));
            let inner = block(half.map(|x| x * n.between(0.1, 0.9)));
            let inner = [inner.clone(), inner.inside_out()][n.below(2)].clone();
            [block(half).joined(&inner), inner.joined(&block(half))][n.below(2)].clone()
        },
    },
    Shells {
        name: "two that touch at a face, an edge or a corner",
        shells: 2,
        holes: 0,
        solid: |n| {
            let half = [0.0; 3].map(|_: f64| n.between(0.1, 5.0));
            let mut by = half.map(|x| 2.0 * x);
            by[1 + n.below(3)..].fill(0.0);
            block(half).joined(&block(half).moved(by))
        },
    },
    Shells {
        name: "two at one place",
        shells: 2,
        holes: 0,
        solid: |n| {
            let one = [any_box(n), any_log(n), pyramid(32, 1.0, 1.0)][n.below(3)].clone();
            one.joined(&one)
        },
    },
    Shells {
        name: "a torus",
        shells: 1,
        holes: 1,
        solid: |n| any_torus(16, n),
    },
    Shells {
        name: "one with two holes",
        shells: 1,
        holes: 2,
        solid: |n| any_torus(8, n).doubled(0),
    },
    Shells {
        name: "a torus beside a box",
        shells: 2,
        holes: 1,
        solid: |n| any_torus(14, n).joined(&any_box(n).moved([20.0, 0.0, 0.0])),
    },
    Shells {
        name: "two tori",
        shells: 2,
        holes: 2,
        solid: |n| any_torus(8, n).joined(&any_torus(8, n).moved([0.0, 20.0, 0.0])),
    },
    Shells {
        name: "two tori and a box",
        shells: 3,
        holes: 2,
        solid: |n| {
            let tori = any_torus(7, n).joined(&any_torus(7, n).moved([0.0, 20.0, 0.0]));
            tori.joined(&any_box(n).moved([20.0, 0.0, 0.0]))
        },
    },
];

fn any_torus(most_sides: usize, n: &mut Numbers) -> Solid {
    let sides = 3 + n.below(most_sides - 2);
    let outer = n.between(1.0, 5.0);
    torus(
        sides,
        [outer * n.between(0.2, 0.8), outer],
        n.between(0.2, 5.0),
    )
}
