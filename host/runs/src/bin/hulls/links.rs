//! Hulls with damaged links: every byte in turn, the known traps, and maps that are wholly made up.

use super::{any_shape, Total};
use cases::shapes::breaks::{shells, walks, Break};
use cases::shapes::kinds::COMPACT;
use cases::shapes::{Link, Padding, Shape};
use cases::Numbers;
use probes::{HullSize, Unit};

/// A name, the change, and the rule that it breaks.
const TRAPS: [(&str, Break, u8); 10] = [
    ("a ring that leads into itself", ring_cut_short, 4),
    ("a chain into another ring", walks::chain_across_rings, 5),
    ("a chain into its own ring", walks::chain_within_ring, 5),
    ("two rings in a face", walks::two_rings, 6),
    ("a ring of two", walks::ring_of_two, 6),
    (
        "stored edges of faces exchanged",
        walks::face_edges_exchanged,
        6,
    ),
    (
        "stored edges of vertices exchanged",
        walks::vertex_edges_exchanged,
        7,
    ),
    ("a vertex with two fans", walks::two_fans, 7),
    (
        "two shells that share a face's number",
        shells::shells_with_one_face,
        6,
    ),
    (
        "two shells that share a vertex's number",
        shells::shells_with_one_vertex,
        7,
    ),
];

pub fn run(total: &mut Total, n: &mut Numbers, count: usize) {
    total.sort("every byte of the links", |sort| {
        for i in 0..count.div_ceil(300) {
            let solid = COMPACT[i % COMPACT.len()].1(n);
            every_byte(&Shape::any(&solid, n), n, |shape| sort.hold(shape));
        }
    });
    for (name, trap, rule) in TRAPS {
        total.sort(name, |sort| {
            for _ in 0..count / 4 {
                let mut shape = any_shape(n);
                while !trap(&mut shape, n) {
                    shape = any_shape(n);
                }
                sort.expect(&shape, rule);
            }
        });
    }
    total.sort("two with the same next", |sort| {
        for _ in 0..count {
            let mut shape = any_shape(n);
            let (a, b) = (
                n.below(shape.size.half_edges),
                n.below(shape.size.half_edges),
            );
            shape.set(a, Link::Next, shape.get(b, Link::Next));
            sort.hold(&shape);
        }
    });
    total.sort("several links at random", |sort| {
        for _ in 0..count {
            let mut shape = any_shape(n);
            for _ in 0..1 + n.below(4) {
                let (to, from) = (n.below(shape.links.len()), n.below(shape.links.len()));
                shape.links[to] = shape.links[from];
            }
            sort.hold(&shape);
        }
    });
    total.sort("maps made up", |sort| {
        for _ in 0..count {
            let next = made_up(n);
            sort.hold(&of_rings(&next, n));
        }
    });
    total.sort("a good hull's rings, joined otherwise", |sort| {
        for _ in 0..count {
            let next = joined_otherwise(&any_shape(n), n);
            sort.hold(&of_rings(&next, n));
        }
    });
}

/// Each byte set to random values and to the ends of each range.
pub fn every_byte(shape: &Shape, n: &mut Numbers, mut hold: impl FnMut(&Shape)) {
    let HullSize {
        vertices: v,
        half_edges: h,
        faces: f,
        ..
    } = shape.size;
    let ends = [0, v - 1, v, h - 1, h, f - 1, f, 255].map(|end| end as u8);
    let mut shape = shape.clone();
    for place in 0..shape.links.len() {
        let kept = shape.links[place];
        for i in 0..ends.len() + 3 {
            shape.links[place] = ends.get(i).copied().unwrap_or(n.word() as u8);
            hold(&shape);
        }
        shape.links[place] = kept;
    }
}

/// The last half-edge of a ring leads to its second.
fn ring_cut_short(shape: &mut Shape, n: &mut Numbers) -> bool {
    let first = n.below(shape.size.half_edges);
    let second = shape.get(first, Link::Next);
    let mut last = second;
    while shape.get(last, Link::Next) != first {
        last = shape.get(last, Link::Next);
    }
    shape.set(last, Link::Next, second);
    true
}

/// The next of each half-edge: rings of random lengths over half-edges in random order.
fn made_up(n: &mut Numbers) -> Vec<usize> {
    let half_edges = 12 + 2 * n.below(123);
    let order = n.order(half_edges);
    let (shortest, spread) = (1 + n.below(4), 1 + n.below(8));
    let mut next = vec![0; half_edges];
    let mut rest = order.as_slice();
    while !rest.is_empty() {
        let length = (shortest + n.below(spread)).min(rest.len());
        let (ring, after) = rest.split_at(length);
        for (i, &edge) in ring.iter().enumerate() {
            next[edge] = ring[(i + 1) % length];
        }
        rest = after;
    }
    next
}

/// The next of each half-edge where some half-edges have changed places, so that they have other twins. Most such maps are one
/// piece with holes.
fn joined_otherwise(shape: &Shape, n: &mut Numbers) -> Vec<usize> {
    let half_edges = shape.size.half_edges;
    let mut next: Vec<usize> = (0..half_edges)
        .map(|edge| shape.get(edge, Link::Next))
        .collect();
    for _ in 0..1 + n.below(4) {
        let (a, b) = (n.below(half_edges), n.below(half_edges));
        next.swap(a, b);
        for edge in &mut next {
            *edge = match *edge {
                edge if edge == a => b,
                edge if edge == b => a,
                edge => edge,
            };
        }
    }
    next
}

/// The faces and vertices that such rings make: the rules up to H5, and H7, are kept where the sizes are within limits, H6
/// where no ring is too short, and H8 where no edge ends where it starts.
fn of_rings(next: &[usize], n: &mut Numbers) -> Shape {
    let half_edges = next.len();
    let (faces, face_edges) = cycles(half_edges, |edge| next[edge]);
    let (origins, vertex_edges) = cycles(half_edges, |edge| next[edge ^ 1]);

    let size = HullSize {
        unit: Unit::Metres.per_metre(),
        vertices: vertex_edges.len(),
        half_edges,
        faces: face_edges.len(),
    };
    let mut links = vertex_edges;
    for edge in 0..half_edges {
        links.extend([next[edge], edge ^ 1, origins[edge], faces[edge]]);
    }
    links.extend(face_edges);
    let lanes = size.vertices.next_multiple_of(4);
    let mut numbers = vec![0.0; 6];
    numbers.extend((0..3 * lanes).map(|_| n.fraction()));
    numbers.extend([0.0, 0.0, 1.0, 0.0].repeat(size.faces));
    let links = links.into_iter().map(|link| link as u8).collect();
    let mut shape = Shape {
        numbers,
        links,
        size,
    };
    shape.pad(Padding::Zeros);
    shape.fit_box();
    shape
}

/// The cycles of a step: the number of each half-edge's cycle, and one half-edge of each.
fn cycles(half_edges: usize, step: impl Fn(usize) -> usize) -> (Vec<usize>, Vec<usize>) {
    let mut cycle = vec![None; half_edges];
    let mut stored = vec![];
    for start in 0..half_edges {
        let mut edge = start;
        while cycle[edge].is_none() {
            cycle[edge] = Some(stored.len());
            edge = step(edge);
        }
        if cycle[start] == Some(stored.len()) {
            stored.push(start);
        }
    }
    (cycle.into_iter().flatten().collect(), stored)
}
