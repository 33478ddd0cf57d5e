//! Units that there are and that there are not; sizes about every limit of H1 and far beyond, with lists that fit them and lists
//! that do not.

use super::{any_shape, Total};
use cases::shapes::breaks::UNKNOWN_UNITS;
use cases::shapes::Shape;
use cases::Numbers;
use probes::{HullSize, Unit};

const VERTICES: [usize; 13] = [
    0,
    1,
    3,
    4,
    5,
    128,
    129,
    1 << 62,
    1 << 63,
    usize::MAX - 3,
    usize::MAX - 2,
    usize::MAX - 1,
    usize::MAX,
];
const HALF_EDGES: [usize; 16] = [
    0,
    2,
    10,
    11,
    12,
    13,
    255,
    256,
    257,
    258,
    (1 << 62) + 12,
    1 << 62,
    1 << 63,
    usize::MAX - 2,
    usize::MAX - 1,
    usize::MAX,
];
const FACES: [usize; 13] = [
    0,
    1,
    3,
    4,
    5,
    128,
    129,
    (1 << 62) + 4,
    1 << 62,
    1 << 63,
    usize::MAX - 2,
    usize::MAX - 1,
    usize::MAX,
];

/// No list here is longer.
const LONGEST: usize = 1 << 20;

pub fn run(total: &mut Total, n: &mut Numbers, count: usize) {
    total.sort("unknown units", |sort| {
        for i in 0..count {
            let mut shape = any_shape(n);
            let any = [n.word() as usize, n.below(2000)][n.below(2)];
            let unit = UNKNOWN_UNITS.get(i % 20).copied().unwrap_or(any);
            shape.size.unit = unit;
            let known = Unit::try_from(unit).is_ok();
            sort.compare(
                &shape.numbers,
                &shape.links,
                shape.size,
                (!known).then_some(1),
            );
        }
    });
    total.sort("a good hull's lists, other units", |sort| {
        for i in 0..count {
            let mut shape = any_shape(n);
            shape.size.unit = Unit::ALL[i % 4].per_metre();
            sort.hold(&shape);
        }
    });
    let numbers: Vec<f32> = (0..LONGEST).map(|_| n.fraction()).collect();
    let links: Vec<u8> = (0..LONGEST).map(|_| n.word() as u8 % 4).collect();
    total.sort("sizes about the limits", |sort| {
        for size in sizes() {
            sort.compare(&[], &[], size, Some(1));
            let (numbers_fit, links_fit) = lengths(size);
            for (a, b) in [
                (numbers_fit, links_fit),
                (numbers_fit.wrapping_add(1), links_fit),
                (numbers_fit.wrapping_sub(1), links_fit),
                (numbers_fit, links_fit.wrapping_add(1)),
                (numbers_fit, links_fit.wrapping_sub(1)),
                (0, links_fit),
                (numbers_fit, 0),
            ] {
                let (numbers, links) = (&numbers[..a.min(LONGEST)], &links[..b.min(LONGEST)]);
                sort.compare(numbers, links, size, None);
            }
        }
    });
    total.sort("lists far too long", |sort| {
        for size in sizes() {
            sort.compare(&numbers, &links, size, Some(1));
        }
    });
    total.sort("a good hull's lists, other sizes", |sort| {
        for _ in 0..count.div_ceil(500) {
            let shape = any_shape(n);
            for size in sizes().filter(|&size| size != shape.size) {
                sort.compare(&shape.numbers, &shape.links, size, None);
            }
        }
    });
    total.sort("one short and one long", |sort| {
        for _ in 0..count / 4 {
            let Shape {
                mut numbers,
                mut links,
                size,
            } = any_shape(n);
            sort.compare(&numbers[1..], &links, size, Some(1));
            sort.compare(&numbers, &links[1..], size, Some(1));
            sort.compare(&numbers[1..], &links[1..], size, Some(1));
            numbers.push(0.0);
            sort.compare(&numbers, &links, size, Some(1));
            links.push(0);
            sort.compare(&numbers, &links, size, Some(1));
            numbers.pop();
            sort.compare(&numbers, &links, size, Some(1));
        }
    });
}

/// The units take turns, those that there are and those that there are not.
fn sizes() -> impl Iterator<Item = HullSize> {
    let units = Unit::ALL.map(Unit::per_metre).into_iter();
    let mut units = units.chain(UNKNOWN_UNITS).cycle();
    let sizes = VERTICES.into_iter().flat_map(|vertices| {
        HALF_EDGES
            .into_iter()
            .flat_map(move |half_edges| FACES.map(|faces| [vertices, half_edges, faces]))
    });
    sizes.map(move |[vertices, half_edges, faces]| HullSize {
        unit: units.next().expect("it goes round"),
        vertices,
        half_edges,
        faces,
    })
}

/// The lengths that fit; with sizes far beyond the limits, those that come round to few.
fn lengths(size: HullSize) -> (usize, usize) {
    let lanes = size.vertices.wrapping_add(3) / 4 * 4;
    let planes = size.faces.wrapping_mul(4);
    let edges = size.half_edges.wrapping_mul(4);
    (
        lanes.wrapping_mul(3).wrapping_add(planes).wrapping_add(6),
        size.vertices.wrapping_add(edges).wrapping_add(size.faces),
    )
}
