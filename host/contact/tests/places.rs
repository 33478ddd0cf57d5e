//! The place that breaks a rule: found in every hull that the library says breaks one, and told as it is.

use cases::shapes::breaks::{break_rule, RULES};
use cases::shapes::kinds::COMPACT;
use cases::shapes::solids::{block, frustum, polygon, Solid};
use cases::shapes::{Link, Shape};
use cases::Numbers;
use contact::{Hull, HullSize, Rule};
use shells::{grown_together, square_ring};

mod shells;

fn cube() -> Shape {
    Shape::new(&block([1.0; 3]))
}

/// What is said of a shape that breaks this rule.
fn place(shape: &Shape, rule: Rule) -> String {
    let broken = Hull::from(shape.lent()).broken().expect("it is broken");
    assert_eq!(broken.rule, rule, "{broken}");
    broken.place
}

/// Every break of every rule, on hulls of every kind: a place is found each time, since what is said where none is found
/// is the rule's own sentence.
#[test]
fn every_rule_has_its_place() {
    let mut n = Numbers::new(1);
    assert_eq!(Rule::ALL.len(), usize::from(RULES));
    for rule in Rule::ALL {
        for (_, make) in COMPACT.into_iter().cycle().take(1400) {
            let mut shape = Shape::any(&make(&mut n), &mut n);
            assert_eq!(Hull::from(shape.lent()).broken(), None);
            break_rule(rule.number(), &mut shape, &mut n);
            assert_ne!(place(&shape, rule), rule.meaning());
        }
    }
}

/// One change of a cube, and what is said of it.
#[test]
fn places() {
    type Change = fn(&mut Shape);
    let changes: [(Rule, Change, &str); 21] = [
        (
            Rule::Sizes,
            |s| s.size.unit = 50,
            "the unit is 50 per metre, not 1, 10, 100 or 1000",
        ),
        (
            Rule::Sizes,
            |s| s.size.vertices = 3,
            "there are 3 vertices, not 4 to 128",
        ),
        (
            Rule::Sizes,
            |s| s.size.faces = 129,
            "there are 129 faces, not 4 to 128",
        ),
        (
            Rule::Sizes,
            |s| s.size.half_edges = 258,
            "there are 258 half-edges, not an even number from 12 to 256",
        ),
        (
            Rule::Sizes,
            |s| s.numbers.truncate(53),
            "there are 53 numbers, and the sizes ask for 54",
        ),
        (
            Rule::Sizes,
            |s| s.links.push(0),
            "there are 111 links, and the sizes ask for 110",
        ),
        (
            Rule::Ranges,
            |s| s.links[7] = 24,
            "the stored edge of vertex 7 is 24, and there are 24",
        ),
        (
            Rule::Ranges,
            |s| s.set(3, Link::Origin, 8),
            "the origin of half-edge 3 is 8, and there are 8",
        ),
        (
            Rule::Ranges,
            |s| s.links[109] = 255,
            "the stored edge of face 5 is 255, and there are 24",
        ),
        (
            Rule::Twins,
            |s| s.set(6, Link::Twin, 8),
            "the twin of half-edge 6 is 8, and not 7",
        ),
        (
            Rule::Nexts,
            |s| s.set(0, Link::Next, 8),
            "half-edge 0 has face 0, and its next, 8, has face 1",
        ),
        (
            Rule::Nexts,
            |s| s.set(0, Link::Next, 4),
            "half-edge 0 ends at vertex 4, and its next, 4, starts at vertex 6",
        ),
        (
            Rule::Rings,
            |s| s.links[104] = 8,
            "the stored edge of face 0, half-edge 8, has face 1",
        ),
        (
            Rule::Fans,
            |s| s.links[0] = 2,
            "the stored edge of vertex 0, half-edge 2, starts at vertex 4",
        ),
        (
            Rule::Numbers,
            |s| s.numbers[1] = f32::NAN,
            "the box has y low = NaN, not within 4096 m",
        ),
        (
            Rule::Numbers,
            |s| s.numbers[6] = f32::INFINITY,
            "vertex 0 has x = inf, not within 4096 m",
        ),
        (
            Rule::Numbers,
            |s| s.numbers[13] = 1.5,
            "vertex 7 has x = 1.5, outside the box, -1.0 to 1.0",
        ),
        (
            Rule::Numbers,
            |s| s.numbers[33] = -8192.001,
            "face 0 has offset -8192.001, not within 8192 m",
        ),
        (
            Rule::Numbers,
            |s| s.numbers[34] = 0.9,
            "face 1 has a normal whose squares sum to 0.80999994, not 0.99 to 1.01",
        ),
        (
            Rule::Numbers,
            |s| {
                for (place, to) in [(6, 0.0), (10, 0.0), (14, 0.0), (18, 0.0), (22, 0.0)] {
                    s.numbers[place] = to;
                }
                s.numbers[26] = 0.000_976_562_4;
            },
            "half-edge 0, from vertex 0 to vertex 4, is shorter than 0.0009765625 m on every axis",
        ),
        (
            Rule::Numbers,
            |s| s.numbers[0] = -4096.001,
            "the box has x low = -4096.001, not within 4096 m",
        ),
    ];
    for (rule, change, words) in changes {
        let mut shape = cube();
        change(&mut shape);
        assert_eq!(place(&shape, rule), words);
    }
}

/// Document 02's hulls of two shells and with a hole, and some more; two boxes that are grown together are good.
#[test]
fn one_shell() {
    let says = |solid: &Solid| place(&Shape::new(solid), Rule::Shell);
    let (cube, ring) = (block([1.0; 3]), square_ring());
    let beside = |x: f64| block([1.0; 3]).moved([x, 0.0, 0.0]);
    let missed = |edge| format!("two shells: half-edge {edge} cannot be reached from half-edge 0");
    let two = cube.joined(&beside(50.0));
    assert_eq!(says(&two), missed(24));
    assert_eq!(says(&cube.joined(&cube)), missed(24));
    assert_eq!(says(&cube.joined(&ring)), missed(24));
    let prism = frustum(&polygon(6, 1.0), 1.0, 1.0);
    assert_eq!(says(&prism.joined(&beside(50.0))), missed(36));
    assert_eq!(
        says(&two.joined(&beside(100.0))),
        "3 shells: half-edge 24 cannot be reached from half-edge 0"
    );

    assert_eq!(
        says(&ring),
        "V - H/2 + F is 16 - 32 + 16 = 0, not 2: the shell has a hole through it"
    );
    let rings = grown_together(&ring, 1, &square_ring().moved([4.0, 0.0, 0.0]), 3);
    assert_eq!(
        says(&rings),
        "V - H/2 + F is 28 - 60 + 30 = -2, not 2: the shell has 2 holes through it"
    );

    let long = Shape::new(&grown_together(&cube, 1, &beside(2.0), 0));
    let HullSize {
        vertices,
        half_edges,
        faces,
        ..
    } = long.size;
    assert_eq!((vertices, half_edges, faces), (12, 40, 10));
    assert_eq!(Hull::from(long.lent()).broken(), None);
}

/// However the half-edges are numbered, the first that half-edge 0 does not reach is told.
#[test]
fn mixed_shells() {
    let mut n = Numbers::new(2);
    let two = block([1.0; 3]).joined(&block([1.0; 3]).moved([50.0, 0.0, 0.0]));
    let mut told = std::collections::HashSet::new();
    for _ in 0..200 {
        let shape = Shape::any(&two, &mut n);
        let is_far = |edge| shape.vertex(shape.get(edge, Link::Origin))[0] > 25.0;
        let missed = (0..48).find(|&edge| is_far(edge) != is_far(0));
        let missed = missed.expect("a half-edge of the other cube");
        let words = format!("two shells: half-edge {missed} cannot be reached from half-edge 0");
        assert_eq!(place(&shape, Rule::Shell), words);
        told.insert(missed);
    }
    assert!(told.len() > 3, "{told:?}");
}

/// The lanes behind the vertices are told as padding.
#[test]
fn padding() {
    let wedge = COMPACT.into_iter().find(|(name, _)| *name == "wedges");
    let (_, make) = wedge.expect("wedges");
    let mut shape = Shape::new(&make(&mut Numbers::new(1)));
    assert_eq!(shape.size.vertices, 6);
    let lane = shape.coordinate(2, 7);
    shape.numbers[lane] = 5000.0;
    assert_eq!(
        place(&shape, Rule::Numbers),
        "padding lane 7 has z = 5000.0, not within 4096 m"
    );
}
