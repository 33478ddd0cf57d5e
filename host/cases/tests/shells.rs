//! Solids of several shells or with a hole break H9 alone, and a break of a rule keeps every rule before its own.

use cases::shapes::breaks::{break_rule, shells, Break, RULES};
use cases::shapes::kinds::{COMPACT, SHELLS};
use cases::shapes::solids::{block, torus, Solid};
use cases::shapes::{Link, Shape};
use cases::Numbers;
use records::HullSize;

/// V - H/2 + F.
fn euler(shape: &Shape) -> i32 {
    let HullSize {
        vertices,
        half_edges,
        faces,
        ..
    } = shape.size;
    (vertices + faces) as i32 - half_edges as i32 / 2
}

/// How many pieces there are whose faces are joined by common corners.
fn pieces(solid: &Solid) -> usize {
    let mut piece: Vec<usize> = (0..solid.corners.len()).collect();
    for ring in &solid.faces {
        let joined: Vec<usize> = ring.iter().map(|&corner| piece[corner]).collect();
        for one in &mut piece {
            if joined.contains(one) {
                *one = joined[0];
            }
        }
    }
    piece.sort();
    piece.dedup();
    piece.len()
}

/// Whether half-edge 0 leads to every other one.
fn in_one_piece(shape: &Shape) -> bool {
    let mut reached = vec![false; shape.size.half_edges];
    reached[0] = true;
    // One more is reached each time, or no more are.
    for _ in 0..shape.size.half_edges {
        for edge in 0..shape.size.half_edges {
            if reached[edge] {
                reached[shape.get(edge, Link::Next)] = true;
                reached[shape.get(edge, Link::Twin)] = true;
            }
        }
    }
    reached.iter().all(|&reached| reached)
}

#[test]
fn a_square_ring() {
    let ring = torus(4, [1.0, 2.0], 1.0);
    let shape = Shape::new(&ring);
    let HullSize {
        vertices,
        half_edges,
        faces,
        ..
    } = shape.size;
    assert_eq!((vertices, half_edges, faces), (16, 64, 16));
    assert_eq!((euler(&shape), shape.broken_rule()), (0, 9));
    let beside = Shape::new(&block([1.0; 3]).joined(&ring.moved([9.0, 0.0, 0.0])));
    assert_eq!((euler(&beside), beside.broken_rule()), (2, 9));
}

/// Wherever they lie and however they are numbered; their shells and holes are as many as is said.
#[test]
fn shells_break_the_ninth_rule() {
    let mut n = Numbers::new(11);
    for kind in SHELLS {
        for _ in 0..200 {
            let solid = (kind.solid)(&mut n).placed(1000.0, &mut n);
            assert_eq!(pieces(&solid), kind.shells, "{}", kind.name);
            let shape = Shape::any(&solid, &mut n);
            assert_eq!(shape.broken_rule(), 9, "{}", kind.name);
            let wanted = 2 * kind.shells as i32 - 2 * kind.holes as i32;
            assert_eq!(euler(&shape), wanted, "{}", kind.name);
        }
        let far = (kind.solid)(&mut n).stretched([0.1; 3]).far(&mut n);
        assert_eq!(Shape::any(&far, &mut n).broken_rule(), 9, "{}", kind.name);
    }
}

/// In any unit.
fn any_shape(n: &mut Numbers) -> Shape {
    let (_, solid) = COMPACT[n.below(COMPACT.len())];
    let unit = n.unit();
    Shape::any(&solid(n).placed(10.0, n), n).in_unit(unit)
}

#[test]
fn breaks_have_known_answers() {
    let mut numbers = Numbers::new(12);
    let n = &mut numbers;
    for first in 1..=RULES {
        for _ in 0..1000 {
            let mut shape = any_shape(n);
            break_rule(first, &mut shape, n);
            assert_eq!(shape.broken_rule(), first);
        }
        for second in first + 1..=RULES {
            for _ in 0..200 {
                let mut shape = any_shape(n);
                break_rule(second, &mut shape, n);
                break_rule(first, &mut shape, n);
                assert_eq!(shape.broken_rule(), first, "beside H{second}");
            }
        }
    }
}

/// One piece with a hole, two pieces with Euler's number 2, and both at once.
#[test]
fn the_ninth_rule_is_broken_every_way() {
    let mut numbers = Numbers::new(13);
    let n = &mut numbers;
    let mut met = [0; 3];
    for _ in 0..1000 {
        let mut shape = any_shape(n);
        break_rule(9, &mut shape, n);
        match (in_one_piece(&shape), euler(&shape) == 2) {
            (true, true) => panic!("one shell: {shape:?}"),
            (true, false) => met[0] += 1,
            (false, true) => met[1] += 1,
            (false, false) => met[2] += 1,
        }
    }
    assert!(met.iter().all(|&met| met > 50), "{met:?}");
}

/// Two shells that share the number of a vertex or of a face are refused by the rules that spoke of it before H9.
#[test]
fn a_number_shared_by_two_shells() {
    let mut numbers = Numbers::new(14);
    let n = &mut numbers;
    let sharing: [(Break, u8); 2] = [
        (shells::shells_with_one_face, 6),
        (shells::shells_with_one_vertex, 7),
    ];
    for (share, rule) in sharing {
        let mut met = 0;
        for _ in 0..500 {
            let mut shape = any_shape(n);
            if share(&mut shape, n) {
                assert_eq!(shape.broken_rule(), rule);
                met += 1;
            }
        }
        assert!(met > 250, "{met}");
    }
}
