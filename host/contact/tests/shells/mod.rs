//! Solids with a hole through them, and two solids made one.

use cases::shapes::solids::Solid;

/// V 16, H 64, F 16: a square with a square hole, whose walls are faces 0 to 3 outside and 4 to 7 inside.
pub fn square_ring() -> Solid {
    let square = [[-1.0, -1.0], [1.0, -1.0], [1.0, 1.0], [-1.0, 1.0]];
    let raised = |size: f64, z: f64| square.map(|[x, y]| [size * x, size * y, z]);
    let corners = [
        raised(2.0, 0.0),
        raised(1.0, 0.0),
        raised(2.0, 1.0),
        raised(1.0, 1.0),
    ];
    // Sides i to j of the four squares, each by its first number.
    let walls =
        |wall: fn(usize, usize) -> [usize; 4]| (0..4).map(move |i| wall(i, (i + 1) % 4).to_vec());
    let outside = walls(|i, j| [i, j, 8 + j, 8 + i]);
    let inside = walls(|i, j| [4 + j, 4 + i, 12 + i, 12 + j]);
    let above = walls(|i, j| [8 + i, 8 + j, 12 + j, 12 + i]);
    let below = walls(|i, j| [j, i, 4 + i, 4 + j]);
    Solid {
        corners: corners.concat(),
        faces: outside.chain(inside).chain(above).chain(below).collect(),
    }
}

/// Two solids with a face of each at one place: it is taken out, and its corners become the first one's.
pub fn grown_together(first: &Solid, face: usize, second: &Solid, other: usize) -> Solid {
    let mut both = first.clone();
    let common = both.faces.remove(face);
    let mut numbers = Vec::new();
    for corner in &second.corners {
        let same = common
            .iter()
            .find(|&&number| first.corners[number] == *corner);
        numbers.push(same.copied().unwrap_or(both.corners.len()));
        if same.is_none() {
            both.corners.push(*corner);
        }
    }
    let rings = second.faces.iter().enumerate();
    for (_, ring) in rings.filter(|&(number, _)| number != other) {
        both.faces
            .push(ring.iter().map(|&corner| numbers[corner]).collect());
    }
    both
}
