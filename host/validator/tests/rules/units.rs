//! Units: which there are, and the limits that go with each.

use super::hull::{cube, tetrahedron};
use super::{above, below, HIGH, NORMAL, OFFSET, X};
use validator::transform_accepted;

const UNITS: [usize; 4] = [1, 10, 100, 1000];

/// "H1 also for an unknown unit", before everything else.
#[test]
fn which_there_are() {
    for unit in UNITS {
        assert_eq!(cube().in_unit(unit).answer(), 0, "{unit}");
        assert_eq!(tetrahedron().in_unit(unit).answer(), 0, "{unit}");
    }
    for unit in [
        0,
        2,
        5,
        9,
        11,
        99,
        101,
        999,
        1001,
        10_000,
        65_535,
        usize::MAX,
    ] {
        assert_eq!(cube().changed(|hull| hull.unit = unit), 1, "{unit}");
        let two = cube().changed(|hull| {
            hull.unit = unit;
            hull.numbers[0] = f32::NAN;
        });
        assert_eq!(two, 1, "{unit}");
    }
}

/// The same numbers in another unit: judged by that unit's limits.
#[test]
fn a_cube_of_other_units() {
    for unit in UNITS {
        assert_eq!(cube().changed(|hull| hull.unit = unit), 0, "{unit}");
    }
    // Its edges are 2 / 2048 long: long enough for 1 alone.
    let mut small = cube();
    small.numbers[..30].iter_mut().for_each(|x| *x /= 2048.0);
    for unit in UNITS {
        small.unit = unit;
        assert_eq!(small.answer(), if unit == 1 { 0 } else { 8 }, "{unit}");
    }
}

#[test]
fn ends_of_the_limits() {
    for unit in UNITS {
        let (cube, by) = (cube().in_unit(unit), unit as f32);
        assert_eq!(cube.with(HIGH, 4096.0 * by), 0, "{unit}");
        assert_eq!(cube.with(HIGH, above(4096.0 * by)), 8, "{unit}");
        assert_eq!(cube.with(HIGH - 3, -4096.0 * by), 0, "{unit}");
        assert_eq!(cube.with(HIGH - 3, -above(4096.0 * by)), 8, "{unit}");
        assert_eq!(cube.with(OFFSET, -8192.0 * by), 0, "{unit}");
        assert_eq!(cube.with(OFFSET, -above(8192.0 * by)), 8, "{unit}");
        let farthest = |x: f32| {
            cube.changed(|hull| {
                hull.numbers[HIGH] = 4096.0 * by;
                hull.numbers[X + 1] = x;
            })
        };
        assert_eq!(farthest(4096.0 * by), 0, "{unit}");
        assert_eq!(farthest(above(4096.0 * by)), 8, "{unit}");
        // Corners 6 and 7 differ in x alone.
        let apart = |to: f32| {
            cube.changed(|hull| {
                hull.numbers[X + 6] = 0.0;
                hull.numbers[X + 7] = to;
            })
        };
        assert_eq!(apart(by / 1024.0), 0, "{unit}");
        assert_eq!(apart(below(by / 1024.0)), 8, "{unit}");
        // A sum of squares is no length.
        assert_eq!(cube.with(NORMAL, 0.995), 0, "{unit}");
        assert_eq!(cube.with(NORMAL, -0.9949), 8, "{unit}");
        assert_eq!(cube.with(NORMAL, 1.005), 8, "{unit}");
    }
}

#[test]
fn positions() {
    for unit in UNITS {
        let far = 4096.0 * unit as f32;
        for axis in 0..3 {
            let at = |x: f32| {
                let mut position = [0.0; 3];
                position[axis] = x;
                transform_accepted(unit, position, [0.0, 0.0, 0.0, 1.0])
            };
            assert!(at(far) && at(-far), "{unit}");
            assert!(!at(above(far)) && !at(-above(far)), "{unit}");
        }
        assert!(!transform_accepted(unit, [0.0; 3], [0.0, 0.0, 0.0, 1.005]));
    }
}
