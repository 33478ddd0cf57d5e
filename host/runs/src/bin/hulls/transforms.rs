//! The rule of a transform in both validators, in each unit: ends of each limit, special values, anything.

use super::floats::{ends_of_sums, with_sum};
use cases::shapes::breaks::UNKNOWN_UNITS;
use cases::sorts::about;
use cases::{Numbers, Tally, SPECIAL};
use probes::{Quat, Transform, Unit, Vec3};

/// Ten comparisons for each of `count`, beside every special value at every place.
pub fn compare(n: &mut Numbers, count: usize) -> Tally {
    let mut tally = Tally::default();
    let t = &mut tally;
    for i in 0..count {
        let unit = Unit::ALL[i % 4];
        let number = unit.per_metre();
        let position = [0.0; 3].map(|_: f32| n.fraction() * unit.farthest());
        for (sum, accepted) in ends_of_sums() {
            hold(t, number, position, with_sum(sum, n), Some(accepted));
        }
        let limit = unit.farthest();
        for (x, accepted) in [(limit, true), (limit.next_up(), false)] {
            let mut position = position;
            position[n.below(3)] = [x, -x][n.below(2)];
            hold(t, number, position, with_sum(1.0, n), Some(accepted));
        }
        let position = [0.0; 3].map(|_: f32| n.float());
        hold(t, number, position, with_sum(1.0, n), None);
        hold(t, number, position, [0.0; 4].map(|_: f32| n.float()), None);
    }
    let limits = Unit::ALL.map(Unit::farthest).into_iter();
    let ends = limits.chain([0.99, 1.01]).flat_map(about);
    let specials: Vec<f32> = SPECIAL.into_iter().chain(ends).collect();
    let units = Unit::ALL.map(Unit::per_metre).into_iter();
    for number in units.chain(UNKNOWN_UNITS) {
        for x in specials.iter().flat_map(|&x| [x, -x]) {
            for place in 0..7 {
                let mut seven = [0.0, 0.0, 0.0, 0.0, 0.0, 0.0, 1.0];
                seven[place] = x;
                let [px, py, pz, qx, qy, qz, qw] = seven;
                hold(t, number, [px, py, pz], [qx, qy, qz, qw], None);
            }
        }
    }
    tally
}

/// By the unit of this number; one that is none acts as 1.
fn hold(
    tally: &mut Tally,
    number: usize,
    position: [f32; 3],
    quaternion: [f32; 4],
    known: Option<bool>,
) {
    let unit = Unit::try_from(number).unwrap_or_default();
    let theirs = validator::transform_accepted(unit.per_metre(), position, quaternion);
    let ([px, py, pz], [x, y, z, s]) = (position, quaternion);
    let transform = Transform {
        p: Vec3 {
            x: px,
            y: py,
            z: pz,
        },
        q: Quat {
            v: Vec3 { x, y, z },
            s,
        },
    };
    let ours = probes::transform_accepted(number, transform);
    let equal = ours == theirs && known.is_none_or(|accepted| accepted == theirs);
    tally.compare(equal, || {
        format!(
            "{position:?} {quaternion:?} in unit {number}: ours {ours}, the second {theirs}, known {known:?}"
        )
    });
}
