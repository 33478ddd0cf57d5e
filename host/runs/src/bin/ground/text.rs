//! Lanes, pairs and limits beside the Rust text.

use super::*;
use cases::shapes::breaks::UNKNOWN_UNITS;
use oracle::open;
use probes::{FeaturePair, FloatW, Unit};

/// Numbers take the low seven bits.
const BITS: i32 = 7;

fn hold(tally: &mut Tally, name: &str, input: &dyn Debug, a: FloatW, b: open::FloatW) {
    let equal = same(a.x, b.x) && same(a.y, b.y) && same(a.z, b.z) && same(a.w, b.w);
    tally.compare(equal, || format!("{name} of {input:?}: {a:?}, {b:?}"));
}

fn read(v: FloatW) -> open::FloatW {
    open::FloatW {
        x: v.x,
        y: v.y,
        z: v.z,
        w: v.w,
    }
}

/// Four finite lanes; often equal, so that the embedded numbers decide.
fn finite(n: &mut Numbers) -> FloatW {
    let x = n.finite();
    if n.below(3) == 0 {
        return FloatW {
            x,
            y: x,
            z: x,
            w: x,
        };
    }
    let (y, z, w) = (n.finite(), n.finite(), n.finite());
    FloatW { x, y, z, w }
}

pub fn lanes(n: &mut Numbers, count: u64) -> Tally {
    let mut t = Tally::default();
    for _ in 0..count {
        let (v, u) = (finite(n), finite(n));
        let base = n.below(125) as u32;
        let ours = probes::embed_index_w(v, base);
        let theirs = open::embed_index_w(read(v), base as i32, BITS);
        hold(&mut t, "embed_index_w", &(v, base), ours, theirs);

        let least = probes::min_w(ours, u);
        hold(
            &mut t,
            "min_w",
            &(ours, u),
            least,
            open::min_w(theirs, read(u)),
        );

        for lanes in [ours, least] {
            let index = probes::min_index_w(lanes);
            let text_index = open::min_index_w(read(lanes), BITS) as u32;
            t.compare(index == text_index, || {
                format!("min_index_w of {lanes:?}: {index}, {text_index}")
            });
        }

        let (a, b) = (finite(n), finite(n));
        let theirs = open::min_w(read(a), read(b));
        hold(&mut t, "min_w", &(a, b), probes::min_w(a, b), theirs);
    }
    t
}

/// Every index with owners 0 and 1 beside the text; with an owner above 1, refusal 8 and four zeros.
pub fn pairs() -> Tally {
    let mut t = Tally::default();
    for indices in 0..=u16::MAX {
        let [index1, index2] = indices.to_be_bytes();
        let (a, b) = (open::FeatureOwner::ShapeA, open::FeatureOwner::ShapeB);
        let want = open::make_feature_pair(a, index1.into(), b, index2.into());
        let made = four(probes::edge_pair(index1, index2));
        t.compare(made == text_four(want), || {
            format!("make_feature_pair of {index1}, {index2}: {made:?}, {want:?}")
        });
        for owner1 in [0, 1, 2, 3, 128, 255] {
            for owner2 in [0, 1, 2, 255] {
                flip(&mut t, [owner1, index1, owner2, index2]);
            }
        }
    }
    t
}

fn flip(t: &mut Tally, [owner1, index1, owner2, index2]: [u8; 4]) {
    let flipped = probes::flip_pair(FeaturePair {
        owner1,
        index1,
        owner2,
        index2,
    });
    let (status, want) = if owner1 <= 1 && owner2 <= 1 {
        let flipped = open::flip_pair(open::FeaturePair {
            owner1,
            index1,
            owner2,
            index2,
        });
        (0, text_four(flipped))
    } else {
        (8, [0; 4])
    };
    t.compare(
        flipped.status == status && four(flipped.pair) == want,
        || {
            format!(
                "flip of {owner1}, {index1}, {owner2}, {index2}: {flipped:?}, {status} {want:?}"
            )
        },
    );
}

fn four(p: FeaturePair) -> [u8; 4] {
    [p.owner1, p.index1, p.owner2, p.index2]
}

fn text_four(p: open::FeaturePair) -> [u8; 4] {
    [p.owner1, p.index1, p.owner2, p.index2]
}

/// In each unit; a number that is none acts as 1.
pub fn limits() -> Tally {
    let mut t = Tally::default();
    for unit in Unit::ALL {
        hold_limits(&mut t, unit.per_metre(), unit);
    }
    for unknown in UNKNOWN_UNITS {
        hold_limits(&mut t, unknown, Unit::Metres);
    }
    t
}

/// The lengths of this number beside the text's in a unit, and beside documents 01's limits times the unit.
fn hold_limits(t: &mut Tally, number: usize, unit: Unit) {
    use oracle::constants::{huge, linear_slop, speculative_distance};
    use oracle::core::{get_length_units_per_meter, with_length_units};
    let ours = probes::limits(number);
    let times = |limit: f64| (limit * unit.per_metre() as f64) as f32;
    let [slop, speculative, huge, units] = with_length_units(unit.scale(), || {
        [
            linear_slop(),
            speculative_distance(),
            huge(),
            get_length_units_per_meter(),
        ]
    });
    let rows = [
        ("linear_slop", ours.slop, slop),
        ("speculative_distance", ours.speculative, speculative),
        ("huge", ours.huge, huge),
        ("get_length_units_per_meter", ours.units, units),
        ("4096", ours.coordinate, times(4096.0)),
        ("8192", ours.offset, times(8192.0)),
        ("1/1024", ours.edge, times(1.0 / 1024.0)),
    ];
    hold_numbers(t, &number, &rows);
}
