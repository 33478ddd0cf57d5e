//! How the times grow with the hulls, from a cube to the largest: judging a hull beside the second validator, and a call on two
//! that touch beside the Rust text, with a cache of type 0 and with that of the frame before. Every pair has hulls of its own,
//! numbered at random.

use super::calls::Both;
use super::chart::chart;
use super::{batches, timed_calls};
use cases::calls::{same_answers, Answer, Call};
use cases::pairs::{moved, placed};
use cases::shapes::kinds::{MOST_VERTICES, PYRAMIDS};
use cases::shapes::solids::{block, frustum, polygon, Solid};
use cases::shapes::Shape;
use cases::{convert, Numbers};
use oracle::hull::HullData;
use oracle::open::LocalManifold;
use records::{HullSize, SatCache, Transform, Unit, HULL_WORDS};

/// Of each kind.
const PAIRS: usize = 100;
const BATCHES: usize = 80;

/// How many calls are timed at a time.
const PART: usize = 20;

/// A frame's movement in metres and its turn in radians are at most this.
const STEP: f32 = 3e-4;

/// The sides of the prisms; the last are the most that there are.
const SIDES: [usize; 7] = [6, 12, 18, 24, 30, 36, 42];

/// What came of a kind.
pub struct Row {
    pub what: String,
    pub size: HullSize,
    /// Whether it is one of the prisms, cubes among them, which a line joins.
    pub prism: bool,
    /// Nanoseconds, ours and the Rust's: judging a hull, a call with a cache of type 0, a warm one.
    pub times: [[f64; 2]; 3],
}

/// Prints the rows, and draws them where a file is named.
pub fn run(file: Option<&str>, n: &mut Numbers) {
    let cube =
        |_: usize, n: &mut Numbers| block([0.5; 3].map(|half: f64| half * n.between(0.5, 2.0)));
    let prism = |sides: usize, n: &mut Numbers| {
        let radius = n.between(0.5, 2.0);
        frustum(&polygon(sides, radius), 1.0, n.between(1.0, 4.0))
    };
    let vertices = |_: usize, n: &mut Numbers| MOST_VERTICES.1(n.between(0.5, 2.0), n);
    let pyramid = |_: usize, n: &mut Numbers| PYRAMIDS.1(n.between(0.5, 2.0), n);
    println!(
        "growth, {PAIRS} pairs of each kind that touch; ns, least of {} batches by parts, and the ratio to the Rust",
        batches(BATCHES)
    );
    println!(
        "  {:<18} {:>3} {:>4} {:>3}  {:>6}  {:>8} {:>6}  {:>9} {:>6}  {:>8} {:>6}",
        "hulls", "V", "H", "F", "bytes", "judging", "ratio", "type 0", "ratio", "warm", "ratio"
    );
    let mut rows = vec![row("cubes".into(), true, 0, cube, n)];
    for sides in SIDES {
        rows.push(row(format!("{sides}-sided prisms"), true, sides, prism, n));
    }
    rows.push(row("64-gon pyramids".into(), false, 0, pyramid, n));
    rows.push(row("most vertices".into(), false, 0, vertices, n));
    if let Some(file) = file {
        std::fs::write(file, chart(&rows)).unwrap_or_else(|error| panic!("{file}: {error}"));
        println!("  drawn: {file}");
    }
}

/// Two hulls that touch, in the records of both sides, and two frames of them.
struct Touching {
    a: Shape,
    b: Shape,
    theirs: [HullData; 2],
    cold: Transform,
    warm: Transform,
    cache: SatCache,
}

impl Touching {
    /// Drawn anew until there are points, and the axis serves the next frame.
    fn any(sides: usize, solid: impl Fn(usize, &mut Numbers) -> Solid, n: &mut Numbers) -> Self {
        loop {
            let mut shape = || Shape::any(&solid(sides, n), n);
            let (a, b) = (shape(), shape());
            let pair = placed(a, b, n);
            let cold = convert::our_transform(pair.transform);
            let next = moved(pair.transform, STEP, Unit::Metres, n);
            let mut touching = Touching {
                theirs: [&pair.a, &pair.b].map(convert::hull),
                a: pair.a,
                b: pair.b,
                cold,
                warm: convert::our_transform(next),
                cache: SatCache::EMPTY,
            };
            let found = touching.answer(false);
            touching.cache = found.cache;
            let served = touching.answer(true);
            let points = [found, served].map(|answer| answer.outcome.points().len());
            if points.iter().all(|&points| points > 0) && served.cache.hit() {
                return touching;
            }
        }
    }

    fn call(&self, warm: bool) -> Call<'_> {
        Call {
            capacity: 4,
            a: self.a.lent(),
            b: self.b.lent(),
            transform: if warm { self.warm } else { self.cold },
            cache: if warm { self.cache } else { SatCache::EMPTY },
        }
    }

    /// The text's. Panics where ours differs.
    fn answer(&self, warm: bool) -> Answer {
        let call = self.call(warm);
        let (answer, wanted) = (runs::ours(&call), call.wanted_once());
        assert!(same_answers(&answer, &wanted), "{answer:?}, {wanted:?}");
        wanted
    }

    fn both(&self, warm: bool) -> Both<'_> {
        let [a, b] = &self.theirs;
        Both::new(self.call(warm), a, b)
    }
}

fn row(
    what: String,
    prism: bool,
    sides: usize,
    solid: impl Fn(usize, &mut Numbers) -> Solid,
    n: &mut Numbers,
) -> Row {
    let pairs: Vec<Touching> = (0..PAIRS)
        .map(|_| Touching::any(sides, &solid, n))
        .collect();
    let shapes: Vec<&Shape> = pairs.iter().flat_map(|pair| [&pair.a, &pair.b]).collect();
    let rule_0 = |rule: u8| usize::from(rule == 0);
    let judging = in_turn(
        &shapes,
        [
            &mut |shape| rule_0(runs::broken_rule(shape.lent())),
            &mut |shape| rule_0(cases::shapes::broken_rule(shape.lent())),
        ],
    );
    let [cold, warm] = [false, true].map(|warm| {
        let calls: Vec<Both> = pairs.iter().map(|pair| pair.both(warm)).collect();
        let mut manifold = LocalManifold::default();
        in_turn(
            &calls,
            [&mut |call| call.ours(), &mut |call| {
                call.theirs(&mut manifold)
            }],
        )
    });
    let size = shapes[0].size;
    let numbers = size.numbers().expect("a hull is small");
    let bytes = 4 * numbers + size.links().expect("a hull is small") + 4 * HULL_WORDS + 1;
    let row = Row {
        what,
        size,
        prism,
        times: [judging, cold, warm],
    };
    let [judging, cold, warm] = row.times.map(|[ours, theirs]| (ours, ours / theirs));
    println!(
        "  {:<18} {:>3} {:>4} {:>3}  {bytes:>6}  {:>8.0} {:>6.2}  {:>9.0} {:>6.2}  {:>8.0} {:>6.2}",
        row.what,
        size.vertices,
        size.half_edges,
        size.faces,
        judging.0,
        judging.1,
        cold.0,
        cold.1,
        warm.0,
        warm.1
    );
    row
}

/// Nanoseconds a call on all of them in turn, by each way: the sum of the least times of parts of the list, since a batch of all is
/// too long to be left alone by what else the machine does. Panics where the ways do not come to the same sum.
fn in_turn<T>(items: &[T], mut ways: [&mut dyn FnMut(&T) -> usize; 2]) -> [f64; 2] {
    let mut least = vec![[f64::MAX; 2]; items.len().div_ceil(PART)];
    let mut sums = [0; 2];
    for _ in 0..batches(BATCHES) {
        for (number, way) in ways.iter_mut().enumerate() {
            for (part, least) in items.chunks(PART).zip(&mut least) {
                let (time, sum) = timed_calls(part.len(), part, &mut **way);
                least[number] = least[number].min(time * part.len() as f64);
                sums[number] += sum;
            }
        }
    }
    assert_eq!(sums[0], sums[1]);
    let sum = |way: usize| least.iter().map(|part| part[way]).sum::<f64>();
    [0, 1].map(|way| sum(way) / items.len() as f64)
}
