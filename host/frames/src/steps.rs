//! Steps, many pairs of many hulls in one call, held to a second writing of what a step does, in plain Rust: the hulls judged by
//! the second validator, the work done by the Rust text. Series `s` of a seed depends on these two numbers alone.

use crate::held::Verdict;
use crate::library::Library;
use cases::Numbers;
use met::Met;
use records::{Step, CACHE_WORDS, HULL_WORDS, PAIR_BYTES, PAIR_FLOATS, PAIR_WORDS};
use room::Room;

pub mod any;
mod met;
pub(crate) mod room;
pub mod wanted;

/// The lists that a step is lent; the last four are written.
pub struct Lent<'a> {
    pub numbers: &'a [f32],
    pub links: &'a [u8],
    pub hulls: &'a [u32],
    pub pairs: &'a [u32],
    pub transforms: &'a [f32],
    pub judged: &'a mut [u8],
    pub caches: &'a mut [u32],
    pub floats: &'a mut [f32],
    pub bytes: &'a mut [u8],
}

/// The same lists, owned.
#[derive(Debug, Clone, Default)]
pub struct Lists {
    pub numbers: Vec<f32>,
    pub links: Vec<u8>,
    pub hulls: Vec<u32>,
    pub pairs: Vec<u32>,
    pub transforms: Vec<f32>,
    pub judged: Vec<u8>,
    pub caches: Vec<u32>,
    pub floats: Vec<f32>,
    pub bytes: Vec<u8>,
}

impl Lists {
    /// How many hulls and how many pairs there are: what is less than a whole one at the end is none.
    pub fn counts(&self) -> (usize, usize) {
        (self.hulls.len() / HULL_WORDS, self.pairs.len() / PAIR_WORDS)
    }

    pub fn lend(&mut self) -> Lent<'_> {
        Lent {
            numbers: &self.numbers,
            links: &self.links,
            hulls: &self.hulls,
            pairs: &self.pairs,
            transforms: &self.transforms,
            judged: &mut self.judged,
            caches: &mut self.caches,
            floats: &mut self.floats,
            bytes: &mut self.bytes,
        }
    }
}

impl Lent<'_> {
    pub fn owned(&self) -> Lists {
        Lists {
            numbers: self.numbers.to_vec(),
            links: self.links.to_vec(),
            hulls: self.hulls.to_vec(),
            pairs: self.pairs.to_vec(),
            transforms: self.transforms.to_vec(),
            judged: self.judged.to_vec(),
            caches: self.caches.to_vec(),
            floats: self.floats.to_vec(),
            bytes: self.bytes.to_vec(),
        }
    }
}

/// How many differences are shown.
const SHOWN: u64 = 5;

/// So many steps in series: of each series the hulls and pairs stay, and the caches are carried from step to step.
pub fn run(seed: u64, count: usize, library: &mut impl Library) -> Verdict {
    let start = std::time::Instant::now();
    let base = Numbers::new(seed).word();
    let (mut met, mut different) = (Met::default(), 0);
    let mut steps = 0;
    for series in 0.. {
        if steps == count {
            break;
        }
        let mut numbers = Numbers::new(base.wrapping_sub(series));
        let n = &mut numbers;
        let (mut lists, unit) = any::lists(n);
        for step in 0..(1 + n.below(4)).min(count - steps) {
            let given = any::perhaps_short(&lists, n);
            let wanted = wanted::of(&given);
            let (came, after) = Room::new(&given).ask(&given, library);
            met.add(&given, &wanted, step > 0);
            steps += 1;
            if let Some(what) = differs(&given, &wanted, &came, &after) {
                different += 1;
                if different <= SHOWN {
                    eprintln!(
                        "different: a step of seed {seed}, series {series}, step {step}: {what}"
                    );
                }
            }
            if wanted.step.status == 0 {
                lists = after;
            }
            any::move_on(&mut lists, unit, n);
        }
    }
    let met = met.report(count);
    println!(
        "{steps} steps of seed {seed} compared in {:.1} s, {different} different",
        start.elapsed().as_secs_f64()
    );
    Verdict { different, met }
}

/// What differs, in words: the first thing that does. Of a pair that cannot be told nothing is compared, of a step that has one
/// not the number of points.
pub fn differs(
    given: &Lists,
    wanted: &wanted::Written,
    came: &Result<Step, &'static str>,
    after: &Lists,
) -> Option<String> {
    let came = match came {
        Ok(came) => came,
        Err(what) => return Some(what.to_string()),
    };
    let told = wanted.told.iter().all(|&told| told);
    if came.status != wanted.step.status || (told && came.points != wanted.step.points) {
        return Some(format!("{came:?} in place of {:?}", wanted.step));
    }
    if let Some(hull) = first_other(&after.judged, &wanted.judged, 1, &[]) {
        let (came, wanted) = (after.judged[hull], wanted.judged[hull]);
        return Some(format!("hull {hull} is judged {came}, not {wanted}"));
    }
    let bits = |list: &[f32]| -> Vec<u32> { list.iter().map(|x| plain(*x)).collect() };
    let (floats, wanted_floats) = (bits(&after.floats), bits(&wanted.floats));
    let (_, pairs) = given.counts();
    for (what, place) in [
        (
            "bytes",
            first_other(&after.bytes, &wanted.bytes, PAIR_BYTES, &wanted.told),
        ),
        (
            "floats",
            first_other(&floats, &wanted_floats, PAIR_FLOATS, &wanted.told),
        ),
        (
            "cache",
            first_other(&after.caches, &wanted.caches, CACHE_WORDS, &wanted.told),
        ),
    ] {
        if let Some(pair) = place {
            return Some(format!("the {what} of pair {pair} of {pairs}"));
        }
    }
    None
}

/// Its bits; one NaN for every other.
fn plain(x: f32) -> u32 {
    if x.is_nan() {
        f32::NAN.to_bits()
    } else {
        x.to_bits()
    }
}

/// The first row, of so many places, in which two lists differ, those left out that cannot be told; lists of unlike lengths differ
/// in the first.
fn first_other<T: PartialEq>(a: &[T], b: &[T], width: usize, told: &[bool]) -> Option<usize> {
    if a.len() != b.len() {
        return Some(0);
    }
    let rows = a.chunks(width).zip(b.chunks(width));
    rows.enumerate()
        .find(|(row, (a, b))| a != b && told.get(*row) != Some(&false))
        .map(|(row, _)| row)
}
