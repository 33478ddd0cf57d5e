//! Numbers from a seed; vectors, transforms and hulls of every sort, pairs of them, calls and the answers that document 01
//! wants; the comparison of two floats, and the count of what was compared and met. Nothing here calls the proved code. Where
//! document 01 is named, it is meant as document 02's requests have changed it.

pub mod calls;
pub mod convert;
pub mod inputs;
pub mod pairs;
pub mod settled;
pub mod shapes;
pub mod sorts;

use records::Unit;

/// Numbers that depend on the seed alone (SplitMix64).
pub struct Numbers(u64);

impl Numbers {
    pub fn new(seed: u64) -> Self {
        Numbers(seed)
    }

    pub fn word(&mut self) -> u64 {
        self.0 = self.0.wrapping_add(0x9e37_79b9_7f4a_7c15);
        let mut z = self.0;
        z = (z ^ (z >> 30)).wrapping_mul(0xbf58_476d_1ce4_e5b9);
        z = (z ^ (z >> 27)).wrapping_mul(0x94d0_49bb_1331_11eb);
        z ^ (z >> 31)
    }

    /// One of `0..n`.
    pub fn below(&mut self, n: usize) -> usize {
        (self.word() % n as u64) as usize
    }

    /// The numbers `0..n` in any order.
    pub fn order(&mut self, n: usize) -> Vec<usize> {
        let mut order: Vec<usize> = (0..n).collect();
        for i in 1..n {
            order.swap(i, self.below(i + 1));
        }
        order
    }

    /// From `low` to `high`.
    pub fn between(&mut self, low: f64, high: f64) -> f64 {
        low + (high - low) * (self.word() >> 11) as f64 / (1u64 << 53) as f64
    }

    /// From -1 to 1.
    pub fn fraction(&mut self) -> f32 {
        (self.word() >> 40) as f32 / (1 << 23) as f32 - 1.0
    }

    pub fn unit(&mut self) -> Unit {
        Unit::ALL[self.below(Unit::ALL.len())]
    }

    /// A float of any sort: a special value, any bits, or a number of one of four sizes.
    pub fn float(&mut self) -> f32 {
        match self.below(8) {
            0 => SPECIAL[self.below(SPECIAL.len())],
            1 => f32::from_bits(self.word() as u32),
            2 => self.fraction() * 1e-3,
            3 => self.fraction() * 4096.0,
            4 => self.fraction() * 4.096e6,
            _ => self.fraction() * 2.0,
        }
    }

    /// A float of any sort but NaN and the infinities.
    pub fn finite(&mut self) -> f32 {
        loop {
            let x = self.float();
            if x.is_finite() {
                return x;
            }
        }
    }
}

/// Zeros, ones, the ends of the subnormal and the normal numbers, infinities, NaN, and the limits of document 01.
pub const SPECIAL: [f32; 22] = [
    0.0,
    -0.0,
    1.0,
    -1.0,
    0.5,
    -0.5,
    2.0,
    1e-45,
    -1e-45,
    1.1754942e-38,
    f32::MIN_POSITIVE,
    -f32::MIN_POSITIVE,
    f32::MAX,
    f32::MIN,
    f32::INFINITY,
    f32::NEG_INFINITY,
    f32::NAN,
    0.005,
    0.02,
    4096.0,
    -4096.0,
    100000.0,
];

/// Equal bit for bit, any NaN being equal to any other.
pub fn same(a: f32, b: f32) -> bool {
    a.to_bits() == b.to_bits() || (a.is_nan() && b.is_nan())
}

/// Counts comparisons, and shows the first differences.
#[derive(Default)]
pub struct Tally {
    pub compared: u64,
    pub different: u64,
}

/// How many differences are shown.
const SHOWN: u64 = 5;

impl Tally {
    /// One comparison; `describe` says what was compared, and is asked only where the two differ.
    pub fn compare(&mut self, equal: bool, describe: impl FnOnce() -> String) {
        self.compared += 1;
        if !equal {
            self.different += 1;
            if self.different <= SHOWN {
                eprintln!("different: {}", describe());
            }
        }
    }

    /// One line with the counts; whether nothing differed and something was compared.
    pub fn report(&self, what: &str) -> bool {
        println!(
            "{what}: {} compared, {} different",
            self.compared, self.different
        );
        self.compared > 0 && self.different == 0
    }
}

/// One in so many, and at least one.
pub fn one_in(of: usize, count: usize) -> u64 {
    (count / of).max(1) as u64
}

/// One line: how often each case was met. Whether each was met often enough.
pub fn met(cases: &[(&str, u64, u64)]) -> bool {
    let list: Vec<String> = cases
        .iter()
        .map(|(name, count, _)| format!("{name} {count}"))
        .collect();
    println!("  met: {}", list.join(", "));
    let few = cases.iter().filter(|(_, count, least)| count < least);
    few.fold(true, |_, (name, _, least)| {
        eprintln!("too seldom: '{name}' was met fewer than {least} times");
        false
    })
}

/// The argument at this place as a number, or the default; a word that is none ends the program.
pub fn number_argument(place: usize, name: &str, default: u64) -> u64 {
    match std::env::args().nth(place) {
        None => default,
        Some(word) => word.parse().unwrap_or_else(|_| {
            eprintln!("{name} is a whole number, not '{word}'");
            std::process::exit(2);
        }),
    }
}
