//! The proved square root beside the processor's own.
//!
//!     roots sample [SEED]   every exponent, both ends of each, and eight million random patterns
//!     roots all             all 2^32 patterns

use cases::{number_argument, Numbers, Tally};
use std::time::Instant;

const RANDOM: u64 = 8_000_000;

fn main() {
    let all = match std::env::args().nth(1).as_deref() {
        Some("sample") => false,
        Some("all") => true,
        _ => {
            eprintln!("usage: roots sample [SEED] | roots all");
            std::process::exit(2);
        }
    };
    let start = Instant::now();
    let tally = if all {
        every_pattern()
    } else {
        sample(number_argument(2, "SEED", 1))
    };
    let good = tally.report("square roots");
    println!("took {:.1} s", start.elapsed().as_secs_f64());
    std::process::exit(if good { 0 } else { 1 });
}

fn compare(tally: &mut Tally, bits: u32) {
    let ours = probes::root_bits(bits);
    let theirs = frames::wanted::root(bits);
    tally.compare(ours == theirs, || {
        format!("root of {bits:08x}: {ours:08x}, the processor has {theirs:08x}")
    });
}

fn sample(seed: u64) -> Tally {
    let mut tally = Tally::default();
    for exponent in 0..512u32 {
        for end in [
            0, 1, 2, 0x3f_ffff, 0x40_0000, 0x40_0001, 0x7f_fffe, 0x7f_ffff,
        ] {
            compare(&mut tally, exponent << 23 | end);
        }
    }
    let mut numbers = Numbers::new(seed);
    for _ in 0..RANDOM {
        compare(&mut tally, numbers.word() as u32);
    }
    tally
}

/// Two halves at once, one a core; the first says how far it is.
fn every_pattern() -> Tally {
    let half = |from: u64, to: u64| {
        let mut tally = Tally::default();
        for bits in from..to {
            if from == 0 && bits % (to / 8) == 0 {
                println!("{} of 8 parts done", bits / (to / 8));
            }
            compare(&mut tally, bits as u32);
        }
        tally
    };
    let upper = std::thread::spawn(move || half(1 << 31, 1 << 32));
    let lower = half(0, 1 << 31);
    let upper = upper.join().expect("the other half ends");
    Tally {
        compared: lower.compared + upper.compared,
        different: lower.different + upper.different,
    }
}
