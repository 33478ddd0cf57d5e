//! What a sort of hulls, and the whole run, has compared.

use cases::shapes::{self, Shape};
use cases::Tally;
use records::{HullLists, HullSize, Unit};
use std::fmt::{Debug, Write};
use std::time::{Duration, Instant};

/// No call of the proved validator takes as long.
const LIMIT: Duration = Duration::from_millis(1);

/// A call that took longer is timed again so often, since other work on the machine only ever adds.
const TRIES: usize = 20;

/// How often each answer was met.
type Answers = [u64; 10];

#[derive(Default)]
pub struct Sort {
    tally: Tally,
    answers: Answers,
    units: Units,
    slow: u64,
}

/// How often hulls of each unit were met, and of none.
#[derive(Default)]
struct Units {
    good: [u64; 4],
    /// Broken by the numbers, which is a matter of the unit's limits.
    numbers: [u64; 4],
    unknown: u64,
}

impl Units {
    fn add(&mut self, size: HullSize, answer: u8) {
        let Ok(unit) = size.known_unit() else {
            self.unknown += 1;
            return;
        };
        let place = Unit::ALL.iter().position(|&own| own == unit);
        let place = place.expect("one of the four");
        self.good[place] += u64::from(answer == 0);
        self.numbers[place] += u64::from(answer == 8);
    }

    fn add_all(&mut self, other: &Units) {
        for place in 0..4 {
            self.good[place] += other.good[place];
            self.numbers[place] += other.numbers[place];
        }
        self.unknown += other.unknown;
    }

    /// Each was met at least so often.
    fn report(&self, least: u64) -> bool {
        let [good, numbers] = [self.good, self.numbers].map(|counts| {
            let list: Vec<String> = counts.iter().map(u64::to_string).collect();
            list.join(" ")
        });
        let unknown = self.unknown;
        println!(
            "units 1, 10, 100, 1000: good {good}; H8 broken {numbers}; unknown units {unknown}"
        );
        let all = self.good.iter().chain(&self.numbers).chain([&self.unknown]);
        all.into_iter().all(|&count| count >= least)
    }
}

impl Sort {
    /// Both validators on the hull.
    pub fn hold(&mut self, shape: &Shape) {
        self.compare(&shape.numbers, &shape.links, shape.size, None);
    }

    /// Both validators on a hull whose answer is known.
    pub fn expect(&mut self, shape: &Shape, answer: u8) {
        self.compare(&shape.numbers, &shape.links, shape.size, Some(answer));
    }

    /// Both validators on any lists and sizes.
    pub fn compare(&mut self, numbers: &[f32], links: &[u8], size: HullSize, known: Option<u8>) {
        let hull = HullLists {
            numbers,
            links,
            size,
        };
        let ours = self.timed(|| runs::broken_rule(hull), size);
        let theirs = shapes::broken_rule(hull);
        let equal = ours == theirs && known.is_none_or(|answer| answer == theirs);
        self.tally.compare(equal, || {
            let known = known.map_or(String::new(), |answer| format!(", known {answer}"));
            let (links, numbers) = (shown(links), shown(numbers));
            format!("ours {ours}, the second {theirs}{known}: {size:?} {links} {numbers}")
        });
        self.answers[usize::from(theirs)] += 1;
        self.units.add(size, theirs);
    }

    /// The answer of a call; one that never keeps to the limit is counted.
    fn timed(&mut self, call: impl Fn() -> u8, size: HullSize) -> u8 {
        for _ in 0..TRIES {
            let start = Instant::now();
            let answer = call();
            if start.elapsed() < LIMIT {
                return answer;
            }
        }
        eprintln!("longer than {LIMIT:?} each time: {size:?}");
        self.slow += 1;
        call()
    }
}

/// All the sorts.
#[derive(Default)]
pub struct Total {
    all: Sort,
}

impl Total {
    /// Makes and compares one sort of hulls, and prints its line.
    pub fn sort(&mut self, name: &str, work: impl FnOnce(&mut Sort)) {
        let mut sort = Sort::default();
        work(&mut sort);
        let Tally {
            compared,
            different,
        } = sort.tally;
        println!(
            "  {name}: {compared} compared, {different} different;{}",
            table(&sort.answers)
        );
        self.all.tally.compared += compared;
        self.all.tally.different += different;
        self.all.slow += sort.slow;
        self.all.units.add_all(&sort.units);
        for (all, one) in self.all.answers.iter_mut().zip(sort.answers) {
            *all += one;
        }
    }

    /// The last lines; whether the run is good: so many hulls were compared, so many had more than one shell or a hole, and so many
    /// were met in each unit and in none.
    pub fn report(&self, least: u64, least_shells: u64, least_units: u64) -> bool {
        let Tally {
            compared,
            different,
        } = self.all.tally;
        let answers = self.all.answers;
        let list: String = answers.iter().map(|count| format!(" {count}")).collect();
        println!("hulls: {compared} compared, {different} different; answers 0..9:{list}");
        let units = self.all.units.report(least_units);
        let faults = [
            (different > 0, "an answer differs".to_string()),
            (
                self.all.slow > 0,
                format!("{} calls run long", self.all.slow),
            ),
            (answers.contains(&0), "an answer was never met".to_string()),
            (
                compared < least,
                format!("fewer than {least} hulls were compared"),
            ),
            (
                answers[9] < least_shells,
                format!("answer 9 was met fewer than {least_shells} times"),
            ),
            (
                !units,
                format!("a unit, or none, was met fewer than {least_units} times"),
            ),
        ];
        for (_, fault) in faults.iter().filter(|(met, _)| *met) {
            eprintln!("hulls: {fault}");
        }
        faults.iter().all(|(met, _)| !met)
    }
}

/// A list that could be a hull's in full, of any other its length.
fn shown(list: &[impl Debug]) -> String {
    if list.len() <= 2048 {
        format!("{list:?}")
    } else {
        format!("({} items)", list.len())
    }
}

/// The answers that were met, each with how often.
fn table(answers: &Answers) -> String {
    let mut line = String::from(" answers");
    let met = answers.iter().enumerate().filter(|(_, &count)| count > 0);
    for (answer, count) in met {
        write!(line, " {answer}: {count}").expect("a string takes a line");
    }
    line
}
