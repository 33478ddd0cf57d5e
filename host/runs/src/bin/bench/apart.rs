//! The question whether two hulls are apart beside the Rust text's search, which stops early as ours does: thousands of different
//! logs about each other's surfaces, by what the search finds. The text judges nothing; `contact_apart` judges both hulls each time,
//! and what that takes by itself, and our search by itself, are timed in the same rounds.

use super::axes::Pair;
use super::{batches, least_and_median, timed_calls};
use cases::calls::Question;
use cases::pairs::{self, placed, turned_or_not};
use cases::shapes::kinds::any_log;
use cases::sorts::acceptable;
use cases::sorts::places::{any_edges, anyhow, edge_on_edge, Spin};
use cases::{convert, Numbers};
use oracle::hull::HullData;
use oracle::open::SeparatingFeature;
use records::Unit;
use runs::broken_rule;

/// What a search finds, and its name.
const FOUND: [(SeparatingFeature, &str); 4] = [
    (SeparatingFeature::FaceAxisA, "apart by a face of A"),
    (SeparatingFeature::FaceAxisB, "apart by a face of B"),
    (SeparatingFeature::EdgePairAxis, "apart by edges only"),
    (SeparatingFeature::InvalidAxis, "touching or overlapping"),
];

/// How many pairs there are of each, every one with two hulls of its own.
const PAIRS: usize = 1500;

/// How often each way is timed.
const ROUNDS: usize = 100;

/// A pair with its hulls in the text's records.
struct Drawn {
    pair: pairs::Pair,
    hulls: [HullData; 2],
}

pub fn run(n: &mut Numbers) {
    let mut drawn = [const { Vec::new() }; FOUND.len()];
    while drawn.iter().any(|of| of.len() < PAIRS) {
        let pair = acceptable(|_, n: &mut _| any_pair(n), Unit::Metres, n);
        let hulls = [&pair.a, &pair.b].map(convert::hull);
        let drawn_one = Drawn { pair, hulls };
        let found = both(&drawn_one).theirs().separated_feature;
        let place = FOUND.iter().position(|&(feature, _)| feature == found);
        let of = &mut drawn[place.expect("one of the four")];
        if of.len() < PAIRS {
            of.push(drawn_one);
        }
    }
    println!(
        "whether two hulls are apart: {} pairs of different logs; ns a question, least (median) of {} rounds",
        FOUND.len() * PAIRS,
        batches(ROUNDS)
    );
    for ((_, what), drawn) in FOUND.into_iter().zip(&drawn) {
        times(what, drawn);
    }
}

/// Two logs: a face on a face, a corner on a face, an edge on an edge, or anyhow; a little deep or a little apart.
fn any_pair(n: &mut Numbers) -> pairs::Pair {
    let mut log = || {
        let solid = any_log(n);
        turned_or_not(solid, n)
    };
    let (a, b) = (log(), log());
    match n.below(3) {
        0 => placed(a, b, n),
        1 => {
            let edges = any_edges(&a, &b, n);
            edge_on_edge(a, b, edges, Spin::Any, n)
        }
        _ => anyhow(a, b, n),
    }
}

fn both(Drawn { pair, hulls }: &Drawn) -> Pair<'_> {
    Pair::new("", pair, hulls)
}

/// The rows of one of the four, once all answers are the same.
fn times(what: &str, drawn: &[Drawn]) {
    let searches: Vec<Pair> = drawn.iter().map(both).collect();
    let questions: Vec<Question> = (drawn.iter())
        .map(|Drawn { pair, .. }| Question {
            a: pair.a.lent(),
            b: pair.b.lent(),
            transform: convert::our_transform(pair.transform),
        })
        .collect();
    let apart = |pair: &Pair| pair.theirs().separated_feature != SeparatingFeature::InvalidAxis;
    for (question, search) in questions.iter().zip(&searches) {
        let answer = runs::apart(question).accepted();
        assert_eq!(answer, Ok(apart(search)), "{question:?}");
    }
    let yes = searches.iter().filter(|search| apart(search)).count();
    let asked = |question: &Question| usize::from(runs::apart(question).apart);
    let good = |question: &Question| {
        let [a, b] = [question.a, question.b].map(|hull| usize::from(broken_rule(hull) == 0));
        a + b
    };
    let mut times = [const { Vec::new() }; 4];
    for _ in 0..batches(ROUNDS) {
        let timed = [
            (
                timed_calls(PAIRS, &searches, |pair| usize::from(apart(pair))),
                yes,
            ),
            (timed_calls(PAIRS, &questions, asked), yes),
            (
                timed_calls(PAIRS, &searches, |pair| usize::from(pair.ours().apart)),
                yes,
            ),
            (timed_calls(PAIRS, &questions, good), 2 * PAIRS),
        ];
        for (times, ((time, came), wanted)) in times.iter_mut().zip(timed) {
            assert_eq!(came, wanted, "{what}");
            times.push(time);
        }
    }
    let [text, question, search, judging] = times.map(least_and_median);
    println!("  {what}");
    let row = |name: &str, (least, median): (f64, f64)| {
        println!(
            "    {name:<32} {least:>8.1} ({median:.1})  ratio {:.2} ({:.2})",
            least / text.0,
            median / text.1
        );
    };
    row("the text's search", text);
    row("contact_apart", question);
    row("our search alone", search);
    row("judging both hulls alone", judging);
}
