//! The sorts about H9 have the hulls that they say.

use cases::calls::Given;
use cases::shapes::kinds::SHELLS;
use frames::codec::{decode, Asked};
use frames::sorts::Frames;

const ROUNDS: usize = 78;

/// What the calls of the sort of this name ask, one a turn.
fn given(name: &str) -> Vec<Given> {
    let frames = Frames::new(1);
    let sorts = frames.sorts();
    let sort = sorts.iter().position(|sort| sort.name == name);
    let sort = sort.expect("there is such a sort");
    let batches = (0..ROUNDS).map(|round| round * sorts.len() + sort);
    let asked = |frame: frames::Frame| match frame.bytes().map(decode) {
        Some(Ok(Asked::Call(given))) => given,
        _ => panic!("a frame that is no call"),
    };
    batches
        .flat_map(|batch| frames.batch(batch))
        .map(asked)
        .collect()
}

fn rules(given: &Given) -> [u8; 2] {
    [given.a.broken_rule(), given.b.broken_rule()]
}

/// One hull breaks H9, and the other none.
#[test]
fn alone() {
    for (turn, given) in given("hulls that are not one shell").iter().enumerate() {
        let wanted = [[9, 0], [0, 9]][turn / SHELLS.len() % 2];
        assert_eq!(rules(given), wanted, "turn {turn}");
        assert_eq!(given.call().refusal(), 1 + (turn / SHELLS.len() % 2) as u8);
    }
}

/// Hulls, transform and cache are broken in every set, and a refusal comes in the order 1, 2, 3, 4 or not at all.
#[test]
fn beside() {
    let mut small = 0;
    for (turn, given) in given("not one shell, beside other faults")
        .iter()
        .enumerate()
    {
        let [a, b] = rules(given);
        let breaks_h9 = match turn % 3 {
            0 => a == 9,
            1 => b == 9,
            _ => [a, b] == [9, 9],
        };
        assert!(breaks_h9, "turn {turn}: {a} {b}");
        let answer = given.call().without_work().expect("no work is done");
        let refusal = if a != 0 { 1 } else { 2 };
        if given.capacity < 4 {
            assert_eq!(answer.outcome.status, 0, "turn {turn}");
            small += 1;
        } else {
            assert_eq!(answer.outcome.status, refusal, "turn {turn}");
        }
    }
    assert!(small > 0);
}

/// Good hulls, or an earlier rule is broken where two shells share a number.
#[test]
fn near() {
    for (turn, given) in given("near those that are not one shell")
        .iter()
        .enumerate()
    {
        let rule = [0, 0, 0, 7, 6][turn % 5];
        let wanted = [[rule, 0], [0, rule]][turn / 5 % 2];
        assert_eq!(rules(given), wanted, "turn {turn}");
    }
}
