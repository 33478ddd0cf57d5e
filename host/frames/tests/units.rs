//! The sorts about units have the calls that they say, and all sorts are in every unit.

use cases::calls::Given;
use frames::codec::{decode, Asked};
use frames::sorts::Frames;
use frames::{wanted, Frame};
use records::Unit;
use std::collections::{HashMap, HashSet};

/// Four rounds of the cases of each sort, and more.
const ROUNDS: usize = 48;

/// What the calls of the sort of this name ask, one a turn, and their answers, where they can be told.
fn calls(name: &str) -> Vec<(Given, Option<Vec<u8>>)> {
    let frames = Frames::new(1);
    let sorts = frames.sorts();
    let sort = sorts.iter().position(|sort| sort.name == name);
    let sort = sort.expect("there is such a sort");
    let batches = (0..ROUNDS).map(|round| round * sorts.len() + sort);
    let asked = |frame: Frame| match frame.bytes().map(decode) {
        Some(Ok(Asked::Call(given))) => {
            let answer = frame.bytes().and_then(wanted::to_frame);
            (given, answer)
        }
        _ => panic!("a frame that is no call"),
    };
    let frames = batches.flat_map(|batch| frames.batch(batch));
    frames.map(asked).collect()
}

/// At a limit, a float above and a float below, as the sorts deal their cases.
#[derive(Debug, Clone, Copy, PartialEq, Eq, Hash)]
enum Float {
    At,
    Above,
    Below,
}

fn float(turn: usize) -> Float {
    [Float::At, Float::Above, Float::Below][turn % 3]
}

/// Of each length in each unit: the limit and what lies within it are accepted, a float beyond it is refused.
#[test]
fn limits() {
    const LENGTHS: usize = 8;
    const EDGE: usize = 4;
    let mut met = HashSet::new();
    for (turn, (given, _)) in calls("limits of each unit").iter().enumerate() {
        let length = turn / 3 % LENGTHS;
        let beyond = if length == EDGE {
            Float::Below
        } else {
            Float::Above
        };
        let rules = [given.a.broken_rule(), given.b.broken_rule()];
        let call = given.call();
        match (float(turn) == beyond, length) {
            (false, _) => assert!(call.refusal() == 0, "turn {turn}"),
            (true, 0..5) => assert!(rules == [8, 0] || rules == [0, 8], "turn {turn}"),
            (true, _) => assert_eq!((rules, call.refusal()), ([0, 0], 3), "turn {turn}"),
        }
        met.insert((given.a.size.unit, length, float(turn)));
    }
    assert_eq!(met.len(), 4 * LENGTHS * 3);
}

/// Of each kind of axis in each unit: only what differs by less than the slop serves again.
#[cfg(rust_text)]
#[test]
fn slop() {
    use frames::codec::{COUNT, HIT, NEXT_CACHE};
    let mut met = HashSet::new();
    for (turn, (given, answer)) in calls("the slop of each unit").iter().enumerate() {
        let answer = answer.as_ref().expect("the Rust text is at hand");
        let hit = answer[NEXT_CACHE + HIT] == 1;
        assert_eq!(hit, float(turn) == Float::Below, "turn {turn}");
        assert!(answer[COUNT] > 0, "turn {turn}");
        met.insert((
            given.a.size.unit,
            given.cache.kind,
            turn / 3 % 2,
            float(turn),
        ));
    }
    assert_eq!(met.len(), 4 * 3 * 2 * 3);
}

/// A cached face is apart at or above it, a cached pair of edges strictly above it; the search stops strictly above it, and at
/// it a face does not touch.
#[cfg(rust_text)]
#[test]
fn speculative_distance() {
    use frames::codec::{COUNT, HIT, NEXT_CACHE, TYPE};
    let mut met = HashSet::new();
    let name = "the speculative distance of each unit";
    for (turn, (given, answer)) in calls(name).iter().enumerate() {
        let answer = answer.as_ref().expect("the Rust text is at hand");
        let (float, way) = (float(turn), turn / 3 % 5);
        let points = answer[COUNT] > 0;
        let (next_type, hit) = (answer[NEXT_CACHE + TYPE], answer[NEXT_CACHE + HIT]);
        let right = match (way, float) {
            (0, Float::Above) => !points && [2, 3].contains(&next_type),
            (0, Float::At) => !points && next_type == 0,
            (1, Float::Above) => !points && next_type == 4,
            (2 | 3, Float::At | Float::Above) | (4, Float::Above) => !points && hit == 1,
            _ => points,
        };
        assert!(right, "turn {turn}: way {way}, {float:?}");
        met.insert((given.a.size.unit, way, float));
    }
    assert_eq!(met.len(), 4 * 5 * 3);
}

/// Of the eight candidates one to four are picked, in each unit.
#[cfg(rust_text)]
#[test]
fn faces_as_wide_as_the_speculative_distance() {
    use frames::codec::COUNT;
    let mut met: HashMap<(usize, u8), usize> = HashMap::new();
    for (given, answer) in calls("faces as wide as the speculative distance") {
        let answer = answer.expect("the Rust text is at hand");
        if answer[COUNT] > 0 {
            assert_eq!(wanted::candidates(&given, &answer), 8);
        }
        *met.entry((given.a.size.unit, answer[COUNT])).or_default() += 1;
    }
    for unit in Unit::ALL {
        let counts = (1..=4).map(|count| met.get(&(unit.per_metre(), count)));
        let several = counts.filter(|count| count.is_some()).count();
        assert!(several >= 3, "{unit}: {met:?}");
    }
}

#[test]
fn unknown_units() {
    const UNKNOWN: [usize; 5] = [0, 2, 5, 10_000, 65_535];
    for (turn, (given, _)) in calls("unknown units").iter().enumerate() {
        let side = turn / UNKNOWN.len() % 2;
        let units = [given.a.size.unit, given.b.size.unit];
        assert_eq!(units[side], UNKNOWN[turn % UNKNOWN.len()], "turn {turn}");
        assert!(Unit::try_from(units[1 - side]).is_ok(), "turn {turn}");
        assert_eq!(given.call().refusal(), [1, 2][side], "turn {turn}");
    }
}

/// Each set of other faults, and the first that is broken in the order 1, 2, 17, 3, 4 is given; some hulls are good in their own
/// unit and not in the other's.
#[test]
fn unlike_units() {
    let (mut small, mut not_in_the_other) = (0, 0);
    let mut met = HashSet::new();
    let name = "unlike units, beside other faults";
    for (turn, (given, _)) in calls(name).iter().enumerate() {
        let set = turn % 16;
        let units = [given.a.unit(), given.b.unit()];
        assert_ne!(units[0], units[1]);
        let rules = [given.a.broken_rule(), given.b.broken_rule()];
        let broken = [0, 1, 2, 3].map(|bit| set >> bit & 1 == 1);
        assert_eq!(
            rules.map(|rule| rule != 0),
            [broken[0], broken[1]],
            "turn {turn}"
        );
        let refusal = match broken {
            [true, ..] => 1,
            [_, true, ..] => 2,
            _ => 17,
        };
        assert_eq!(given.call().refusal(), refusal, "turn {turn}");
        met.insert((set, refusal));
        small += usize::from(given.capacity < 4);
        let mut other = given.clone();
        other.b.size.unit = units[0].per_metre();
        if rules == [0, 0] {
            not_in_the_other += usize::from(other.b.broken_rule() != 0);
            // With one unit for both, the transform and the cache are what is left.
            let left = other.call().refusal();
            let wanted = [0, 3, 4, 3][set >> 2];
            assert!(left == wanted || left == 2, "turn {turn}: {left}");
        }
    }
    assert_eq!(met.len(), 16);
    assert!(
        small > 10 && not_in_the_other > 5,
        "{small} {not_in_the_other}"
    );
}

/// Every sort of calls has hulls of every unit, and in metres none but the sorts about units has.
#[test]
fn every_sort_is_in_every_unit() {
    let units_of = |frames: &Frames| {
        let mut met: HashMap<&str, HashSet<usize>> = HashMap::new();
        for batch in 0..ROUNDS * frames.sorts().len() {
            let name = frames.sorts()[frames.sort_of(batch)].name;
            for frame in frames.batch(batch) {
                if let Some(Ok(Asked::Call(given))) = frame.bytes().map(decode) {
                    met.entry(name).or_default().insert(given.a.size.unit);
                }
            }
        }
        let met = met
            .into_iter()
            .map(|(name, units)| (name.to_string(), units));
        met.collect::<HashMap<String, HashSet<usize>>>()
    };
    let (mixed, in_metres) = (units_of(&Frames::new(1)), units_of(&Frames::in_metres(1)));
    let all: HashSet<usize> = Unit::ALL.map(Unit::per_metre).into();
    for (name, units) in &mixed {
        // Most of its frames have a length that does not fit.
        if name != "sizes changed" {
            assert!(units.is_superset(&all), "{name}: {units:?}");
        }
    }
    let others = in_metres
        .iter()
        .filter(|(_, units)| units.is_superset(&all));
    assert_eq!(others.count(), 7);
}
