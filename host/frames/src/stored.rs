//! The frames that are stored with the program, so that it can be held to their answers with no Rust at hand. A frame that is
//! stored stays, in its order; behind them come those that lack: document 01's own, each kind that is not one shell, each case
//! about units, of each other sort those that meet something new, by their places too, document 02's examples, and what then lacks
//! of each unit.

use crate::codec::{self, Asked, CALL, COUNT, HIT, NEXT_CACHE, PLACES, STATUS, TYPE};
use crate::sorts::{marked, shells, units, Frames, Named, NOT_ONE_SHELL};
use crate::{hex, requests, wanted, Frame, LONGEST_LINE};
use cases::calls::Given;
use records::Unit;
use std::collections::{HashMap, HashSet};

const SEED: u64 = 1;

/// How often each sort is looked through, and in every unit once more; and how many frames of it are stored whatever they meet: of
/// long ones and of short ones.
const ROUNDS: usize = 68;
const UNIT_ROUNDS: usize = 8;
const LONG_OF_A_SORT: usize = 3;
const SHORT_OF_A_SORT: usize = 24;
const SHORT: usize = 300;

/// Characters; longer calls but document 01's own are left to the other runs.
const LONGEST_CALL: usize = 3600;

/// Its places come of an arc tangent, whose last bit differs from machine to machine.
const LEFT_OUT: &str = "near-parallel edges";

/// The input and the output, the input's last line without its end, from the input that is stored.
pub fn files(stored: &[u8]) -> (Vec<u8>, Vec<u8>) {
    let mut lines = Lines::of(stored);
    lines.add_all(&marked::all());
    let all = Frames::in_metres(SEED);
    for ((name, _), turns) in by_turns() {
        lines.add_all(&shortest_of_turns(&all, name, turns));
    }
    lines.add_of_sorts(&all);
    let examples = requests::all().into_iter();
    let examples: Vec<Frame> = examples.map(|e| Frame::Bytes(e.frame)).collect();
    lines.add_all(&examples);
    lines.add_of_units(&Frames::new(SEED));
    let input = lines.input();
    let output = wanted::to_input(&input).expect("the Rust text is at hand");
    (input, output)
}

/// The sorts of which the shortest frame of each turn is stored, and after how many turns they go round.
fn by_turns() -> impl Iterator<Item = (Named, usize)> {
    let shells = NOT_ONE_SHELL.into_iter().zip(shells::TURNS);
    shells.chain(units::SORTS.into_iter().zip(units::CASES))
}

/// A frame that has an answer, so that a last line which is lost is seen.
fn last_line() -> Vec<u8> {
    hex::written(&codec::root_frame(2f32.to_bits()))
}

/// Lines but the last, in their order, and the same as a set.
#[derive(Default)]
struct Lines {
    list: Vec<Vec<u8>>,
    set: HashSet<Vec<u8>>,
}

impl Lines {
    fn of(stored: &[u8]) -> Lines {
        if stored.is_empty() {
            return Lines::default();
        }
        let mut list: Vec<Vec<u8>> = stored.split(|&byte| byte == b'\n').map(Vec::from).collect();
        list.pop_if(|last| *last == last_line());
        Lines {
            set: list.iter().cloned().collect(),
            list,
        }
    }

    fn add(&mut self, line: &[u8]) {
        if self.set.insert(line.to_vec()) {
            self.list.push(line.to_vec());
        }
    }

    fn add_all(&mut self, frames: &[Frame]) {
        for frame in frames {
            self.add(&frame.line());
        }
    }

    fn add_of_sorts(&mut self, all: &Frames) {
        let (mut things, mut placings) = (HashSet::new(), HashSet::new());
        for line in &self.list {
            let answer = answer(line);
            things.insert(told(line, &answer));
            placings.extend(placing(line, &answer));
        }
        let mut sorts: HashMap<&str, usize> = HashMap::new();
        for batch in 0..ROUNDS * all.sorts().len() {
            let name = all.sorts()[all.sort_of(batch)].name;
            if name == LEFT_OUT || by_turns().any(|((own, _), _)| own == name) {
                continue;
            }
            for frame in all.batch(batch) {
                let line = frame.line();
                let answer = answer(&line);
                if !short_enough(&line, &answer) {
                    continue;
                }
                let most = if line.len() <= SHORT {
                    SHORT_OF_A_SORT
                } else {
                    LONG_OF_A_SORT
                };
                let of_sort = sorts.entry(name).or_default();
                let new_thing = things.insert(told(&line, &answer));
                let placing = placing(&line, &answer);
                let new_placing = placing.is_some_and(|placing| placings.insert(placing));
                if new_thing || new_placing || *of_sort < most {
                    self.add(&line);
                }
                *of_sort += usize::from(self.set.contains(&*line));
            }
        }
    }

    /// Of the frames in every unit those that meet in theirs what was not met in it.
    fn add_of_units(&mut self, all: &Frames) {
        let met = |line: &Vec<u8>| in_unit(line, &answer(line));
        let mut met: HashSet<[u8; 4]> = self.list.iter().filter_map(met).collect();
        for batch in 0..UNIT_ROUNDS * all.sorts().len() {
            if all.sorts()[all.sort_of(batch)].name == LEFT_OUT {
                continue;
            }
            for frame in all.batch(batch) {
                let line = frame.line();
                let answer = answer(&line);
                let way = in_unit(&line, &answer).filter(|_| short_enough(&line, &answer));
                if way.is_some_and(|way| met.insert(way)) {
                    self.add(&line);
                }
            }
        }
    }

    fn input(mut self) -> Vec<u8> {
        self.list.push(last_line());
        self.list.join(&b'\n')
    }
}

/// Of each of a sort's turns, which have one frame and go round after so many, the shortest that is looked through.
fn shortest_of_turns(all: &Frames, name: &str, turns: usize) -> Vec<Frame> {
    let sorts = all.sorts();
    let sort = sorts
        .iter()
        .position(|sort| sort.name == name)
        .expect("a sort");
    let batches = (0..ROUNDS).map(|round| round * sorts.len() + sort);
    let frames: Vec<Frame> = batches.flat_map(|batch| all.batch(batch)).collect();
    let of_turn = |turn| {
        frames
            .iter()
            .skip(turn)
            .step_by(turns)
            .min_by_key(|frame| frame.line().len())
    };
    (0..turns)
        .map(|turn| of_turn(turn).expect("every turn is looked through").clone())
        .collect()
}

fn answer(line: &[u8]) -> Vec<u8> {
    wanted::to_line(line).expect("the Rust text is at hand")
}

fn short_enough(line: &[u8], answer: &[u8]) -> bool {
    let call = answer[0] == CALL + 0x80;
    line.len() <= if call { LONGEST_CALL } else { LONGEST_LINE + 1 }
}

/// What a call's line asks.
fn given(line: &[u8]) -> Given {
    match hex::read(line).map(|frame| codec::decode(&frame)) {
        Some(Ok(Asked::Call(given))) => given,
        _ => panic!("an answer to a call that is none"),
    }
}

/// What the places of a contact on a face meet: the next type and the hit, how many points there are, whether there are more
/// than four candidates, and whether the places are 0, 1, 2, .. in this order.
fn placing(line: &[u8], answer: &[u8]) -> Option<[u8; 5]> {
    if answer[0] != CALL + 0x80 || answer[COUNT] == 0 || answer[NEXT_CACHE + TYPE] == 4 {
        return None;
    }
    let next = &answer[NEXT_CACHE..COUNT];
    let reduced = wanted::candidates(&given(line), answer) > 4;
    let in_order = (0..answer[COUNT]).all(|i| answer[PLACES + usize::from(i)] == i);
    Some([
        next[TYPE],
        next[HIT],
        answer[COUNT],
        reduced.into(),
        in_order.into(),
    ])
}

/// What an accepted call that does some work meets in its unit: whether the axis that it leaves is none, a face or a pair of edges,
/// whether there are points, and the hit.
fn in_unit(line: &[u8], answer: &[u8]) -> Option<[u8; 4]> {
    if answer[0] != CALL + 0x80 || answer[STATUS] != 0 {
        return None;
    }
    let given = given(line);
    let unit = Unit::ALL.iter().position(|&unit| unit == given.a.unit())?;
    let next = &answer[NEXT_CACHE..COUNT];
    let axis = [0, 0, 2, 2, 4].get(usize::from(next[TYPE])).copied()?;
    let points = u8::from(answer[COUNT] > 0);
    (given.capacity >= 4).then_some([unit as u8, axis, points, next[HIT]])
}

/// What a frame meets: the kind of its answer and its fault or status; of a refused hull which rule, and whether the type of
/// the cache is retired; of any other call that type, of an accepted one also the next type, the hit and how many points. Where
/// a retired type is marked follows from these: only a call that does no work keeps it.
fn told(line: &[u8], answer: &[u8]) -> [u8; 6] {
    let kind = answer[0];
    if kind != CALL + 0x80 {
        let fault = if kind == 0xff { answer[1] } else { 0 };
        return [kind, fault, 0, 0, 0, 0];
    }
    let given = given(line);
    let status = answer[STATUS];
    let given_type = given.cache.kind.min(9);
    let retired = u8::from(given.cache.has_retired_type());
    let next = &answer[NEXT_CACHE..COUNT];
    match status {
        1 => [kind, 1, given.a.broken_rule(), retired, 0, 0],
        2 => [kind, 2, given.b.broken_rule(), retired, 0, 0],
        0 => {
            let (next_type, hit) = (next[TYPE].min(9), next[HIT].min(2));
            [kind, 0, given_type, next_type, hit, answer[COUNT]]
        }
        _ => [kind, status, given_type, 0, 0, 0],
    }
}
