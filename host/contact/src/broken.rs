//! Where a hull breaks a rule, in words. Which rule it is says the library; to find the place is a convenience of the host
//! and not proved.

use crate::shells::{in_words, lowest};
use crate::{HullLists, HullSize, Rule};
use std::collections::HashMap;
use std::fmt;

/// A rule that a hull breaks, and the first place that breaks it. It prints as one sentence with what to do.
#[derive(Debug, Clone, PartialEq, Eq)]
pub struct Broken {
    pub rule: Rule,
    /// Such as "half-edge 7 has face 2, and its next, 12, has face 3".
    pub place: String,
}

impl Broken {
    /// Of a hull that breaks this rule and none before it.
    pub(crate) fn new(lists: HullLists, rule: Rule) -> Broken {
        let links = Links { lists };
        let place = match rule {
            Rule::Sizes => wrong_size(lists),
            Rule::Ranges => links.out_of_range(),
            Rule::Twins => links.other_twin(),
            Rule::Nexts => links.next_elsewhere(),
            Rule::SharedNext => links.shared_next(),
            Rule::Rings => links.broken_ring(),
            Rule::Fans => links.broken_fan(),
            Rule::Numbers => wrong_number(lists, links),
            Rule::Shell => links.other_shell().or_else(|| hole(lists.size)),
        };
        let place = place.unwrap_or_else(|| rule.meaning().into());
        Broken { rule, place }
    }
}

impl fmt::Display for Broken {
    fn fmt(&self, f: &mut fmt::Formatter) -> fmt::Result {
        let Broken { rule, place } = self;
        let (number, remedy) = (rule.number(), rule.remedy());
        write!(f, "H{number} is broken: {place}; what to do: {remedy}")
    }
}

impl std::error::Error for Broken {}

fn wrong_size(lists: HullLists) -> Option<String> {
    let HullSize {
        vertices,
        half_edges,
        faces,
        ..
    } = lists.size;
    if let Err(unknown) = lists.size.known_unit() {
        return Some(unknown.to_string());
    }
    if !(4..=128).contains(&vertices) {
        return Some(format!("there are {vertices} vertices, not 4 to 128"));
    }
    if !(12..=256).contains(&half_edges) || half_edges % 2 == 1 {
        let wanted = "an even number from 12 to 256";
        return Some(format!("there are {half_edges} half-edges, not {wanted}"));
    }
    if !(4..=128).contains(&faces) {
        return Some(format!("there are {faces} faces, not 4 to 128"));
    }
    let lengths = [
        ("numbers", lists.numbers.len(), lists.size.numbers()?),
        ("links", lists.links.len(), lists.size.links()?),
    ];
    let mut wrong = lengths
        .into_iter()
        .filter(|(_, found, wanted)| found != wanted);
    let (what, found, wanted) = wrong.next()?;
    Some(format!(
        "there are {found} {what}, and the sizes ask for {wanted}"
    ))
}

/// The links of a hull whose lists have the lengths that its sizes ask for.
#[derive(Clone, Copy)]
struct Links<'a> {
    lists: HullLists<'a>,
}

impl<'a> Links<'a> {
    fn link(self, edge: usize, link: usize) -> usize {
        self.lists.links[self.lists.size.vertices + 4 * edge + link].into()
    }

    fn next(self, edge: usize) -> usize {
        self.link(edge, 0)
    }

    fn twin(self, edge: usize) -> usize {
        self.link(edge, 1)
    }

    fn origin(self, edge: usize) -> usize {
        self.link(edge, 2)
    }

    fn face(self, edge: usize) -> usize {
        self.link(edge, 3)
    }

    fn edges(self) -> std::ops::Range<usize> {
        0..self.lists.size.half_edges
    }

    /// The stored edge of each vertex.
    fn of_vertices(self) -> impl Iterator<Item = (usize, usize)> + use<'a> {
        let edges = (0..self.lists.size.vertices).map(move |v| self.lists.links[v].into());
        edges.enumerate()
    }

    /// The stored edge of each face.
    fn of_faces(self) -> impl Iterator<Item = (usize, usize)> + use<'a> {
        let first = self.lists.size.vertices + 4 * self.lists.size.half_edges;
        let edges = (0..self.lists.size.faces).map(move |f| self.lists.links[first + f].into());
        edges.enumerate()
    }

    fn out_of_range(self) -> Option<String> {
        let HullSize {
            vertices,
            half_edges,
            faces,
            ..
        } = self.lists.size;
        let of_vertices = self
            .of_vertices()
            .map(|(v, e)| (format!("the stored edge of vertex {v}"), e, half_edges));
        let of_edges = self.edges().flat_map(|e| {
            let of = |what: &str| format!("the {what} of half-edge {e}");
            [
                (of("next"), self.next(e), half_edges),
                (of("twin"), self.twin(e), half_edges),
                (of("origin"), self.origin(e), vertices),
                (of("face"), self.face(e), faces),
            ]
        });
        let of_faces = self
            .of_faces()
            .map(|(f, e)| (format!("the stored edge of face {f}"), e, half_edges));
        let mut all = of_vertices.chain(of_edges).chain(of_faces);
        let (what, number, limit) = all.find(|&(_, number, limit)| number >= limit)?;
        Some(format!("{what} is {number}, and there are {limit}"))
    }

    fn other_twin(self) -> Option<String> {
        let edge = self.edges().find(|&e| self.twin(e) != e ^ 1)?;
        let (twin, wanted) = (self.twin(edge), edge ^ 1);
        Some(format!(
            "the twin of half-edge {edge} is {twin}, and not {wanted}"
        ))
    }

    fn next_elsewhere(self) -> Option<String> {
        self.edges().find_map(|edge| {
            let next = self.next(edge);
            let (face, its_face) = (self.face(edge), self.face(next));
            let (end, its_origin) = (self.origin(self.twin(edge)), self.origin(next));
            if its_face != face {
                Some(format!(
                    "half-edge {edge} has face {face}, and its next, {next}, has face {its_face}"
                ))
            } else if its_origin != end {
                Some(format!(
                    "half-edge {edge} ends at vertex {end}, and its next, {next}, starts at vertex {its_origin}"
                ))
            } else {
                None
            }
        })
    }

    fn shared_next(self) -> Option<String> {
        let mut before = HashMap::new();
        self.edges().find_map(|edge| {
            let next = self.next(edge);
            let first = before.insert(next, edge)?;
            Some(format!(
                "half-edges {first} and {edge} both have next {next}"
            ))
        })
    }

    /// The half-edges from this one by `step` until it is back. The rules up to H5 hold, so that it comes back.
    fn round(self, start: usize, step: impl Fn(usize) -> usize) -> Vec<usize> {
        let mut round = vec![start];
        let mut edge = step(start);
        while edge != start && round.len() < self.lists.size.half_edges {
            round.push(edge);
            edge = step(edge);
        }
        round
    }

    fn broken_ring(self) -> Option<String> {
        self.of_faces().find_map(|(face, edge)| {
            let its_face = self.face(edge);
            if its_face != face {
                return Some(format!(
                    "the stored edge of face {face}, half-edge {edge}, has face {its_face}"
                ));
            }
            let ring = self.round(edge, |e| self.next(e));
            if ring.len() < 3 {
                let sides = ring.len();
                return Some(format!(
                    "the ring of face {face} has {sides} half-edges, not 3"
                ));
            }
            let mut own = self.edges().filter(|&e| self.face(e) == face);
            let missed = own.find(|e| !ring.contains(e))?;
            Some(format!(
                "half-edge {missed} has face {face}, whose ring from half-edge {edge} misses it"
            ))
        })
    }

    fn broken_fan(self) -> Option<String> {
        self.of_vertices().find_map(|(vertex, edge)| {
            let its_origin = self.origin(edge);
            if its_origin != vertex {
                return Some(format!(
                    "the stored edge of vertex {vertex}, half-edge {edge}, starts at vertex {its_origin}"
                ));
            }
            let fan = self.round(edge, |e| self.next(self.twin(e)));
            let mut own = self.edges().filter(|&e| self.origin(e) == vertex);
            let missed = own.find(|e| !fan.contains(e))?;
            Some(format!(
                "half-edge {missed} starts at vertex {vertex}, whose fan from half-edge {edge} misses it"
            ))
        })
    }

    fn other_shell(self) -> Option<String> {
        let shells = lowest(self.lists.size.half_edges, |e| [self.next(e), self.twin(e)]);
        let (count, missed) = (in_words(shells.len()), shells.get(1)?);
        Some(format!(
            "{count} shells: half-edge {missed} cannot be reached from half-edge 0"
        ))
    }
}

/// Of one shell whose rings and fans are whole: each hole through it takes 2 from the sum.
fn hole(size: HullSize) -> Option<String> {
    let HullSize {
        vertices,
        half_edges,
        faces,
        ..
    } = size;
    let edges = half_edges / 2;
    let sum = vertices as isize - edges as isize + faces as isize;
    let holes = match sum {
        2 => return None,
        0 => "a hole".into(),
        _ => format!("{} holes", (2 - sum) / 2),
    };
    Some(format!(
        "V - H/2 + F is {vertices} - {edges} + {faces} = {sum}, not 2: the shell has {holes} through it"
    ))
}

/// Within so much either way; not so of a NaN.
fn within(x: f32, limit: f32) -> bool {
    (-limit..=limit).contains(&x)
}

const AXES: [char; 3] = ['x', 'y', 'z'];

fn wrong_number(lists: HullLists, links: Links) -> Option<String> {
    let HullSize {
        vertices, faces, ..
    } = lists.size;
    let unit = lists.size.known_unit().ok()?;
    let (symbol, farthest) = (unit.symbol(), unit.farthest());
    let lanes = vertices.next_multiple_of(4);
    let coordinate = |axis: usize, lane: usize| lists.numbers[6 + axis * lanes + lane];
    let axes = || AXES.into_iter().enumerate();

    for (axis, name) in axes() {
        for (end, place) in [("low", axis), ("high", 3 + axis)] {
            let x = lists.numbers[place];
            if !within(x, farthest) {
                return Some(format!(
                    "the box has {name} {end} = {x:?}, not within {farthest} {symbol}"
                ));
            }
        }
        for lane in 0..lanes {
            let x = coordinate(axis, lane);
            if !within(x, farthest) {
                let what = if lane < vertices {
                    "vertex"
                } else {
                    "padding lane"
                };
                return Some(format!(
                    "{what} {lane} has {name} = {x:?}, not within {farthest} {symbol}"
                ));
            }
        }
    }
    for vertex in 0..vertices {
        for (axis, name) in axes() {
            let x = coordinate(axis, vertex);
            let (low, high) = (lists.numbers[axis], lists.numbers[3 + axis]);
            if !(low..=high).contains(&x) {
                return Some(format!(
                    "vertex {vertex} has {name} = {x:?}, outside the box, {low:?} to {high:?}"
                ));
            }
        }
    }
    for face in 0..faces {
        let plane = &lists.numbers[6 + 3 * lanes + 4 * face..][..4];
        let (x, y, z, offset) = (plane[0], plane[1], plane[2], plane[3]);
        let farthest = unit.farthest_offset();
        if !within(offset, farthest) {
            return Some(format!(
                "face {face} has offset {offset:?}, not within {farthest} {symbol}"
            ));
        }
        let squares = x * x + y * y + z * z;
        if !(0.99..=1.01).contains(&squares) {
            return Some(format!(
                "face {face} has a normal whose squares sum to {squares:?}, not 0.99 to 1.01"
            ));
        }
    }
    let shortest = unit.shortest_edge();
    let short = links.edges().step_by(2).find(|&edge| {
        let (from, to) = (links.origin(edge), links.origin(edge + 1));
        (0..3).all(|axis| (coordinate(axis, from) - coordinate(axis, to)).abs() < shortest)
    })?;
    let (from, to) = (links.origin(short), links.origin(short + 1));
    Some(format!(
        "half-edge {short}, from vertex {from} to vertex {to}, is shorter than {shortest} {symbol} on every axis"
    ))
}
