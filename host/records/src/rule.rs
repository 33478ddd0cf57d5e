//! The rules H1 to H9 of a hull by their numbers: what breaks each, and what to do about it.

use std::fmt;

/// The first rule that a hull breaks. docs/RULES.md has the rules whole.
#[derive(Debug, Clone, Copy, PartialEq, Eq)]
#[repr(u8)]
pub enum Rule {
    Sizes = 1,
    Ranges = 2,
    Twins = 3,
    Nexts = 4,
    SharedNext = 5,
    Rings = 6,
    Fans = 7,
    Numbers = 8,
    Shell = 9,
}

impl Rule {
    pub const ALL: [Rule; 9] = [
        Rule::Sizes,
        Rule::Ranges,
        Rule::Twins,
        Rule::Nexts,
        Rule::SharedNext,
        Rule::Rings,
        Rule::Fans,
        Rule::Numbers,
        Rule::Shell,
    ];

    /// The rule of this number; none where it is 0, and none where it is above 9, which the library never gives: only 0 says
    /// that a hull is good.
    #[inline]
    pub fn of_number(number: u8) -> Option<Rule> {
        let place = usize::from(number).checked_sub(1)?;
        Rule::ALL.get(place).copied()
    }

    pub fn number(self) -> u8 {
        self as u8
    }

    /// What breaks it.
    pub fn meaning(self) -> &'static str {
        match self {
            Rule::Sizes => "the unit is not 1, 10, 100 or 1000, a size is outside its limits, or a list has not the length that the sizes ask for",
            Rule::Ranges => "a stored number of a vertex, a half-edge or a face is out of range",
            Rule::Twins => "half-edges 2k and 2k+1 are not each other's twin",
            Rule::Nexts => "a half-edge's next has another face, or does not start where the half-edge ends",
            Rule::SharedNext => "two half-edges have the same next",
            Rule::Rings => "a face's stored edge is not its own, or its ring is shorter than 3 or misses a half-edge",
            Rule::Fans => "a vertex's stored edge starts elsewhere, or its fan misses a half-edge that starts there",
            Rule::Numbers => "a number is not finite or beyond its limit, a normal is not of length 1, or an edge is too short",
            Rule::Shell => "there are two shells or more, or the one has a hole through it: V - H/2 + F is not 2",
        }
    }

    /// What a host can do about it.
    pub fn remedy(self) -> &'static str {
        match self {
            Rule::Sizes => "keep to unit 1, 10, 100 or 1000, V 4 to 128, H even and 12 to 256, F 4 to 128, and look at the lists' lengths",
            Rule::Ranges => "look for a stored number at or above V, H or F",
            Rule::Twins => "number the two half-edges of each edge side by side, the first of them even",
            Rule::Nexts => "go round every face counter-clockwise as seen from outside, each side from the end of the last",
            Rule::SharedNext => "give every half-edge a next of its own",
            Rule::Rings => "store for each face a half-edge of its ring, and give a face with two rings two numbers",
            Rule::Fans => "store for each vertex a half-edge that starts there, and give a corner where two fans meet two vertices",
            Rule::Numbers => "keep coordinates, padding, box within 4096 * unit, offsets within 8192 * unit, vertices in the box, edges from unit / 1024 on",
            Rule::Shell => "give each closed shell a record of its own, and cut a solid with a hole into pieces without one",
        }
    }
}

impl fmt::Display for Rule {
    fn fmt(&self, f: &mut fmt::Formatter) -> fmt::Result {
        let (meaning, remedy) = (self.meaning(), self.remedy());
        write!(
            f,
            "H{} is broken: {meaning}; what to do: {remedy}",
            self.number()
        )
    }
}

impl std::error::Error for Rule {}
