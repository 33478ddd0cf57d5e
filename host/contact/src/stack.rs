//! The hulls of a step: two lists in which each hull has its own part, and a record that says where.

use crate::{Hull, HullError, HullRecord};
use std::fmt;

/// The hulls that a step is lent. They borrow, so that a host keeps its lists wherever it likes; [`Stack`] makes them. A hull's
/// number is its record's place.
///
/// Any lists and records are safe to lend: a hull whose part does not lie inside the two lists is judged as one that breaks H1.
/// Records may name the same parts, or parts that overlap.
#[derive(Debug, Clone, Copy)]
pub struct Hulls<'a> {
    pub numbers: &'a [f32],
    pub links: &'a [u8],
    pub records: &'a [HullRecord],
}

impl<'a> Hulls<'a> {
    #[inline]
    pub fn len(&self) -> usize {
        self.records.len()
    }

    #[inline]
    pub fn is_empty(&self) -> bool {
        self.records.is_empty()
    }

    /// The hull of this number; none where there is no such number, and where its part does not lie inside the two lists.
    pub fn hull(&self, number: u32) -> Option<Hull<'a>> {
        let record = self.records.get(number as usize)?;
        let size = record.size();
        let part = |from: u32, count: Option<usize>| {
            let from = from as usize;
            Some(from..from.checked_add(count?)?)
        };
        let numbers = self.numbers.get(part(record.numbers, size.numbers())?)?;
        let links = self.links.get(part(record.links, size.links())?)?;
        Some(Hull::lent(size, numbers, links))
    }

    /// How the part of this hull does not lie inside the lists, in words.
    pub(crate) fn outside(&self, number: u32) -> String {
        let record = self.records[number as usize];
        let end = |from: u32, count: Option<usize>| count.map(|count| from as usize + count);
        let lists = [
            (
                "numbers",
                end(record.numbers, record.size().numbers()),
                self.numbers.len(),
            ),
            (
                "links",
                end(record.links, record.size().links()),
                self.links.len(),
            ),
        ];
        let mut outside = lists
            .into_iter()
            .filter(|(_, end, found)| end.is_none_or(|end| end > *found));
        match outside.next() {
            Some((what, Some(end), found)) => {
                format!("its {what} end at {end}, and {found} are lent")
            }
            Some((what, None, _)) => format!("no list has so many {what}"),
            None => "its lists are lent".into(),
        }
    }
}

/// The hulls of a step, in lists of their own: each hull that is added is copied behind the last.
///
/// Hulls that meet should stand near each other: number them by place, as the stack lies. What a step takes depends more on
/// that order than on anything else that a host can choose.
///
/// ```
/// use contact::{HullBuilder, Stack};
///
/// let mut stack = Stack::new();
/// let thick = stack.add(&HullBuilder::log(12, 0.2, 0.15, 4.0).build()?.lend())?;
/// let thin = stack.add(&HullBuilder::log(12, 0.1, 0.08, 4.0).build()?.lend())?;
/// assert_eq!((thick, thin), (0, 1));
/// assert_eq!(stack.lend().hull(thin).unwrap().check(), Ok(()));
/// # Ok::<(), Box<dyn std::error::Error>>(())
/// ```
#[derive(Debug, Clone, Default)]
pub struct Stack {
    numbers: Vec<f32>,
    links: Vec<u8>,
    records: Vec<HullRecord>,
}

impl Stack {
    /// Without hulls.
    pub fn new() -> Stack {
        Stack::default()
    }

    /// One hull more, by a copy of its lists, whose lengths must fit its sizes: its number. All else is judged by each step. Bodies
    /// of one shape can share a number.
    pub fn add(&mut self, hull: &Hull) -> Result<u32, StackError> {
        let size = hull.size();
        Hull::new(size, hull.numbers(), hull.links()).map_err(StackError::Lists)?;
        let word = |count: usize| u32::try_from(count).map_err(|_| StackError::Full);
        let record = HullRecord {
            numbers: word(self.numbers.len())?,
            links: word(self.links.len())?,
            unit: word(size.unit)?,
            vertices: word(size.vertices)?,
            half_edges: word(size.half_edges)?,
            faces: word(size.faces)?,
        };
        let number = word(self.records.len())?;
        self.numbers.extend(hull.numbers());
        self.links.extend(hull.links());
        self.records.push(record);
        Ok(number)
    }

    /// The hulls for a step.
    #[inline]
    pub fn lend(&self) -> Hulls<'_> {
        Hulls {
            numbers: &self.numbers,
            links: &self.links,
            records: &self.records,
        }
    }

    #[inline]
    pub fn len(&self) -> usize {
        self.records.len()
    }

    #[inline]
    pub fn is_empty(&self) -> bool {
        self.records.is_empty()
    }
}

/// Why a hull is not added.
#[derive(Debug, Clone, Copy, PartialEq, Eq)]
pub enum StackError {
    /// A list does not fit the sizes.
    Lists(HullError),
    /// A place in the lists, a unit or a size is beyond what a word of 32 bits holds.
    Full,
}

impl fmt::Display for StackError {
    fn fmt(&self, f: &mut fmt::Formatter) -> fmt::Result {
        match self {
            StackError::Lists(error) => error.fmt(f),
            StackError::Full => f.write_str(
                "a unit, a size or a place in the stack's lists is beyond what a word holds",
            ),
        }
    }
}

impl std::error::Error for StackError {}
