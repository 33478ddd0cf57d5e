//! A hull that is lent to the library, and which rule it breaks.

use crate::{linked, Broken, Rule};
use records::{HullLists, HullSize, Unit, UnknownUnit};
use std::fmt;

/// A hull that a call is lent. It borrows, so that one is made from wherever a simulator keeps its hulls, without a copy;
/// [`HullLists`] says what stands where. [`HullBuilder`](crate::HullBuilder) makes the lists.
#[derive(Debug, Clone, Copy)]
pub struct Hull<'a> {
    lists: HullLists<'a>,
}

impl<'a> Hull<'a> {
    /// The hull, where both lists have the lengths that its sizes ask for. All else, its unit too, is judged by each call, which
    /// refuses a hull that breaks a rule; [`Hull::check`] tells which.
    #[inline]
    pub fn new(size: HullSize, numbers: &'a [f32], links: &'a [u8]) -> Result<Self, HullError> {
        if size.numbers() != Some(numbers.len()) {
            return Err(HullError::Numbers {
                wanted: size.numbers(),
                found: numbers.len(),
            });
        }
        if size.links() != Some(links.len()) {
            return Err(HullError::Links {
                wanted: size.links(),
                found: links.len(),
            });
        }
        Ok(Hull::lent(size, numbers, links))
    }

    /// The same of any lists and any sizes. That is safe: the library is proved for all of them, and refuses a hull whose
    /// lists do not fit.
    #[inline]
    pub fn lent(size: HullSize, numbers: &'a [f32], links: &'a [u8]) -> Self {
        HullLists {
            numbers,
            links,
            size,
        }
        .into()
    }

    /// The first rule that the hull breaks, by the library's own validator: [`collide`](crate::collide) refuses hull A by 1
    /// exactly where this is an error of it, and hull B by 2 exactly where A has none and B has one.
    ///
    /// ```
    /// use contact::{Hull, HullSize, Rule};
    ///
    /// let size = HullSize { unit: 1, vertices: 4, half_edges: 12, faces: 4 };
    /// let rule = Hull::lent(size, &[], &[]).check().unwrap_err();
    /// assert_eq!(rule, Rule::Sizes);
    /// println!("{rule}"); // H1 is broken: the unit is not 1, 10, 100 or 1000, a size is outside .., and what to do about it
    /// ```
    #[inline]
    pub fn check(&self) -> Result<(), Rule> {
        let HullLists {
            numbers,
            links,
            size,
        } = self.lists;
        linked::fits();
        // The library asks nothing of its lists and sizes, and writes to nothing.
        let number = unsafe {
            linked::contact_first_broken_rule(
                numbers.as_ptr(),
                numbers.len(),
                links.as_ptr(),
                links.len(),
                size,
            )
        };
        if number == 0 {
            return Ok(());
        }
        // A library of this ABI number gives no other rule; if one did, the hull must not pass for a good one.
        let rule = Rule::of_number(number);
        Err(rule.unwrap_or_else(|| {
            panic!("libcontactlib.a tells of a rule H{number}, which this wrapper does not know")
        }))
    }

    /// The same with the first place that breaks the rule, for people; none where the hull breaks no rule.
    ///
    /// ```
    /// # let size = contact::HullSize { unit: 1, vertices: 4, half_edges: 13, faces: 4 };
    /// let broken = contact::Hull::lent(size, &[], &[]).broken().unwrap();
    /// assert_eq!(broken.place, "there are 13 half-edges, not an even number from 12 to 256");
    /// ```
    pub fn broken(&self) -> Option<Broken> {
        let rule = self.check().err()?;
        Some(Broken::new(self.lists, rule))
    }

    /// Both lists and the sizes, as they were lent.
    #[inline]
    pub fn lists(&self) -> HullLists<'a> {
        self.lists
    }

    #[inline]
    pub fn size(&self) -> HullSize {
        self.lists.size
    }

    /// Its length unit, where it has a known one; a hull in any other breaks H1.
    #[inline]
    pub fn unit(&self) -> Result<Unit, UnknownUnit> {
        self.lists.size.known_unit()
    }

    #[inline]
    pub fn numbers(&self) -> &'a [f32] {
        self.lists.numbers
    }

    #[inline]
    pub fn links(&self) -> &'a [u8] {
        self.lists.links
    }
}

impl<'a> From<HullLists<'a>> for Hull<'a> {
    #[inline]
    fn from(lists: HullLists<'a>) -> Self {
        Hull { lists }
    }
}

/// A list that does not fit the sizes, with the length that would; none where a `usize` does not hold it.
#[derive(Debug, Clone, Copy, PartialEq, Eq)]
pub enum HullError {
    Numbers { wanted: Option<usize>, found: usize },
    Links { wanted: Option<usize>, found: usize },
}

impl fmt::Display for HullError {
    fn fmt(&self, f: &mut fmt::Formatter) -> fmt::Result {
        let (what, wanted, found) = match self {
            HullError::Numbers { wanted, found } => ("numbers", wanted, found),
            HullError::Links { wanted, found } => ("links", wanted, found),
        };
        match wanted {
            Some(wanted) => write!(f, "a hull of these sizes has {wanted} {what}, not {found}"),
            None => write!(f, "no hull is so large; {found} {what} were given"),
        }
    }
}

impl std::error::Error for HullError {}
