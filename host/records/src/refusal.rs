//! The refusals of documents 01 and 02 by their numbers: what each means, and what to do about it.

use std::fmt;

/// In the order in which they are given. The number 7 ended with the refusal that had it, and is not given to anything else.
#[derive(Debug, Clone, Copy, PartialEq, Eq)]
pub enum Refusal {
    HullA,
    HullB,
    Units,
    Transform,
    Cache,
    PaddingWon,
    CutFull,
    Owner,
    /// Of a whole step alone, and of no pair: nothing was written.
    NoRoom,
    /// A number that is none of these. No library of this ABI number gives it; if one did, its call must not pass for an
    /// accepted one.
    Unknown {
        status: u8,
    },
}

impl Refusal {
    /// Those that are given.
    pub const ALL: [Refusal; 9] = [
        Refusal::HullA,
        Refusal::HullB,
        Refusal::Units,
        Refusal::Transform,
        Refusal::Cache,
        Refusal::PaddingWon,
        Refusal::CutFull,
        Refusal::Owner,
        Refusal::NoRoom,
    ];

    /// The refusal of this number; none where it is 0, and only there: nothing but 0 says that a call was accepted. A call's
    /// status is at most 6 or it is 17, that of a question whether hulls are apart at most 3 or 17, a flip's is 0 or 8, and a
    /// step's 0 or 21.
    #[inline]
    pub fn of_status(status: u8) -> Option<Refusal> {
        if status == 0 {
            return None;
        }
        let numbered = |refusal: &Refusal| refusal.number() == status;
        let given = Refusal::ALL.into_iter().find(numbered);
        Some(given.unwrap_or(Refusal::Unknown { status }))
    }

    pub fn number(self) -> u8 {
        match self {
            Refusal::HullA => 1,
            Refusal::HullB => 2,
            Refusal::Units => 17,
            Refusal::Transform => 3,
            Refusal::Cache => 4,
            Refusal::PaddingWon => 5,
            Refusal::CutFull => 6,
            Refusal::Owner => 8,
            Refusal::NoRoom => 21,
            Refusal::Unknown { status } => status,
        }
    }

    /// When it is given.
    pub fn meaning(self) -> &'static str {
        match self {
            Refusal::HullA => "hull A breaks a rule",
            Refusal::HullB => "hull B breaks a rule",
            Refusal::Units => "the two hulls have different length units",
            Refusal::Transform => {
                "the transform is not finite, farther than 4096 * unit on an axis, or no rotation"
            }
            Refusal::Cache => "the cache names a face or an edge that its hull does not have",
            Refusal::PaddingWon => "a padding lane reaches farther than every vertex",
            Refusal::CutFull => "a cut would put out a 65th vertex",
            Refusal::Owner => "the pair to be flipped has an owner above 1",
            Refusal::NoRoom => "a list that is lent has too few places for the hulls and pairs",
            Refusal::Unknown { .. } => "the library gives a number that this wrapper does not know",
        }
    }

    /// What a host can do about it.
    pub fn remedy(self) -> &'static str {
        match self {
            Refusal::HullA | Refusal::HullB => "ask for the rule that it breaks, and mend the hull",
            Refusal::Units => {
                "bring both hulls to one unit: multiply box, coordinates and offsets of one of them, and set its unit"
            }
            Refusal::Transform => {
                "give B's place in A's frame and unit, and normalize the quaternion every few steps"
            }
            Refusal::Cache => {
                "start this pair from an empty cache; a cache belongs to one pair of hulls"
            }
            Refusal::PaddingWon => "fill the padding with vertex 0",
            Refusal::CutFull => "give the two faces fewer sides",
            Refusal::Owner => "an owner is 0 for hull A or 1 for hull B",
            Refusal::NoRoom => {
                "lend for each hull a place of judged, and for each pair 7 of transforms, 2 of caches, 19 of floats, 24 of bytes"
            }
            Refusal::Unknown { .. } => "take the library and the wrapper from the same release",
        }
    }
}

impl fmt::Display for Refusal {
    fn fmt(&self, f: &mut fmt::Formatter) -> fmt::Result {
        let (meaning, remedy) = (self.meaning(), self.remedy());
        write!(
            f,
            "refusal {}: {meaning}; what to do: {remedy}",
            self.number()
        )
    }
}

impl std::error::Error for Refusal {}
