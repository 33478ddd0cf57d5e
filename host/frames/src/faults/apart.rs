//! Faults that the question whether two hulls are apart could have. The comparison of questions is tried on them.

use cases::calls::{transform_accepted, Largest, Question, Work};
use cases::shapes::broken_rule;
use records::{Apart, Unit};

/// What the question returns.
pub type Questions = fn(&Question) -> Apart;

/// As it should be.
pub fn right(question: &Question) -> Apart {
    question.wanted()
}

/// The right refusals, and where there is none a yes by this.
fn yes_where(question: &Question, yes: impl FnOnce(&Work) -> bool) -> Apart {
    question.without_work().unwrap_or_else(|| Apart {
        status: 0,
        apart: yes(&Work::of_call(&question.call())).into(),
    })
}

/// A yes where the largest separation is strictly above the speculative distance, once some are changed.
fn of_largest(question: &Question, change: impl FnOnce(&mut Largest)) -> Apart {
    yes_where(question, |work| {
        let mut largest = work.largest();
        change(&mut largest);
        largest.is_above(work.speculative())
    })
}

/// The first reason to refuse in this order of them, and the right answer where there is none.
fn refused_in(question: &Question, order: [u8; 4]) -> Apart {
    let Question { a, b, transform } = *question;
    let first = order.into_iter().find(|refusal| match refusal {
        1 => broken_rule(a) != 0,
        2 => broken_rule(b) != 0,
        17 => a.size.unit != b.size.unit,
        _ => !transform_accepted(a.size.unit, transform),
    });
    first.map_or_else(|| right(question), |status| Apart { status, apart: 0 })
}

const NONE: f32 = f32::NEG_INFINITY;

pub const FAULTS: [(&str, Questions); 18] = [
    ("at or above the speculative distance", |question| {
        yes_where(question, |work| {
            work.largest().of_all() >= work.speculative()
        })
    }),
    ("A's faces left out", |question| {
        of_largest(question, |largest| largest.face_a = NONE)
    }),
    ("B's faces left out", |question| {
        of_largest(question, |largest| largest.face_b = NONE)
    }),
    ("pairs of edges left out", |question| {
        of_largest(question, |largest| largest.edge = NONE)
    }),
    ("the largest of the last phase alone", |question| {
        of_largest(question, |largest| {
            largest.face_a = NONE;
            if largest.edge > NONE {
                largest.face_b = NONE;
            }
        })
    }),
    ("the better face alone where it touches", |question| {
        of_largest(question, |largest| {
            if largest.face_a.max(largest.face_b) > 0.0 {
                largest.edge = NONE;
            }
        })
    }),
    ("a NaN taken for a yes", |question| {
        yes_where(question, |work| {
            let nan = work.edge_separations().iter().any(|edge| edge.is_nan());
            nan || work.largest().is_above(work.speculative())
        })
    }),
    ("a NaN taken for a no", |question| {
        yes_where(question, |work| {
            let nan = work.edge_separations().iter().any(|edge| edge.is_nan());
            !nan && work.largest().is_above(work.speculative())
        })
    }),
    ("the speculative distance of metres", |question| {
        yes_where(question, |work| {
            let distance = Unit::Metres.speculative_distance();
            work.largest().is_above(distance)
        })
    }),
    (
        "the slop in place of the speculative distance",
        |question| {
            yes_where(question, |work| {
                work.largest().is_above(work.speculative() / 4.0)
            })
        },
    ),
    (
        "a padding lane that wins refused by 5",
        |question| match question.call().wanted().outcome.status {
            5 => Apart {
                status: 5,
                apart: 0,
            },
            _ => right(question),
        },
    ),
    ("2 before 1", |question| refused_in(question, [2, 1, 17, 3])),
    ("17 before 2", |question| {
        refused_in(question, [1, 17, 2, 3])
    }),
    ("3 before 17", |question| {
        refused_in(question, [1, 2, 3, 17])
    }),
    ("3 before 1", |question| refused_in(question, [3, 1, 2, 17])),
    ("17 not given", |question| {
        let mut question = *question;
        question.b.size.unit = question.a.size.unit;
        right(&question)
    }),
    ("a yes on a refusal", |question| {
        let answer = right(question);
        Apart {
            apart: answer.apart | u8::from(answer.status != 0),
            ..answer
        }
    }),
    ("a yes that is no 1", |question| {
        let answer = right(question);
        Apart {
            apart: 255 * answer.apart,
            ..answer
        }
    }),
];
