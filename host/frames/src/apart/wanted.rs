//! The answer to a question that documents 01 and 02 want, and what its search saw. Without the Rust text only a refusal can be
//! told.

#[cfg(rust_text)]
use cases::calls::Work;
use cases::calls::{Largest, Question};
use records::Apart;

pub struct Told {
    pub answer: Apart,
    /// None where the question is refused.
    pub seen: Option<Seen>,
}

/// A search through every axis.
pub struct Seen {
    pub largest: Largest,
    pub speculative: f32,
    /// Whether some pair of edges has a NaN as its separation.
    pub nan: bool,
    /// Whether a padding lane is the support of the best face of A or of B.
    pub padding: bool,
    /// Whether the largest of the pairs of edges, transcribed one by one, is the text's best, bit for bit.
    pub edges_agree: bool,
}

pub fn of(question: &Question) -> Option<Told> {
    match question.without_work() {
        Some(answer) => Some(Told { answer, seen: None }),
        None => searched(question),
    }
}

#[cfg(rust_text)]
fn searched(question: &Question) -> Option<Told> {
    let work = Work::of_call(&question.call());
    let query = work.search_to_end();
    let (largest, edges) = (Largest::of(&query), work.edge_separations());
    let of_edges = edges.iter().fold(
        f32::NEG_INFINITY,
        |best, &edge| {
            if edge > best {
                edge
            } else {
                best
            }
        },
    );
    let speculative = work.speculative();
    let beyond = |vertex: i32, vertices: usize| vertex as usize >= vertices;
    Some(Told {
        answer: Apart {
            status: 0,
            apart: largest.is_above(speculative).into(),
        },
        seen: Some(Seen {
            largest,
            speculative,
            nan: edges.iter().any(|edge| edge.is_nan()),
            padding: beyond(query.face_a.index_b, question.b.size.vertices)
                || beyond(query.face_b.index_a, question.a.size.vertices),
            edges_agree: of_edges.to_bits() == largest.edge.to_bits(),
        }),
    })
}

#[cfg(not(rust_text))]
fn searched(_: &Question) -> Option<Told> {
    None
}
