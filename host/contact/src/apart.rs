//! Whether two hulls are apart, and no points.

use crate::{linked, Apart, Hull, Refusal, Transform};

/// Whether hull A and hull B, B placed in A's frame, are apart: a yes where on some axis (a face of A, a face of B, a pair of edges)
/// they lie more than the speculative distance of their unit from each other ([`Unit::speculative_distance`]), the distance itself
/// not included. The same yes as that of a [`collide`] from an empty cache that ends with an axis apart and no points. There is no
/// cache, and nothing is worked out but the answer, which is for editors and for sorting out pairs.
///
/// A no does not say that there are points: on no axis are the hulls so far apart, and a call may still find nothing that touches.
///
/// A question is refused where a hull breaks a rule, the units differ or the transform breaks its rule, in this order
/// ([`Refusal::HullA`], [`Refusal::HullB`], [`Refusal::Units`], [`Refusal::Transform`]), and for nothing else: padding that reaches
/// farther than every vertex, which a call may be refused for, is none of its reasons. [`Refused::new`] says a refusal in words.
///
/// ```
/// use contact::{apart, HullBuilder, Quat, Refusal, Refused, Transform, Unit, Vec3};
///
/// // A log 24 cm thick at its thick end, dragged over another, in metres.
/// let log = HullBuilder::log(12, 0.12, 0.1, 4.0).build()?;
/// let above = |z| Transform { p: Vec3 { x: 0.0, y: 0.0, z }, q: Quat::IDENTITY };
/// assert_eq!(apart(&log.lend(), &log.lend(), above(0.3)), Ok(true));
/// assert_eq!(apart(&log.lend(), &log.lend(), above(0.22)), Ok(false));
///
/// // What is near enough for points is not apart: two boards in metres, the upper one 1 cm and 3 cm above the other.
/// let board = HullBuilder::board(4.0, 0.2, 0.05).build()?;
/// assert_eq!(Unit::Metres.speculative_distance(), 0.02);
/// let gap = |gap: f32| apart(&board.lend(), &board.lend(), above(0.05 + gap));
/// assert_eq!((gap(0.01), gap(0.03)), (Ok(false), Ok(true)));
///
/// // What breaks a rule is refused, and is no yes.
/// let (a, b) = (log.lend(), board.lend());
/// let refusal = apart(&a, &b, above(f32::NAN)).unwrap_err();
/// assert_eq!(refusal, Refusal::Transform);
/// assert!(Refused::new(refusal, &a, &b).to_string().starts_with("refusal 3: the transform is not finite, "));
/// # Ok::<(), contact::BuildError>(())
/// ```
///
/// [`collide`]: crate::collide
/// [`Refused::new`]: crate::Refused::new
/// [`Unit::speculative_distance`]: crate::Unit::speculative_distance
#[inline]
pub fn apart(a: &Hull, b: &Hull, transform: Transform) -> Result<bool, Refusal> {
    apart_record(a, b, transform).accepted()
}

/// The same in the record that the library returns.
#[inline]
pub fn apart_record(a: &Hull, b: &Hull, transform: Transform) -> Apart {
    linked::fits();
    // The library asks nothing of its lists and sizes, and writes to nothing.
    unsafe {
        linked::contact_apart(
            a.numbers().as_ptr(),
            a.numbers().len(),
            a.links().as_ptr(),
            a.links().len(),
            a.size(),
            b.numbers().as_ptr(),
            b.numbers().len(),
            b.links().as_ptr(),
            b.links().len(),
            b.size(),
            transform,
        )
    }
}
