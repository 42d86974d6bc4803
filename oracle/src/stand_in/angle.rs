//! Stand-in for the published `angle`: the names the pass asks for, with no angle ever made.

use std::borrow::Cow;

use crate::circuit::{Circuit, Gate};
pub use crate::symbolic_angle::{Angle, AngleContext, Error as AngleError, Limits};

/// The published loop over the gates, so that a run takes the published time.
/// It borrows: the other arm needs an `rz`, and no record gives one.
pub(crate) fn lowered_if_needed(circuit: &Circuit) -> Cow<'_, Circuit> {
    if circuit
        .gates
        .iter()
        .any(|g| matches!(g, Gate::rz(a, _) if a.projective_quarters().is_some()))
    {
        unreachable!("no gate here carries an angle")
    } else {
        Cow::Borrowed(circuit)
    }
}
