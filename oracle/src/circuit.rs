//! The published `circuit`, unchanged, with the one function it lacks.

#![allow(dead_code, reason = "the published text has more than the pass uses")]

include!(concat!(env!("OUT_DIR"), "/circuit.rs"));

/// Stand-in, as it is not in the text given: the number of wires of a gate and
/// the wires in the order of the enum's fields, 0 in the places left over.
#[inline]
pub fn qubit_operands(gate: &Gate) -> (usize, [Qubit; 3]) {
    match gate {
        Gate::x(q)
        | Gate::h(q)
        | Gate::s(q)
        | Gate::sdg(q)
        | Gate::z(q)
        | Gate::t(q)
        | Gate::tdg(q)
        | Gate::rz(_, q)
        | Gate::measure { qubit: q, .. }
        | Gate::reset(q)
        | Gate::p(_, q)
        | Gate::y(q)
        | Gate::sx(q)
        | Gate::rx(_, q)
        | Gate::ry(_, q) => (1, [*q, 0, 0]),
        Gate::cnot { control, target }
        | Gate::cz { control, target }
        | Gate::cy { control, target }
        | Gate::cp {
            control, target, ..
        }
        | Gate::crx {
            control, target, ..
        }
        | Gate::cry {
            control, target, ..
        }
        | Gate::crz {
            control, target, ..
        }
        | Gate::ch { control, target } => (2, [*control, *target, 0]),
        Gate::swap(a, b) => (2, [*a, *b, 0]),
        Gate::ccx {
            control1,
            control2,
            target,
        }
        | Gate::ccz {
            control1,
            control2,
            target,
        } => (3, [*control1, *control2, *target]),
        Gate::cswap {
            control,
            first,
            second,
        } => (3, [*control, *first, *second]),
    }
}

#[cfg(test)]
mod tests {
    use super::Gate;

    /// The size the published comments give; times depend on it.
    #[test]
    fn a_gate_is_32_bytes() {
        assert_eq!(size_of::<Gate>(), 32);
        assert_eq!(size_of::<Option<Gate>>(), 32);
        assert_eq!(size_of::<crate::angle::Angle>(), 16);
    }
}
