//! Stand-in for the published `symbolic_angle`: the same shape in memory, no arithmetic.

use std::fmt;
use std::sync::Arc;

/// Laid out, cloned and dropped as the published type. Nothing makes one.
#[allow(dead_code, reason = "no angle is made; the field gives the size")]
#[derive(Clone, Debug)]
pub struct Angle(Value);

/// The published cases; only the shared node's content is missing.
#[allow(dead_code, reason = "no angle is made; the cases give the size")]
#[derive(Clone, Debug)]
enum Value {
    Rational { n: i32, d: u32 },
    Pi { n: i32, d: u32 },
    Dyadic(u64),
    Shared(Arc<()>),
}

/// Why there is no angle.
#[derive(Clone, Copy, Debug, PartialEq, Eq)]
pub struct Error;

/// Bounds on the arithmetic that is not here.
#[derive(Clone, Copy, Debug, Default)]
pub struct Limits;

/// The state of the arithmetic that is not here.
#[derive(Default)]
pub struct AngleContext(());

/// What the arithmetic can say of a statement.
#[derive(Clone, Copy, Debug, PartialEq, Eq)]
#[allow(dead_code, reason = "the pass only asks for `Proven`")]
pub enum Proof {
    Proven,
    Disproven,
    Unknown,
}

impl AngleContext {
    pub fn with_limits(_limits: Limits) -> Self {
        Self(())
    }
    pub fn with_run_budget(self) -> Self {
        self
    }
}

impl Angle {
    /// The only place an angle could come from, and it refuses.
    pub fn from_f64(_value: f64) -> Result<Self, Error> {
        Err(Error)
    }
    pub(crate) fn projective_quarters(&self) -> Option<u8> {
        no_angle()
    }
    pub(crate) fn affine_parts(&self) -> Option<(Self, Self)> {
        no_angle()
    }
    pub(crate) fn checked_half(&self) -> Result<Self, Error> {
        no_angle()
    }
    pub(crate) fn literal_eq(&self, _other: &Self) -> bool {
        no_angle()
    }
}

impl PartialEq for Angle {
    fn eq(&self, _other: &Self) -> bool {
        no_angle()
    }
}

impl fmt::Display for Angle {
    fn fmt(&self, _f: &mut fmt::Formatter<'_>) -> fmt::Result {
        no_angle()
    }
}

fn no_angle() -> ! {
    unreachable!("no angle was ever made")
}

/// The question the pair sweep asks of two rotations, never reached.
pub mod integration {
    use super::{Angle, AngleContext, Error, Proof, no_angle};

    #[derive(Clone, Copy, Debug, PartialEq, Eq)]
    pub enum GateFamily {
        P,
        Rx,
        Ry,
        Rz,
        Cp,
        Crx,
        Cry,
        Crz,
    }

    #[derive(Clone, Copy, Debug, PartialEq, Eq)]
    #[allow(dead_code, reason = "the pass only names `ProjectiveCircuit`")]
    pub enum Scope {
        Literal,
        ProjectiveCircuit,
    }

    #[derive(Clone, Copy, Debug, PartialEq, Eq)]
    pub struct GateSemantics {
        pub family: GateFamily,
        pub scope: Scope,
    }

    impl GateSemantics {
        pub fn prove_inverse(
            self,
            _context: &mut AngleContext,
            _left: &Angle,
            _right: &Angle,
        ) -> Result<Proof, Error> {
            no_angle()
        }
    }
}
