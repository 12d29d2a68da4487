//! Stand-in for `paulimer`: sparse Paulis, Clifford tables and the fifteen gates, phases dropped.
//!
//! Written from document 01, whose rules serve for Paulis and Clifford tables where paulimer isn't at hand.

pub mod clifford;
pub mod pauli;

pub use clifford::CliffordUnitary;
pub use pauli::SparsePauli;

/// The gates, in the order of document 01's codes.
#[derive(Debug, Clone, Copy, PartialEq, Eq)]
#[allow(missing_docs)]
pub enum UnitaryOp {
    I,
    X,
    Y,
    Z,
    Hadamard,
    SqrtZ,
    SqrtZInv,
    SqrtX,
    SqrtXInv,
    SqrtY,
    SqrtYInv,
    ControlledX,
    ControlledZ,
    Swap,
    PrepareBell,
}
