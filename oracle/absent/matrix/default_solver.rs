//! A stub: which solver a matrix would use.

pub trait DefaultSolver {
    type LS;
}
