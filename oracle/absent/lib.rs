//! The crate's root, with the names that the listed files look for here. Not the published one.

pub mod context;
pub mod error;
pub mod linear_solver;
pub mod matrix;
pub mod scalar;
pub mod vector;

pub use context::nalgebra::NalgebraContext;
pub use context::Context;
pub use error::LaError;
pub use linear_solver::NalgebraLU;
pub use matrix::dense_nalgebra_serial::NalgebraMat;
pub use matrix::{DenseMatrix, Matrix, MatrixCommon};
pub use scalar::{scale, IndexType, NalgebraScalar, Scalar, Scale};
pub use vector::nalgebra_serial::{NalgebraIndex, NalgebraVec, NalgebraVecMut, NalgebraVecRef};
pub use vector::{
    DefaultDenseMatrix, Vector, VectorCommon, VectorIndex, VectorView, VectorViewMut,
};
