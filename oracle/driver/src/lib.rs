//! The judge: the listed Rust, the definitions and the library on the same cases. See README.md.

pub mod blas;
pub mod case;
pub mod claims;
pub mod dblat1;
pub mod definition;
pub mod differences;
pub mod float;
pub mod judge;
pub mod list;
pub mod listed;
pub mod make;
#[cfg(feature = "mock")]
pub mod mock;
pub mod ours;
pub mod random;

#[cfg(konsjift)]
#[path = "../../../bindings/rust/konsjift.rs"]
pub mod konsjift;
