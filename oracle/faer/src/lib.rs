//! The names of faer that the listed Rust mentions, and nothing behind them.

/// A factor, as faer has it.
#[derive(Clone, Copy, Debug)]
pub struct Scale<T>(pub T);

pub mod traits {
    pub trait ComplexField {}
    pub trait RealField {}
    impl ComplexField for f64 {}
    impl ComplexField for f32 {}
    impl RealField for f64 {}
    impl RealField for f32 {}
}

pub mod sparse {
    /// Why a sparse matrix could not be made: never, here.
    #[derive(Clone, Copy, Debug)]
    pub enum CreationError {}

    impl std::fmt::Display for CreationError {
        fn fmt(&self, _: &mut std::fmt::Formatter<'_>) -> std::fmt::Result {
            match *self {}
        }
    }

    impl std::error::Error for CreationError {}
}
