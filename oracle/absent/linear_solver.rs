//! A stub: the name of the solver that a dense matrix would use.

pub struct NalgebraLU<T>(std::marker::PhantomData<T>);
