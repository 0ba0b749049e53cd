//! Sums, differences and products by a factor, entry by entry.

use crate::{Columns, DMatrix, Field, MatrixView, MatrixViewMut};
use std::ops::{Add, AddAssign, Mul, MulAssign, Sub, SubAssign};

macro_rules! assigning {
    ($operator:ident, $method:ident, $op:tt, [$($generics:tt)*] $kind:ty) => {
        impl<$($generics)*, M: Columns<T>> $operator<&M> for $kind
        where
            T: Field,
        {
            #[inline]
            fn $method(&mut self, other: &M) {
                assert_eq!(
                    self.shape(),
                    other.shape(),
                    "Matrix addition/subtraction dimensions mismatch."
                );
                self.zip_apply(other, |y, x| *y $op x);
            }
        }
    };
}
assigning!(AddAssign, add_assign, +=, [T] DMatrix<T>);
assigning!(SubAssign, sub_assign, -=, [T] DMatrix<T>);
assigning!(AddAssign, add_assign, +=, [T, R, C, S, Z] MatrixViewMut<'_, T, R, C, S, Z>);
assigning!(SubAssign, sub_assign, -=, [T, R, C, S, Z] MatrixViewMut<'_, T, R, C, S, Z>);

macro_rules! allocating {
    ($operator:ident, $method:ident, $op:tt, [$($generics:tt)*] $kind:ty) => {
        impl<$($generics)*, M: Columns<T>> $operator<&M> for $kind
        where
            T: Field,
        {
            type Output = DMatrix<T>;
            #[inline]
            fn $method(self, other: &M) -> DMatrix<T> {
                assert_eq!(
                    self.shape(),
                    other.shape(),
                    "Matrix addition/subtraction dimensions mismatch."
                );
                let mut sum = self.clone_owned();
                sum.zip_apply(other, |y, x| *y = *y $op x);
                sum
            }
        }
    };
}
allocating!(Add, add, +, [T] &DMatrix<T>);
allocating!(Sub, sub, -, [T] &DMatrix<T>);
allocating!(Add, add, +, [T, R, C, S, Z] &MatrixView<'_, T, R, C, S, Z>);
allocating!(Sub, sub, -, [T, R, C, S, Z] &MatrixView<'_, T, R, C, S, Z>);

impl<T: Field> MulAssign<T> for DMatrix<T> {
    #[inline]
    fn mul_assign(&mut self, factor: T) {
        self.as_mut_slice().iter_mut().for_each(|y| *y *= factor);
    }
}

impl<T: Field, R, C, S, Z> MulAssign<T> for MatrixViewMut<'_, T, R, C, S, Z> {
    #[inline]
    fn mul_assign(&mut self, factor: T) {
        use crate::ColumnsMut;
        for j in 0..self.ncols() {
            self.run_mut(j).iter_mut().for_each(|y| *y *= factor);
        }
    }
}

impl<T: Field> Mul<T> for DMatrix<T> {
    type Output = DMatrix<T>;
    #[inline]
    fn mul(mut self, factor: T) -> DMatrix<T> {
        self *= factor;
        self
    }
}

impl<T: Field> Mul<T> for &DMatrix<T> {
    type Output = DMatrix<T>;
    fn mul(self, factor: T) -> DMatrix<T> {
        self.clone_owned() * factor
    }
}
