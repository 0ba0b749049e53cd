//! A stub: sparsity is not judged, and a dense matrix has none.

use crate::{IndexType, Matrix, Vector};
use std::marker::PhantomData;

type Blocks<M, S> = [(S, <<M as crate::MatrixCommon>::V as Vector>::Index); 4];

pub trait MatrixSparsity<M: Matrix> {
    fn nrows(&self) -> IndexType;
    fn ncols(&self) -> IndexType;
}

pub trait MatrixSparsityRef<'a, M: Matrix> {
    fn split(&self, indices: &<M::V as Vector>::Index) -> Blocks<M, M::Sparsity>;
}

pub struct Dense<M: Matrix> {
    nrows: IndexType,
    ncols: IndexType,
    of: PhantomData<M>,
}

pub struct DenseRef<'a, M: Matrix>(PhantomData<&'a M>);

impl<M: Matrix> Dense<M> {
    pub fn new(nrows: IndexType, ncols: IndexType) -> Self {
        Dense {
            nrows,
            ncols,
            of: PhantomData,
        }
    }
    pub fn split(&self, _: &<M::V as Vector>::Index) -> Blocks<M, Self> {
        unimplemented!("blocks of a matrix are not judged")
    }
}

impl<M: Matrix> MatrixSparsity<M> for Dense<M> {
    fn nrows(&self) -> IndexType {
        self.nrows
    }
    fn ncols(&self) -> IndexType {
        self.ncols
    }
}

impl<'a, M: Matrix> MatrixSparsityRef<'a, M> for DenseRef<'a, M> {
    fn split(&self, _: &<M::V as Vector>::Index) -> Blocks<M, M::Sparsity> {
        unimplemented!("blocks of a matrix are not judged")
    }
}
