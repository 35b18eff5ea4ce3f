//! Stands in for faer: the types and signatures that the sparse solver is written with. A comparison never solves, so
//! no body is there; the types can be made empty, because closing and the pressure pass are methods of the solver.

pub use matrix::Mat;

#[derive(Clone, Copy)]
pub enum Side {
    Lower,
}

pub mod prelude {}

mod matrix {
    pub struct Mat<T>(std::marker::PhantomData<T>);

    impl<T> Mat<T> {
        pub fn from_fn(_rows: usize, _columns: usize, _entry: impl FnMut(usize, usize) -> T) -> Self {
            unimplemented!()
        }
    }

    impl<T> std::ops::Index<(usize, usize)> for Mat<T> {
        type Output = T;
        fn index(&self, _at: (usize, usize)) -> &T {
            unimplemented!()
        }
    }
}

pub mod dyn_stack {
    pub struct StackReq;

    pub struct MemBuffer;

    impl MemBuffer {
        pub fn new(_size: StackReq) -> Self {
            unimplemented!()
        }
    }

    pub struct MemStack;

    impl MemStack {
        pub fn new(_buffer: &mut MemBuffer) -> &mut Self {
            unimplemented!()
        }
    }
}

pub mod linalg {
    pub mod cholesky {
        pub mod llt {
            pub mod factor {
                #[derive(Debug)]
                pub enum LltError {
                    NonPositivePivot { index: usize },
                }
            }
        }
    }
}

pub mod sparse {
    use std::marker::PhantomData;

    /// What goes wrong where a matrix is made.
    #[derive(Debug)]
    pub struct CreationError;

    pub struct Triplet<I, T>(PhantomData<(I, T)>);

    impl<T> Triplet<usize, T> {
        pub fn new(_row: usize, _column: usize, _value: T) -> Self {
            unimplemented!()
        }
    }

    #[derive(Clone, Default)]
    pub struct SymbolicSparseColMat<I>(PhantomData<I>);

    impl<I> SymbolicSparseColMat<I> {
        pub fn as_ref(&self) -> SymbolicSparseColMatRef<'_, I> {
            unimplemented!()
        }
    }

    #[derive(Clone, Copy)]
    pub struct SymbolicSparseColMatRef<'a, I>(PhantomData<&'a I>);

    impl<'a, I> SymbolicSparseColMatRef<'a, I> {
        pub fn col_ptr(&self) -> &'a [I] {
            unimplemented!()
        }

        pub fn row_idx(&self) -> &'a [I] {
            unimplemented!()
        }

        pub fn compute_nnz(&self) -> usize {
            unimplemented!()
        }

        pub fn to_owned(&self) -> Result<SymbolicSparseColMat<I>, CreationError> {
            unimplemented!()
        }
    }

    #[derive(Clone, Default)]
    pub struct SparseColMat<I, T>(PhantomData<(I, T)>);

    impl<I, T> SparseColMat<I, T> {
        pub fn new(_symbolic: SymbolicSparseColMat<I>, _values: Vec<T>) -> Self {
            unimplemented!()
        }

        pub fn try_new_from_triplets(
            _rows: usize,
            _columns: usize,
            _entries: &[Triplet<I, T>],
        ) -> Result<Self, CreationError> {
            unimplemented!()
        }

        pub fn symbolic(&self) -> SymbolicSparseColMatRef<'_, I> {
            unimplemented!()
        }

        pub fn val_mut(&mut self) -> &mut [T] {
            unimplemented!()
        }

        pub fn as_ref(&self) -> SparseColMatRef<'_, I, T> {
            unimplemented!()
        }
    }

    pub struct SparseColMatRef<'a, I, T>(PhantomData<&'a (I, T)>);

    pub mod linalg {
        use crate::linalg::cholesky::llt::factor;

        #[derive(Debug)]
        pub enum LltError {
            Numeric(factor::LltError),
            Generic,
        }

        impl std::fmt::Display for LltError {
            fn fmt(&self, f: &mut std::fmt::Formatter<'_>) -> std::fmt::Result {
                std::fmt::Debug::fmt(self, f)
            }
        }

        pub mod solvers {
            use super::LltError;
            use crate::sparse::{SparseColMatRef, SymbolicSparseColMatRef};
            use crate::{Mat, Side};
            use std::marker::PhantomData;

            #[derive(Clone, Default)]
            pub struct SymbolicLlt<I>(PhantomData<I>);

            impl<I> SymbolicLlt<I> {
                pub fn try_new(_matrix: SymbolicSparseColMatRef<'_, I>, _side: Side) -> Result<Self, LltError> {
                    unimplemented!()
                }
            }

            pub struct Llt<I, T>(PhantomData<(I, T)>);

            impl<I, T> Llt<I, T> {
                pub fn try_new_with_symbolic(
                    _symbolic: SymbolicLlt<I>,
                    _matrix: SparseColMatRef<'_, I, T>,
                    _side: Side,
                ) -> Result<Self, LltError> {
                    unimplemented!()
                }

                pub fn solve(&self, _right_side: &Mat<T>) -> Mat<T> {
                    unimplemented!()
                }
            }
        }

        pub mod amd {
            use crate::dyn_stack::{MemStack, StackReq};
            use crate::sparse::{CreationError, SymbolicSparseColMatRef};

            #[derive(Default)]
            pub struct Control;

            pub fn order_maybe_unsorted_scratch<I>(_size: usize, _entries: usize) -> StackReq {
                unimplemented!()
            }

            pub fn order_maybe_unsorted<I>(
                _forward: &mut [I],
                _inverse: &mut [I],
                _matrix: SymbolicSparseColMatRef<'_, I>,
                _control: Control,
                _stack: &mut MemStack,
            ) -> Result<(), CreationError> {
                unimplemented!()
            }
        }
    }
}
