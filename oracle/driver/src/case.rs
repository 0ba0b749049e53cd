//! A case: one call with its operands, and the line of text that stands for it.

use crate::float::{hex, Real};
use std::fmt::Write;

/// What an operand of a call is.
#[derive(Clone, Copy, PartialEq, Debug)]
pub enum Kind {
    /// A whole vector, or a column of every lane of a table.
    Vector,
    Table,
}

use Kind::{Table, Vector};

macro_rules! calls {
    ($($call:ident $word:literal ($($kind:ident),*) writes $($written:literal)*;)*) => {
        #[derive(Clone, Copy, PartialEq, Eq, PartialOrd, Ord, Debug)]
        pub enum Call {
            $($call,)*
        }

        impl Call {
            pub const ALL: &'static [Call] = &[$(Call::$call,)*];

            pub fn word(self) -> &'static str {
                match self {
                    $(Call::$call => $word,)*
                }
            }

            /// The kinds of the operands, the sources first.
            pub fn operands(self) -> &'static [Kind] {
                match self {
                    $(Call::$call => &[$($kind),*],)*
                }
            }

            /// The places of the operands that the call writes.
            pub fn written(self) -> &'static [usize] {
                match self {
                    $(Call::$call => &[$($written),*],)*
                }
            }
        }
    };
}

calls! {
    Axpy "axpy" (Vector, Vector) writes 1;
    BatchedAxpy "batched_axpy" (Vector, Vector, Vector) writes 2;
    Gemv "gemv" (Table, Vector, Vector) writes 2;
    GemvCols "gemv_cols" (Table, Vector) writes 1;
    GerCols "ger_cols" (Vector, Table) writes 1;
    MulColsBy "mul_cols_by" (Table) writes 0;
    MulColsByTranspose "mul_cols_by_transpose" (Table) writes 0;
    UpdateBackwardDiff "update_backward_diff" (Vector, Table) writes 1;
    UpdateBackwardDiffTranspose "update_backward_diff_transpose" (Table, Vector) writes 0 1;
    Gather "gather" (Vector, Vector) writes 1;
    Scatter "scatter" (Vector, Vector) writes 1;
    SquaredNorm "squared_norm" (Vector, Vector, Vector) writes;
    RootFinding "root_finding" (Vector, Vector) writes;
    CopyFrom "copy_from" (Vector, Vector) writes 1;
    AddAssign "add_assign" (Vector, Vector) writes 1;
    SubAssign "sub_assign" (Vector, Vector) writes 1;
    SubInto "sub_into" (Vector, Vector) writes 1;
    ComponentMulAssign "component_mul_assign" (Vector, Vector) writes 1;
    ComponentDivAssign "component_div_assign" (Vector, Vector) writes 1;
    MulAssign "mul_assign" (Vector) writes 0;
    DivAssign "div_assign" (Vector) writes 0;
    Fill "fill" (Vector) writes 0;
    FillIndex "fill_index" (Vector) writes 0;
    AssignAtIndices "assign_at_indices" (Vector) writes 0;
    CopyFromIndices "copy_from_indices" (Vector, Vector) writes 1;
    SetColumn "set_column" (Vector, Table) writes 1;
    AddColumnToVector "add_column_to_vector" (Table, Vector) writes 1;
    AddColumnsToBatchedVector "add_columns_to_batched_vector" (Table, Vector) writes 1;
    ScaleAddAndAssign "scale_add_and_assign" (Table, Table, Table) writes 2;
    FromDiagonal "from_diagonal" (Vector, Table) writes 1;
    ResizeCols "resize_cols" (Table, Table) writes 1;
    TableGather "table_gather" (Table, Table) writes 1;
    SetDataWithIndices "set_data_with_indices" (Vector, Table) writes 1;
    TableCopyFrom "table_copy_from" (Table, Table) writes 1;
    TableAddAssign "table_add_assign" (Table, Table) writes 1;
    TableSubAssign "table_sub_assign" (Table, Table) writes 1;
    TableSubInto "table_sub_into" (Table, Table) writes 1;
    TableMulAssign "table_mul_assign" (Table) writes 0;
    TableFill "table_fill" (Table) writes 0;
}

impl Call {
    /// Whether the call borrows work memory.
    pub fn works(self) -> bool {
        matches!(
            self,
            Call::MulColsBy | Call::MulColsByTranspose | Call::UpdateBackwardDiffTranspose
        )
    }

    /// Whether the C interface has the call.
    pub fn exported(self) -> bool {
        self <= Call::RootFinding
    }
}

/// Memory with its shape; of a vector, column `col` of every lane.
#[derive(Clone, Debug)]
pub struct Operand<T> {
    pub rows: usize,
    pub cols: usize,
    pub lanes: usize,
    pub col: usize,
    pub data: Vec<T>,
}

impl<T: Copy> Operand<T> {
    /// Where row i of column j of lane b lies.
    pub fn place(&self, b: usize, j: usize, i: usize) -> usize {
        (b * self.cols + j) * self.rows + i
    }

    pub fn at(&self, b: usize, j: usize, i: usize) -> T {
        self.data[self.place(b, j, i)]
    }

    /// The scalars that the shape takes, where a machine word can count them.
    pub fn size(&self) -> Option<usize> {
        self.rows.checked_mul(self.cols)?.checked_mul(self.lanes)
    }

    pub fn fits(&self) -> bool {
        self.size() == Some(self.data.len())
    }

    pub fn is_whole(&self) -> bool {
        self.cols == 1 && self.col == 0
    }
}

/// One call. What a call does not take is empty.
#[derive(Clone, Debug)]
pub struct Case<T> {
    pub call: Call,
    /// Columns, an order, a row: start and end; k; the order; the column; the row.
    pub counts: Vec<usize>,
    /// a, then b; rtol; the value that is stored.
    pub factors: Vec<T>,
    /// Coefficients of columns, or the numbers of a small matrix.
    pub numbers: Vec<T>,
    pub list: Vec<usize>,
    /// The places read where `list` has the places written.
    pub sources: Vec<usize>,
    /// Scalars of work memory.
    pub work: usize,
    pub operands: Vec<Operand<T>>,
}

/// What a side answers.
#[derive(Clone, Debug, PartialEq)]
pub enum Answer {
    /// The side has no form for these operands.
    Absent,
    /// A panic, or a refusal with its number.
    Refused(u8),
    /// The bits of all memory written, operand after operand, or of the number answered; and of
    /// `root_finding` what was found and in which row.
    Accepted(Vec<u64>, Option<(bool, i32)>),
}

impl Answer {
    pub fn is_refused(&self) -> bool {
        matches!(self, Answer::Refused(_))
    }

    pub fn is_accepted(&self) -> bool {
        matches!(self, Answer::Accepted(..))
    }

    /// The answer as fields of a line.
    pub fn fields<T: Real>(&self) -> String {
        match self {
            Answer::Absent => "absent".into(),
            Answer::Refused(number) => format!("refused\t{number}"),
            Answer::Accepted(bits, root) => {
                let mut line = "accepted".to_string();
                if let Some((found, row)) = root {
                    write!(line, "\t{}\t{row}", u8::from(*found)).unwrap();
                }
                counted(&mut line, bits.iter().map(|b| hex(T::of_bits(*b))));
                line
            }
        }
    }
}

/// The count of the items, then each of them.
fn counted(line: &mut String, items: impl ExactSizeIterator<Item = String>) {
    write!(line, "\t{}", items.len()).unwrap();
    for item in items {
        write!(line, "\t{item}").unwrap();
    }
}

impl<T: Real> Case<T> {
    pub fn new(call: Call) -> Case<T> {
        Case {
            call,
            counts: vec![],
            factors: vec![],
            numbers: vec![],
            list: vec![],
            sources: vec![],
            work: 0,
            operands: vec![],
        }
    }

    // ---- Cases by hand ----

    pub fn counts(mut self, counts: &[usize]) -> Self {
        self.counts = counts.to_vec();
        self
    }

    pub fn factors(mut self, factors: &[f64]) -> Self {
        self.factors = factors.iter().map(|v| T::of_f64(*v)).collect();
        self
    }

    pub fn numbers(mut self, numbers: &[f64]) -> Self {
        self.numbers = numbers.iter().map(|v| T::of_f64(*v)).collect();
        self
    }

    pub fn list(mut self, list: &[usize]) -> Self {
        self.list = list.to_vec();
        self
    }

    pub fn sources(mut self, sources: &[usize]) -> Self {
        self.sources = sources.to_vec();
        self
    }

    pub fn work(mut self) -> Self {
        self.work = 8;
        self
    }

    /// One more operand, its entries lane by lane and column by column.
    pub fn table(mut self, rows: usize, cols: usize, lanes: usize, data: &[f64]) -> Self {
        self.operands.push(Operand {
            rows,
            cols,
            lanes,
            col: 0,
            data: data.iter().map(|v| T::of_f64(*v)).collect(),
        });
        self
    }

    /// One more operand, a whole vector.
    pub fn vector(self, lanes: usize, data: &[f64]) -> Self {
        self.table(data.len() / lanes, 1, lanes, data)
    }

    // ---- What is written of it ----

    /// The bits of the memory that the call writes.
    pub fn written(&self) -> Vec<u64> {
        let places = self.call.written().iter();
        places
            .flat_map(|&k| self.operands[k].data.iter().map(|v| v.bits()))
            .collect()
    }

    /// The case as fields of a line; README.md says which.
    pub fn fields(&self) -> String {
        let mut line = format!("{}\t{}", self.call.word(), T::WIDTH);
        counted(&mut line, self.counts.iter().map(usize::to_string));
        counted(&mut line, self.factors.iter().map(|v| hex(*v)));
        counted(&mut line, self.numbers.iter().map(|v| hex(*v)));
        counted(&mut line, self.list.iter().map(usize::to_string));
        counted(&mut line, self.sources.iter().map(usize::to_string));
        write!(line, "\t{}", self.work).unwrap();
        for o in &self.operands {
            write!(line, "\t{}\t{}\t{}\t{}", o.rows, o.cols, o.lanes, o.col).unwrap();
            counted(&mut line, o.data.iter().map(|v| hex(*v)));
        }
        line
    }
}
