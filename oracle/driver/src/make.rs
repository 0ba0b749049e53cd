//! The case maker: calls with shapes, lanes, views and numbers by chance, most of them lawful and
//! the rest spoiled in one way or two. A case is made from its seed and its place alone.

use crate::case::{Call, Case, Kind, Operand};
use crate::float::Real;
use crate::random::Random;

/// Which sizes a case takes.
#[derive(Clone, Copy, PartialEq)]
pub enum Size {
    /// As they come.
    Any,
    /// A few entries, to be read by people.
    Small,
}

/// The sizes of one case; one of them may lie at its limit, and the others are small then.
#[derive(Clone, Copy, PartialEq)]
enum Extent {
    Usual,
    Few,
    MostRows,
    MostCols,
    MostLanes,
}

/// Which numbers a case takes; each takes some of the special ones too.
#[derive(Clone, Copy)]
enum Palette {
    Whole,
    Unit,
    Near,
    Wide,
    Special,
    Bits,
}

struct Maker {
    random: Random,
    extent: Extent,
    palette: Palette,
}

/// The case at a place of the run with this seed.
pub fn make<T: Real>(seed: u64, place: u64, size: Size) -> Case<T> {
    let mut random = Random::new(seed.wrapping_mul(0xd134_2543_de82_ef95) ^ place);
    // The first answers of neighbouring seeds resemble one another.
    random.next();
    let extent = match (size, random.below(1000)) {
        (Size::Small, _) => Extent::Few,
        (Size::Any, 0) => Extent::MostRows,
        (Size::Any, 1..=3) => Extent::MostCols,
        (Size::Any, 4..=6) => Extent::MostLanes,
        (Size::Any, _) => Extent::Usual,
    };
    let palettes = [
        Palette::Whole,
        Palette::Unit,
        Palette::Near,
        Palette::Wide,
        Palette::Special,
        Palette::Bits,
    ];
    let palette = random.pick(&palettes);
    let mut maker = Maker {
        random,
        extent,
        palette,
    };
    let call = maker.call();
    maker.case(call)
}

impl Maker {
    /// The calls of the C interface come twice as often as the others.
    fn call(&mut self) -> Call {
        let exported: Vec<_> = Call::ALL.iter().copied().filter(|c| c.exported()).collect();
        if self.random.chance(50) {
            return self.random.pick(&exported);
        }
        self.random.pick(Call::ALL)
    }

    fn case<T: Real>(&mut self, call: Call) -> Case<T> {
        let mut case = self.lawful(call);
        let faults = match self.random.below(100) {
            0..=69 => 0,
            70..=94 => 1,
            _ => 2,
        };
        for _ in 0..faults {
            self.spoil(&mut case);
        }
        self.fill(&mut case);
        if self.random.chance(2) {
            self.spoil_memory(&mut case);
        }
        if call == Call::RootFinding && self.random.chance(70) {
            for operand in &mut case.operands {
                repeat_first_lane(operand);
            }
        }
        case
    }

    // ---- Sizes ----

    fn rows(&mut self) -> usize {
        match self.extent {
            Extent::MostRows => 65_536,
            Extent::MostCols | Extent::MostLanes => self.random.within(1, 2),
            Extent::Few => self.random.below(4),
            Extent::Usual => match self.random.below(100) {
                0..=69 => self.random.below(7),
                70..=91 => self.random.within(7, 40),
                92..=97 => self.random.within(41, 200),
                _ => self.random.within(201, 1_500),
            },
        }
    }

    /// At least `least` columns.
    fn cols(&mut self, least: usize) -> usize {
        match self.extent {
            Extent::MostCols => 1_024,
            Extent::MostRows | Extent::MostLanes => least + self.random.below(2),
            Extent::Few => least + self.random.below(3),
            Extent::Usual => least + self.random.below(8),
        }
    }

    fn lanes(&mut self) -> usize {
        match self.extent {
            Extent::MostLanes => 4_096,
            Extent::MostRows | Extent::MostCols => 1,
            Extent::Few => self.random.pick(&[1, 1, 1, 2, 2, 3, 4]),
            Extent::Usual => self
                .random
                .pick(&[1, 1, 1, 1, 1, 2, 2, 3, 4, 4, 5, 6, 6, 8, 12, 16]),
        }
    }

    /// A count of lanes that broadcasts into n.
    fn source(&mut self, n: usize) -> usize {
        if n > 64 {
            return self.random.pick(&[1, 2, n / 4, n]);
        }
        let divisors: Vec<_> = (1..=n).filter(|s| n % s == 0).collect();
        if self.random.chance(50) {
            return n;
        }
        self.random.pick(&divisors)
    }

    fn vector<T>(&mut self, rows: usize, lanes: usize) -> Operand<T> {
        let cols = if self.random.chance(65) {
            1
        } else {
            self.random.within(1, 4)
        };
        Operand {
            rows,
            cols,
            lanes,
            col: self.random.below(cols),
            data: vec![],
        }
    }

    fn table<T>(&mut self, rows: usize, cols: usize, lanes: usize) -> Operand<T> {
        Operand {
            rows,
            cols,
            lanes,
            col: 0,
            data: vec![],
        }
    }

    fn list(&mut self, count: usize, end: usize) -> Vec<usize> {
        (0..count).map(|_| self.random.below(end.max(1))).collect()
    }

    // ---- Lawful cases ----

    fn lawful<T: Real>(&mut self, call: Call) -> Case<T> {
        let mut case = Case::new(call);
        let (rows, n) = (self.rows(), self.lanes());
        if call.works() {
            case.work = self.random.pick(&[8, 8, 9, 64, 1_024]);
        }
        match call {
            Call::Axpy => {
                case.factors = vec![self.factor(), self.factor()];
                case.operands = self.pair(rows, n);
            }
            Call::BatchedAxpy => {
                case.factors = vec![self.factor()];
                let s = self.source(n);
                case.operands = vec![
                    self.vector(1, n),
                    self.vector(rows, s),
                    self.vector(rows, n),
                ];
            }
            Call::Gemv => {
                case.factors = vec![self.factor(), self.factor()];
                let (cols, s, t) = (self.cols(0), self.source(n), self.source(n));
                case.operands = vec![
                    self.table(rows, cols, s),
                    self.vector(cols, t),
                    self.vector(rows, n),
                ];
            }
            Call::GemvCols | Call::GerCols => self.range(&mut case, rows, n),
            Call::MulColsBy | Call::MulColsByTranspose => {
                let k = self.random.below(9);
                case.counts = vec![k];
                case.numbers = vec![T::zero(); k * k];
                let cols = self.cols(k);
                case.operands = vec![self.table(rows, cols, n)];
            }
            Call::UpdateBackwardDiff => {
                let order = self
                    .random
                    .below(if self.extent == Extent::Few { 3 } else { 8 });
                case.counts = vec![order];
                let (cols, s) = (self.cols(order + 3), self.source(n));
                case.operands = vec![self.vector(rows, s), self.table(rows, cols, n)];
            }
            Call::UpdateBackwardDiffTranspose => {
                let order = self
                    .random
                    .below(if self.extent == Extent::Few { 3 } else { 6 });
                case.counts = vec![order];
                let (cols, s) = (self.cols(order + 3), self.source(n));
                case.operands = vec![self.table(rows, cols, s), self.vector(rows, n)];
            }
            Call::Gather | Call::Scatter | Call::CopyFromIndices | Call::AssignAtIndices => {
                self.indexed(&mut case, rows, n);
            }
            Call::SquaredNorm => {
                case.factors = vec![self.factor()];
                let (s, t) = (self.source(n), self.source(n));
                case.operands = vec![
                    self.vector(rows, n),
                    self.vector(rows, s),
                    self.vector(rows, t),
                ];
            }
            Call::RootFinding => {
                let s = self.source(n);
                case.operands = vec![self.vector(rows, n), self.vector(rows, s)];
            }
            Call::MulAssign | Call::DivAssign | Call::Fill => {
                case.factors = vec![self.factor()];
                case.operands = vec![self.vector(rows, n)];
            }
            Call::FillIndex => {
                let rows = rows.max(1);
                case.factors = vec![self.factor()];
                case.counts = vec![self.random.below(rows)];
                case.operands = vec![self.vector(rows, n)];
            }
            Call::SetColumn | Call::AddColumnToVector => {
                let (cols, s) = (self.cols(1), self.source(n));
                case.counts = vec![self.random.below(cols)];
                case.operands = if call == Call::SetColumn {
                    vec![self.vector(rows, s), self.table(rows, cols, n)]
                } else {
                    vec![self.table(rows, cols, s), self.vector(rows, n)]
                };
            }
            Call::AddColumnsToBatchedVector => {
                let cols = self.cols(1);
                case.operands = vec![self.table(rows, cols, n), self.vector(rows, n * cols)];
            }
            Call::ScaleAddAndAssign => {
                case.factors = vec![self.factor()];
                let (cols, s, t) = (self.cols(0), self.source(n), self.source(n));
                case.operands = [s, t, n].map(|n| self.table(rows, cols, n)).into();
            }
            Call::FromDiagonal => {
                let rows = rows % 40;
                case.operands = vec![self.vector(rows, n), self.table(rows, rows, n)];
            }
            Call::ResizeCols => {
                let (from, to) = (self.cols(0), self.cols(0));
                case.operands = vec![self.table(rows, from, n), self.table(rows, to, n)];
            }
            Call::TableGather => {
                let (cols, s) = (self.cols(0), self.source(n));
                let (from_rows, from_cols) = (self.rows().max(1), self.cols(1));
                let count = self.random.below((rows * cols).min(40) + 1);
                case.list = self.list(count, from_rows * from_cols);
                case.operands = vec![
                    self.table(from_rows, from_cols, s),
                    self.table(rows, cols, n),
                ];
            }
            Call::SetDataWithIndices => {
                let (rows, cols, s) = (rows.max(1), self.cols(1), self.source(n));
                let from_rows = self.rows().max(1);
                let count = self.random.below(8);
                case.list = self.list(count, rows * cols);
                case.sources = self.list(count, from_rows);
                case.operands = vec![self.vector(from_rows, s), self.table(rows, cols, n)];
            }
            Call::TableMulAssign | Call::TableFill => {
                case.factors = vec![self.factor()];
                let cols = self.cols(0);
                case.operands = vec![self.table(rows, cols, n)];
            }
            Call::TableCopyFrom
            | Call::TableAddAssign
            | Call::TableSubAssign
            | Call::TableSubInto => {
                let (cols, s) = (self.cols(0), self.source(n));
                case.operands = [s, n].map(|n| self.table(rows, cols, n)).into();
            }
            Call::CopyFrom
            | Call::AddAssign
            | Call::SubAssign
            | Call::SubInto
            | Call::ComponentMulAssign
            | Call::ComponentDivAssign => case.operands = self.pair(rows, n),
        }
        case
    }

    /// A source that broadcasts into a destination of n lanes.
    fn pair<T>(&mut self, rows: usize, n: usize) -> Vec<Operand<T>> {
        let s = self.source(n);
        vec![self.vector(rows, s), self.vector(rows, n)]
    }

    /// The calls on a range of columns.
    fn range<T: Real>(&mut self, case: &mut Case<T>, rows: usize, n: usize) {
        let (cols, s) = (self.cols(0), self.source(n));
        let start = self.random.below(cols + 1);
        let end = self.random.within(start, cols.min(start + 8));
        case.counts = vec![start, end];
        case.numbers = vec![T::zero(); end - start + self.random.pick(&[0, 0, 0, 1, 3])];
        if case.call == Call::GemvCols {
            case.factors = vec![self.factor(), self.factor()];
            case.operands = vec![self.table(rows, cols, s), self.vector(rows, n)];
        } else {
            case.factors = vec![self.factor()];
            case.operands = vec![self.vector(rows, s), self.table(rows, cols, n)];
        }
    }

    /// The calls on vectors by a list.
    fn indexed<T: Real>(&mut self, case: &mut Case<T>, rows: usize, n: usize) {
        let s = self.source(n);
        let other = self.rows().max(1);
        match case.call {
            Call::Gather => {
                case.list = self.list(rows, other);
                case.operands = vec![self.vector(other, s), self.vector(rows, n)];
            }
            Call::Scatter => {
                case.list = self.list(rows, other);
                case.operands = vec![self.vector(rows, s), self.vector(other, n)];
            }
            _ => {
                let count = if rows == 0 { 0 } else { self.random.below(8) };
                let end = if case.call == Call::CopyFromIndices {
                    rows.min(other)
                } else {
                    rows
                };
                case.list = self.list(count, end);
                case.factors = vec![self.factor()];
                case.operands = vec![self.vector(rows, n)];
                if case.call == Call::CopyFromIndices {
                    case.factors = vec![];
                    case.operands.insert(0, self.vector(other, s));
                }
            }
        }
    }

    // ---- Faults ----

    fn spoil<T: Real>(&mut self, case: &mut Case<T>) {
        let k = self.random.below(case.operands.len());
        match self.random.below(10) {
            0 => case.operands[k].lanes = 0,
            1 => self.exceed(&mut case.operands[k]),
            2 => self.move_column(case, k),
            3 => self.move_count(case),
            4 => self.name_too_many(case),
            5 => {
                let held = case.numbers.len();
                let other = self.random.pick(&[0, held.saturating_sub(1), held + 1]);
                case.numbers.resize(other, T::zero());
            }
            6 => {
                let o = &mut case.operands[k];
                if case.call.operands()[k] == Kind::Table && self.random.chance(50) {
                    o.cols = self.random.pick(&[o.cols + 1, o.cols.saturating_sub(1), 0]);
                } else {
                    o.rows = self.random.pick(&[o.rows + 1, o.rows.saturating_sub(1), 0]);
                }
            }
            7 => case.operands[k].lanes = self.random.within(1, 7),
            8 => {
                let held = case.list.len();
                let other = self.random.pick(&[0, held.saturating_sub(1), held + 1]);
                case.list.resize(other, 0);
            }
            _ => self.move_index(case),
        }
    }

    /// One size past its limit, the others small.
    fn exceed<T>(&mut self, o: &mut Operand<T>) {
        match self.random.below(40) {
            0 => (o.rows, o.cols, o.lanes, o.col) = (65_537, 1, 1, 0),
            1..=20 => {
                (o.rows, o.lanes) = (o.rows.min(2), 1);
                o.cols = self.random.within(1_025, 1_030);
            }
            _ => {
                (o.rows, o.cols, o.col) = (o.rows.min(2), 1, 0);
                o.lanes = self.random.within(4_097, 4_100);
            }
        }
    }

    /// A place at or past `end`, sometimes near the largest word.
    fn past(&mut self, end: usize) -> usize {
        let far = self.random.below(4);
        self.random
            .pick(&[end, end, end + 1, end + 7, usize::MAX - far])
    }

    fn move_column<T: Real>(&mut self, case: &mut Case<T>, k: usize) {
        if case.call.operands()[k] == Kind::Vector {
            case.operands[k].col = self.past(case.operands[k].cols);
        } else {
            self.move_count(case);
        }
    }

    fn move_count<T: Real>(&mut self, case: &mut Case<T>) {
        let Some(count) = case.counts.len().checked_sub(1) else {
            return;
        };
        let place = self.random.within(0, count);
        let tables = case.operands.iter().zip(case.call.operands());
        let size = tables
            .filter(|(_, kind)| **kind == Kind::Table)
            .map(|(o, _)| o.cols)
            .next()
            .unwrap_or(case.operands[0].rows);
        let past = self.past(size);
        let near = self
            .random
            .pick(&[size.saturating_sub(2), size.saturating_sub(1), 0]);
        case.counts[place] = self.random.pick(&[past, near]);
        if count == 1 && self.random.chance(30) {
            case.counts.swap(0, 1);
        }
    }

    fn name_too_many<T: Real>(&mut self, case: &mut Case<T>) {
        let most = self.random.within(8, 11);
        let table = case.operands.iter_mut().zip(case.call.operands());
        let Some((table, _)) = table.into_iter().find(|(_, kind)| **kind == Kind::Table) else {
            return;
        };
        match case.call {
            Call::GemvCols | Call::GerCols => {
                table.cols = most;
                case.counts = vec![0, most];
                case.numbers = vec![T::zero(); most];
            }
            Call::MulColsBy | Call::MulColsByTranspose => {
                table.cols = most;
                case.counts = vec![most];
                case.numbers = vec![T::zero(); most * most];
            }
            Call::UpdateBackwardDiff | Call::UpdateBackwardDiffTranspose => {
                table.cols = most;
                case.counts = vec![most - 3];
            }
            _ => {}
        }
    }

    fn move_index<T: Real>(&mut self, case: &mut Case<T>) {
        let sizes: Vec<_> = case
            .operands
            .iter()
            .map(|o| o.rows * o.cols.max(1))
            .collect();
        let rows: Vec<_> = case.operands.iter().map(|o| o.rows).collect();
        let ends = [sizes, rows].concat();
        let end = self.random.pick(&ends);
        let moved = self.past(end);
        let second = self.random.chance(50);
        let list = if second && !case.sources.is_empty() {
            &mut case.sources
        } else {
            &mut case.list
        };
        if !list.is_empty() {
            let place = self.random.below(list.len());
            list[place] = moved;
        }
    }

    /// Memory that does not fit its shape, or too little work memory.
    fn spoil_memory<T: Real>(&mut self, case: &mut Case<T>) {
        if case.call.works() && self.random.chance(50) {
            case.work = self.random.below(8);
            return;
        }
        let k = self.random.below(case.operands.len());
        let data = &mut case.operands[k].data;
        let other = self
            .random
            .pick(&[data.len() + 1, data.len().saturating_sub(1), 0]);
        data.resize(other, T::one());
    }

    // ---- Numbers ----

    fn fill<T: Real>(&mut self, case: &mut Case<T>) {
        for o in &mut case.operands {
            // Shapes past all reason get no memory; they are refused before it is asked for.
            let size = o.size().filter(|size| *size <= 1 << 20).unwrap_or(0);
            o.data = (0..size).map(|_| self.value()).collect();
        }
        for number in &mut case.numbers {
            *number = self.value();
        }
    }

    fn factor<T: Real>(&mut self) -> T {
        match self.random.below(10) {
            0 => T::zero(),
            1 => -T::zero(),
            2 | 3 => T::one(),
            4 => -T::one(),
            _ => self.value(),
        }
    }

    fn value<T: Real>(&mut self) -> T {
        if self.random.chance(6) {
            return self.special();
        }
        match self.palette {
            Palette::Whole => T::of_f64(self.random.within(0, 18) as f64 - 9.0),
            Palette::Unit => T::of_f64(self.random.next() as i64 as f64 / i64::MAX as f64),
            Palette::Near => self.scaled(40),
            Palette::Wide => self.scaled(bias::<T>()),
            Palette::Special => self.special(),
            Palette::Bits => T::of_bits(self.random.next() & mask::<T>()),
        }
    }

    /// A random significand and sign, with an exponent up to `reach` from that of one.
    fn scaled<T: Real>(&mut self, reach: usize) -> T {
        let exponent = self.random.within(bias::<T>() - reach, bias::<T>() + reach) as u64;
        let fraction = self.random.next() & ((1 << T::FRACTION) - 1);
        let sign = self.random.next() & 1;
        T::of_bits(sign << (T::WIDTH - 1) | exponent << T::FRACTION | fraction)
    }

    fn special<T: Real>(&mut self) -> T {
        let one = (bias::<T>() as u64) << T::FRACTION;
        let infinity = (2 * bias::<T>() as u64 + 1) << T::FRACTION;
        let least_normal = 1 << T::FRACTION;
        let magnitudes = [
            0,
            0,
            one,
            one + 1,
            one - 1,
            infinity,
            infinity - 1,
            infinity + (1 << (T::FRACTION - 1)),
            least_normal,
            least_normal - 1,
            least_normal / 3,
            1,
            2,
        ];
        let sign = self.random.next() & 1;
        T::of_bits(sign << (T::WIDTH - 1) | self.random.pick(&magnitudes))
    }
}

/// The exponent that is stored for one.
fn bias<T: Real>() -> usize {
    (1 << (T::WIDTH - T::FRACTION as usize - 2)) - 1
}

fn mask<T: Real>() -> u64 {
    u64::MAX >> (64 - T::WIDTH)
}

fn repeat_first_lane<T: Copy>(o: &mut Operand<T>) {
    let size = o.rows * o.cols;
    for place in size..o.data.len() {
        o.data[place] = o.data[place - size];
    }
}
