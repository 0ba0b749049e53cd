//! Reference BLAS beside the definitions: where the two must agree in every bit, and where they are
//! known to differ.

use crate::case::{Answer, Call, Case};
use crate::definition;
use crate::float::Real;
use crate::random::Random;
use std::ffi::{c_char, c_int, c_void, CStr, CString};

extern "C" {
    fn dlopen(name: *const c_char, flags: c_int) -> *mut c_void;
    fn dlsym(library: *mut c_void, name: *const c_char) -> *mut c_void;
}

const RTLD_NOW: c_int = 2;

/// A loaded BLAS.
pub struct Library(*mut c_void);

impl Library {
    pub fn open(path: &str) -> Option<Library> {
        // An empty path would stand for the program itself.
        if path.is_empty() {
            return None;
        }
        let path = CString::new(path).ok()?;
        let library = unsafe { dlopen(path.as_ptr(), RTLD_NOW) };
        (!library.is_null()).then_some(Library(library))
    }

    fn symbol(&self, name: &CStr) -> *mut c_void {
        let symbol = unsafe { dlsym(self.0, name.as_ptr()) };
        assert!(!symbol.is_null(), "a BLAS has {name:?}");
        symbol
    }
}

pub type Axpy<T> =
    unsafe extern "C" fn(*const i32, *const T, *const T, *const i32, *mut T, *const i32);
pub type Gemv<T> = unsafe extern "C" fn(
    *const c_char,
    *const i32,
    *const i32,
    *const T,
    *const T,
    *const i32,
    *const T,
    *const i32,
    *const T,
    *mut T,
    *const i32,
);
pub type Ger<T> = unsafe extern "C" fn(
    *const i32,
    *const i32,
    *const T,
    *const T,
    *const i32,
    *const T,
    *const i32,
    *mut T,
    *const i32,
);

/// The three calls, as Fortran has them.
pub struct Calls<T> {
    pub axpy: Axpy<T>,
    pub gemv: Gemv<T>,
    pub ger: Ger<T>,
}

impl<T> Clone for Calls<T> {
    fn clone(&self) -> Self {
        Calls { ..*self }
    }
}

impl<T> Calls<T> {
    fn of(library: &Library, [axpy, gemv, ger]: [&CStr; 3]) -> Calls<T> {
        // The names belong to Fortran calls of these types.
        unsafe {
            Calls {
                axpy: std::mem::transmute::<*mut c_void, Axpy<T>>(library.symbol(axpy)),
                gemv: std::mem::transmute::<*mut c_void, Gemv<T>>(library.symbol(gemv)),
                ger: std::mem::transmute::<*mut c_void, Ger<T>>(library.symbol(ger)),
            }
        }
    }
}

impl Calls<f64> {
    pub fn wide(library: &Library) -> Calls<f64> {
        Calls::of(library, [c"daxpy_", c"dgemv_", c"dger_"])
    }
}

/// What BLAS makes of a case of axpy (its b is taken as 1), gemv or ger_cols on one lane.
fn answer<T: Real>(calls: &Calls<T>, case: &Case<T>) -> Answer {
    let one = 1;
    let a = &case.factors[0];
    let mut done = case.clone();
    match &mut done.operands[..] {
        [x, y] if case.call == Call::Axpy => {
            let n = x.rows as i32;
            let (x, y) = (x.data.as_ptr(), y.data.as_mut_ptr());
            unsafe { (calls.axpy)(&n, a, x, &one, y, &one) };
        }
        [d, x, y] => {
            let (m, n, straight) = (d.rows as i32, d.cols as i32, b'N' as c_char);
            let (d, x, y) = (d.data.as_ptr(), x.data.as_ptr(), y.data.as_mut_ptr());
            let b = &case.factors[1];
            unsafe { (calls.gemv)(&straight, &m, &n, a, d, &m, x, &one, b, y, &one) };
        }
        [p, d] => {
            let (m, n) = (d.rows as i32, d.cols as i32);
            let (p, x, d) = (p.data.as_ptr(), case.numbers.as_ptr(), d.data.as_mut_ptr());
            unsafe { (calls.ger)(&m, &n, a, p, &one, x, &one, d, &m) };
        }
        _ => unreachable!("these calls have two operands or three"),
    }
    Answer::Accepted(done.written(), None)
}

/// How many of `count` cases differ in a bit: axpy with b = 1, gemv with a = 1 and b = 1 (so that
/// the order of the factors cannot show), and ger, all on numbers that are not zero.
pub fn differing(library: &Library, count: u64) -> u64 {
    let wide = Calls::wide(library);
    let narrow = Calls::<f32>::of(library, [c"saxpy_", c"sgemv_", c"sger_"]);
    let mut random = Random::new(3);
    let mut differ = 0;
    for place in 0..count {
        let call = [Call::Axpy, Call::Gemv, Call::GerCols][(place % 3) as usize];
        differ += u64::from(if place / 3 % 2 == 0 {
            one_differs(&wide, call, &mut random)
        } else {
            one_differs(&narrow, call, &mut random)
        });
    }
    differ
}

fn one_differs<T: Real>(calls: &Calls<T>, call: Call, random: &mut Random) -> bool {
    let (rows, cols) = (random.within(1, 20), random.within(1, 8));
    let mut numbers = |count: usize| -> Vec<f64> {
        let mut value = || random.next() as i64 as f64 / i64::MAX as f64;
        // Never zero: reference BLAS passes zero factors over.
        (0..count).map(|_| value() + 2.0).collect()
    };
    let case = Case::new(call);
    let case = match call {
        Call::Axpy => case
            .factors(&[numbers(1)[0], 1.0])
            .vector(1, &numbers(rows))
            .vector(1, &numbers(rows)),
        Call::Gemv => case
            .factors(&[1.0, 1.0])
            .table(rows, cols, 1, &numbers(rows * cols))
            .vector(1, &numbers(cols))
            .vector(1, &numbers(rows)),
        _ => case
            .counts(&[0, cols])
            .factors(&numbers(1))
            .numbers(&numbers(cols))
            .vector(1, &numbers(rows))
            .table(rows, cols, 1, &numbers(rows * cols)),
    };
    definition::answer(&case) != answer(calls, &case)
}

/// Smallest inputs on which reference BLAS and the definitions are known to differ.
fn known() -> Vec<(&'static str, Case<f64>)> {
    use std::f64::{INFINITY, NAN};
    let axpy = || Case::new(Call::Axpy);
    let gemv = || Case::new(Call::Gemv);
    vec![
        (
            "axpy does nothing where a is 0: a = 0, x = inf, y = 1",
            axpy()
                .factors(&[0.0, 1.0])
                .vector(1, &[INFINITY])
                .vector(1, &[1.0]),
        ),
        (
            "axpy does nothing where a is 0: a = 0, x = 1, y = -0",
            axpy()
                .factors(&[0.0, 1.0])
                .vector(1, &[1.0])
                .vector(1, &[-0.0]),
        ),
        (
            "gemv leaves y where there are no columns: b = 3, y = 1",
            gemv()
                .factors(&[1.0, 3.0])
                .table(1, 0, 1, &[])
                .table(0, 1, 1, &[])
                .vector(1, &[1.0]),
        ),
        (
            "gemv adds nothing where a is 0: a = 0, D = NaN, x = 1, b = 1, y = 7",
            gemv()
                .factors(&[0.0, 1.0])
                .table(1, 1, 1, &[NAN])
                .vector(1, &[1.0])
                .vector(1, &[7.0]),
        ),
        (
            "gemv forms a·x first: a = 0.1, D = 3, x = 0.7, b = 0",
            gemv()
                .factors(&[0.1, 0.0])
                .table(1, 1, 1, &[3.0])
                .vector(1, &[0.7])
                .vector(1, &[0.0]),
        ),
        (
            "gemv adds to zero where b is 0: a = 1, D = -0, x = 1, b = 0",
            gemv()
                .factors(&[1.0, 0.0])
                .table(1, 1, 1, &[-0.0])
                .vector(1, &[1.0])
                .vector(1, &[0.0]),
        ),
        (
            "ger passes zero coefficients over: a = 1, x = 0, p = inf, cell 1",
            Case::new(Call::GerCols)
                .counts(&[0, 1])
                .factors(&[1.0])
                .numbers(&[0.0])
                .vector(1, &[INFINITY])
                .table(1, 1, 1, &[1.0]),
        ),
        (
            "ger does nothing where a is 0: a = 0, x = 1, p = inf, cell 1",
            Case::new(Call::GerCols)
                .counts(&[0, 1])
                .factors(&[0.0])
                .numbers(&[1.0])
                .vector(1, &[INFINITY])
                .table(1, 1, 1, &[1.0]),
        ),
    ]
}

/// Prints the known differences; true where each shows.
pub fn differences(library: &Library) -> bool {
    let calls = Calls::wide(library);
    let mut all = true;
    for (what, case) in known() {
        let (there, here) = (answer(&calls, &case), definition::answer(&case));
        let bits = |answer: &Answer| match answer {
            Answer::Accepted(bits, _) => format!("{:016x}", bits[0]),
            _ => "refused".into(),
        };
        println!("{what}: {} there, {} here", bits(&there), bits(&here));
        all &= there != here;
    }
    all
}
