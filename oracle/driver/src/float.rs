//! f64 and f32 as the driver sees them: bits with one not-a-number.

use diffsol_la::NalgebraScalar;

pub trait Real: NalgebraScalar + crate::ours::Linked {
    /// Bits of one number.
    const WIDTH: usize;
    /// Bits of the significand that are stored.
    const FRACTION: u32;

    /// The stored bits, every not-a-number as the same one.
    fn bits(self) -> u64;
    fn of_bits(bits: u64) -> Self;
    fn of_f64(value: f64) -> Self;
}

impl Real for f64 {
    const WIDTH: usize = 64;
    const FRACTION: u32 = 52;

    fn bits(self) -> u64 {
        if self.is_nan() {
            return 0x7ff8_0000_0000_0000;
        }
        self.to_bits()
    }
    fn of_bits(bits: u64) -> f64 {
        f64::from_bits(bits)
    }
    fn of_f64(value: f64) -> f64 {
        value
    }
}

impl Real for f32 {
    const WIDTH: usize = 32;
    const FRACTION: u32 = 23;

    fn bits(self) -> u64 {
        if self.is_nan() {
            return 0x7fc0_0000;
        }
        self.to_bits().into()
    }
    fn of_bits(bits: u64) -> f32 {
        f32::from_bits(bits as u32)
    }
    fn of_f64(value: f64) -> f32 {
        value as f32
    }
}

/// The bits in hexadecimal digits: 16 for f64, 8 for f32.
pub fn hex<T: Real>(value: T) -> String {
    format!("{:0digits$x}", value.bits(), digits = T::WIDTH / 4)
}
