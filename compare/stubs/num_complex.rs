// Complex numbers with the operations of the crate num-complex that the given Rust uses, each as that crate has it, but:
// `from_polar` is document 01's table of the eight points, and `arg` (which serves `mer_db` only) gives 0.
use std::ops::{Mul, Sub};

#[derive(Debug, Clone, Copy, PartialEq)]
pub struct Complex<T> {
    pub re: T,
    pub im: T,
}

impl<T> Complex<T> {
    #[inline]
    pub const fn new(re: T, im: T) -> Self {
        Self { re, im }
    }
}

// s of document 01
const S: f64 = f64::from_bits(0x3FE6_A09E_667F_3BCD);

const POINTS: [(f64, f64); 8] = [(1.0, 0.0), (S, S), (0.0, 1.0), (-S, S), (-1.0, 0.0), (-S, -S), (0.0, -1.0), (S, -S)];

impl Complex<f64> {
    #[inline]
    pub fn conj(&self) -> Self {
        Self::new(self.re, -self.im)
    }

    #[inline]
    pub fn norm_sqr(&self) -> f64 {
        self.re * self.re + self.im * self.im
    }

    #[inline]
    pub fn arg(self) -> f64 {
        0.0
    }

    #[inline]
    pub fn from_polar(_: f64, theta: f64) -> Self {
        let k = (theta * (4.0 / std::f64::consts::PI) + 0.5) as usize;
        let (re, im) = POINTS[k % 8];
        Self::new(re, im)
    }
}

impl Mul for Complex<f64> {
    type Output = Self;
    #[inline]
    fn mul(self, other: Self) -> Self {
        Self::new(self.re * other.re - self.im * other.im, self.re * other.im + self.im * other.re)
    }
}

impl Sub for Complex<f64> {
    type Output = Self;
    #[inline]
    fn sub(self, other: Self) -> Self {
        Self::new(self.re - other.re, self.im - other.im)
    }
}
