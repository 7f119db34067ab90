// Stand-ins for the original's files that are not carried: the scalar trait for f64, a feature that is a mean and a
// weight, and `Mixture::vmf` keeping logw (mixture.rs, with `ln_weight` as it stands there).
use crate::document;

pub trait Real:
    Copy
    + PartialOrd
    + std::ops::Add<Output = Self>
    + std::ops::Sub<Output = Self>
    + std::ops::Mul<Output = Self>
    + std::ops::Div<Output = Self>
    + std::ops::Neg<Output = Self>
    + std::iter::Sum
{
    fn zero() -> Self;
    fn one() -> Self;
    fn infinity() -> Self;
    fn neg_infinity() -> Self;
    fn from_f64(x: f64) -> Option<Self>;
    fn from_usize(n: usize) -> Option<Self>;
    fn to_f64(self) -> Option<f64>;
    fn sqrt(self) -> Self;
    fn abs(self) -> Self;
    fn max(self, other: Self) -> Self;
}

impl Real for f64 {
    fn zero() -> Self {
        0.0
    }
    fn one() -> Self {
        1.0
    }
    fn infinity() -> Self {
        f64::INFINITY
    }
    fn neg_infinity() -> Self {
        f64::NEG_INFINITY
    }
    fn from_f64(x: f64) -> Option<Self> {
        Some(x)
    }
    fn from_usize(n: usize) -> Option<Self> {
        Some(n as f64)
    }
    fn to_f64(self) -> Option<f64> {
        Some(self)
    }
    fn sqrt(self) -> Self {
        f64::sqrt(self)
    }
    fn abs(self) -> Self {
        f64::abs(self)
    }
    fn max(self, other: Self) -> Self {
        f64::max(self, other)
    }
}

// What the substituted `.ln()` and `.exp()` call, for f64 and for a generic scalar, which is f64.
pub trait Document: Sized {
    fn document_ln(self) -> Self;
    fn document_exp(self) -> Self;
    fn document_exp_within(self, low: f64, high: f64) -> Self;
}

impl<R: Real> Document for R {
    fn document_ln(self) -> Self {
        R::from_f64(document::ln(self.to_f64().unwrap())).unwrap()
    }
    fn document_exp(self) -> Self {
        R::from_f64(document::exp(self.to_f64().unwrap())).unwrap()
    }
    fn document_exp_within(self, low: f64, high: f64) -> Self {
        R::from_f64(document::exp_within(self.to_f64().unwrap(), low, high)).unwrap()
    }
}

#[derive(Clone)]
pub struct Leaf {
    pub mean: Vec<f64>,
    pub weight: f64,
}

pub trait ClusterFeature<R: Real> {
    fn dim(&self) -> usize;
    fn weight(&self) -> R;
    fn mean(&self) -> &[R];
}

impl ClusterFeature<f64> for Leaf {
    fn dim(&self) -> usize {
        self.mean.len()
    }
    fn weight(&self) -> f64 {
        self.weight
    }
    fn mean(&self) -> &[f64] {
        &self.mean
    }
}

pub struct Mixture {
    pub logw: Vec<f64>,
}

impl Mixture {
    pub fn vmf<R: Real>(weights: &[R], _means: &[Vec<R>], _kappas: &[R], logc: &[f64]) -> Self {
        Self { logw: weights.iter().zip(logc).map(|(&w, &lc)| ln_weight(w) + lc).collect() }
    }
}

fn ln_weight<R: Real>(w: R) -> f64 {
    document::ln(w.to_f64().unwrap().max(f64::MIN_POSITIVE))
}
