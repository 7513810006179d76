//! Comparing to the bit.
use crate::inputs::Inputs;
use std::ops::Range;
use std::{fmt, thread};

/// An input or a result.
pub trait Value: Clone + Send {
    /// The same patterns, any NaN being the same as any other.
    fn same(&self, other: &Self) -> bool;
    /// The patterns in hexadecimal.
    fn hex(&self) -> String;
}

impl Value for f32 {
    fn same(&self, other: &Self) -> bool {
        self.to_bits() == other.to_bits() || self.is_nan() && other.is_nan()
    }
    fn hex(&self) -> String {
        self.to_bits().hex()
    }
}

macro_rules! integer {
    ($($type:ty)*) => {$(
        impl Value for $type {
            fn same(&self, other: &Self) -> bool {
                self == other
            }
            fn hex(&self) -> String {
                format!("{self:0width$X}", width = 2 * size_of::<Self>())
            }
        }
    )*};
}
integer!(u16 u32 i32 i64);

impl<A: Value, B: Value> Value for (A, B) {
    fn same(&self, other: &Self) -> bool {
        self.0.same(&other.0) && self.1.same(&other.1)
    }
    fn hex(&self) -> String {
        format!("{} {}", self.0.hex(), self.1.hex())
    }
}

impl<A: Value, B: Value, C: Value> Value for (A, B, C) {
    fn same(&self, other: &Self) -> bool {
        self.0.same(&other.0) && self.1.same(&other.1) && self.2.same(&other.2)
    }
    fn hex(&self) -> String {
        format!("{} {} {}", self.0.hex(), self.1.hex(), self.2.hex())
    }
}

impl<A: Value, const N: usize> Value for [A; N] {
    fn same(&self, other: &Self) -> bool {
        self.iter().zip(other).all(|(a, b)| a.same(b))
    }
    fn hex(&self) -> String {
        self.each_ref().map(A::hex).join(" ")
    }
}

impl<A: Value> Value for Vec<A> {
    fn same(&self, other: &Self) -> bool {
        self.len() == other.len() && self.iter().zip(other).all(|(a, b)| a.same(b))
    }
    fn hex(&self) -> String {
        self.iter().map(A::hex).collect::<Vec<_>>().join(" ")
    }
}

/// An input on which two functions differ, and what each gives.
pub struct Difference<I, O> {
    pub input: I,
    pub ours: O,
    pub theirs: O,
}

impl<I: Value, O: Value> fmt::Display for Difference<I, O> {
    fn fmt(&self, f: &mut fmt::Formatter) -> fmt::Result {
        let [input, ours, theirs] = [self.input.hex(), self.ours.hex(), self.theirs.hex()];
        write!(f, "{input}: proved {ours}, Rust {theirs}")
    }
}

/// Looks for a difference, in two halves at the same time; of each half the first one counts.
pub fn difference<I: Value, O: Value>(
    inputs: &Inputs<impl Fn(u64) -> I + Sync>,
    ours: impl Fn(I) -> O + Sync,
    theirs: impl Fn(I) -> O + Sync,
) -> Option<Difference<I, O>> {
    let first = |mut numbers: Range<u64>| {
        numbers.find_map(|k| {
            let input = (inputs.at)(k);
            let (ours, theirs) = (ours(input.clone()), theirs(input.clone()));
            (!ours.same(&theirs)).then_some(Difference { input, ours, theirs })
        })
    };
    let half = inputs.len / 2;
    thread::scope(|scope| {
        let lower = scope.spawn(|| first(0..half));
        let upper = first(half..inputs.len);
        lower.join().unwrap().or(upper)
    })
}

/// Whether two functions are equal on `inputs`; prints which.
pub fn equal<I: Value, O: Value>(
    name: &str,
    inputs: &Inputs<impl Fn(u64) -> I + Sync>,
    ours: impl Fn(I) -> O + Sync,
    theirs: impl Fn(I) -> O + Sync,
) -> bool {
    let found = difference(inputs, ours, theirs);
    match &found {
        None => println!("{name}: {} inputs, equal", inputs.len),
        Some(difference) => println!("{name}: different at {difference}"),
    }
    found.is_none()
}
