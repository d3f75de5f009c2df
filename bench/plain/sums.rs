//! Sums of terms, and those in lowest terms at each step.
use crate::fraction::Frac;

/// What is in range of a sum so far.
pub trait Sum {
    /// A number as these sums read it.
    type Number: Copy;
    fn number(v: Frac) -> Self::Number;
    fn zero() -> Self;
    /// Adds v.
    fn add_alone(&mut self, v: Frac);
    /// Adds (m v) x.
    fn add_once(&mut self, times: u8, v: Frac, x: Self::Number);
    /// Adds w x.
    fn add_joined(&mut self, weight: Option<Self::Number>, x: Self::Number);
    /// Adds ((w q) x) y.
    fn add_twice(
        &mut self,
        weight: Option<Self::Number>,
        ways: u32,
        x: Self::Number,
        y: Self::Number,
    );
    fn value(&self) -> Option<Frac>;
}

// ---- step by step

/// A sum in lowest terms.
pub struct Steps(Option<Frac>);

impl Steps {
    fn add(&mut self, term: Option<Frac>) {
        self.0 = self.0.and_then(|sum| sum.add(term?));
    }
}

fn once_term(times: u8, v: Frac, x: Frac) -> Option<Frac> {
    Frac::whole(times as i64).mul(v)?.mul(x)
}

fn twice_term(weight: Option<Frac>, ways: u32, x: Frac, y: Frac) -> Option<Frac> {
    weight?.mul(Frac::whole(ways as i64))?.mul(x)?.mul(y)
}

impl Sum for Steps {
    type Number = Frac;

    fn number(v: Frac) -> Frac {
        v
    }

    fn zero() -> Steps {
        Steps(Some(Frac::whole(0)))
    }

    fn add_alone(&mut self, v: Frac) {
        self.add(Some(v));
    }

    fn add_once(&mut self, times: u8, v: Frac, x: Frac) {
        self.add(once_term(times, v, x));
    }

    fn add_joined(&mut self, weight: Option<Frac>, x: Frac) {
        self.add(weight.and_then(|weight| weight.mul(x)));
    }

    fn add_twice(&mut self, weight: Option<Frac>, ways: u32, x: Frac, y: Frac) {
        self.add(twice_term(weight, ways, x, y));
    }

    fn value(&self) -> Option<Frac> {
        self.0
    }
}
