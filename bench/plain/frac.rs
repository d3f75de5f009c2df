//! The sums and products of `fraction.rs`, timed as `frac_main.rt.txt` times the proved ones.
mod fraction;

use fraction::Frac;
use std::time::Instant;

// ---- the pools

const ROUNDS: u32 = 100;

/// A generator of numbers by shifts.
struct Numbers {
    state: u64,
}

impl Numbers {
    fn next(&mut self) -> u64 {
        let mut x = self.state;
        x ^= x << 13;
        x ^= x >> 7;
        x ^= x << 17;
        self.state = x;
        x.wrapping_mul(2685821657736338717)
    }

    /// A number of at most so many bits, of either sign.
    fn signed(&mut self, bits: u32) -> i128 {
        let size = (self.next() >> (63 - bits)) as i128;
        size - (1i128 << bits)
    }

    /// A number of at most so many bits, at least 1.
    fn positive(&mut self, bits: u32) -> i128 {
        ((self.next() >> 1) >> (63 - bits)) as i128 + 1
    }
}

/// What the fractions of a pool look like.
#[derive(Clone, Copy)]
enum Pool {
    SmallIntegers,
    SmallFractions,
    Dyadic,
    Words,
    Long,
    LongDyadic,
}

impl Pool {
    fn name(self) -> &'static str {
        match self {
            Pool::SmallIntegers => "small-integers",
            Pool::SmallFractions => "small-fractions",
            Pool::Dyadic => "dyadic",
            Pool::Words => "word-fractions",
            Pool::Long => "long-fractions",
            Pool::LongDyadic => "long-dyadic",
        }
    }

    fn fraction(self, numbers: &mut Numbers) -> Frac {
        let (num, den) = match self {
            Pool::SmallIntegers => (numbers.signed(10), 1i128),
            Pool::SmallFractions => (numbers.signed(10), numbers.positive(10)),
            Pool::Dyadic => (numbers.signed(20), 1i128 << (numbers.next() % 21)),
            Pool::Words => (numbers.signed(61), numbers.positive(61)),
            Pool::Long => (
                numbers.signed(40).wrapping_mul(numbers.positive(40)),
                numbers.positive(20),
            ),
            Pool::LongDyadic => (
                numbers.signed(50).wrapping_mul(numbers.positive(30)),
                1i128 << (numbers.next() % 31),
            ),
        };
        match Frac::new(num, den) {
            Ok(fraction) => fraction,
            Err(_) => Frac::whole(0),
        }
    }
}

/// A sum over the two numbers of a result, so that each is needed.
fn with_answer(total: u128, answer: Option<Frac>) -> u128 {
    match answer {
        Some(fraction) => {
            let (num, den) = fraction.parts();
            (total ^ num as u128).wrapping_add(den as u128)
        }
        None => total.wrapping_add(1),
    }
}

#[inline(never)]
fn sums(fractions: &[Frac]) -> u128 {
    let mut total = 0u128;
    for a in fractions {
        for b in fractions {
            total = with_answer(total, a.add(*b));
        }
    }
    total
}

#[inline(never)]
fn products(fractions: &[Frac]) -> u128 {
    let mut total = 0u128;
    for a in fractions {
        for b in fractions {
            total = with_answer(total, a.mul(*b));
        }
    }
    total
}

/// The time of a call in hundredths of a nanosecond, and the sum over all rounds.
fn timed<F: Fn(&[Frac]) -> u128>(fractions: &[Frac], work: F) -> (u128, u128) {
    let start = Instant::now();
    let mut total = 0u128;
    for _ in 0..ROUNDS {
        total = total.wrapping_mul(3).wrapping_add(work(fractions));
    }
    let nanos = start.elapsed().as_nanos();
    (
        nanos.saturating_mul(100) / (ROUNDS as u128 * 64 * 64),
        total,
    )
}

fn main() {
    let pools = [
        Pool::SmallIntegers,
        Pool::SmallFractions,
        Pool::Dyadic,
        Pool::Words,
        Pool::Long,
        Pool::LongDyadic,
    ];
    for pool in pools.iter() {
        let mut numbers = Numbers {
            state: 88172645463325252,
        };
        let mut fractions = [Frac::whole(0); 64];
        for seat in fractions.iter_mut() {
            *seat = pool.fraction(&mut numbers);
        }
        let name = pool.name();
        let (time, total) = timed(&fractions, products);
        println!("{name} mul {time} {total}");
        let (time, total) = timed(&fractions, sums);
        println!("{name} add {time} {total}");
    }
}
