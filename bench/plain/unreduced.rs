//! Sums that are reduced once at the end, as those of the crate running_sum are. What is in range is what is in range of those in lowest
//! terms at each step.
use crate::fraction::Frac;
use crate::sums::Sum;

// ---- sizes

fn bits(n: u128) -> u32 {
    128 - n.leading_zeros()
}

fn word(n: i128) -> Option<i64> {
    if n.unsigned_abs() >> 63 == 0 {
        Some(n as i64)
    } else {
        None
    }
}

fn short_product(a: i128, b: i128) -> Option<i128> {
    if bits(a.unsigned_abs()) + bits(b.unsigned_abs()) > 127 {
        return None;
    }
    Some(a * b)
}

/// The number k 2^twos times as great, where the lengths say that it is in range.
fn raised(a: i128, k: u128, twos: u32) -> Option<i128> {
    if bits(a.unsigned_abs()) + bits(k) + twos > 127 {
        return None;
    }
    Some(a * (k << twos) as i128)
}

fn short_sum(a: i128, b: i128) -> Option<i128> {
    let sum = a.checked_add(b)?;
    if sum == i128::MIN { None } else { Some(sum) }
}

/// The quotient, where the second number divides the first.
fn quotient(a: u128, b: u128) -> Option<u128> {
    if a >> 64 == 0 && b >> 64 == 0 {
        let (a, b) = (a as u64, b as u64);
        if a % b == 0 {
            Some((a / b) as u128)
        } else {
            None
        }
    } else {
        let quotient = a / b;
        if quotient * b == a {
            Some(quotient)
        } else {
            None
        }
    }
}

/// What makes each of two numbers a multiple of both.
fn common(a: u128, b: u128) -> Option<(u128, u128)> {
    if a == b {
        return Some((1, 1));
    }
    if let Some(k) = quotient(a, b) {
        return Some((1, k));
    }
    let (num, den) = Frac::new(a as i128, b as i128).ok()?.parts();
    Some((den.unsigned_abs(), num.unsigned_abs()))
}

// ---- words

/// A fraction of words: `num` over `odd` 2^`twos`.
#[derive(Clone, Copy)]
pub struct Word {
    num: i64,
    odd: u64,
    twos: u32,
}

impl Word {
    #[inline(always)]
    fn of(v: Frac) -> Option<Word> {
        let (num, den) = v.parts();
        let den = den as u128;
        let twos = den.trailing_zeros();
        let odd = den >> twos;
        if odd >> 64 != 0 || twos > 63 {
            return None;
        }
        Some(Word {
            num: word(num)?,
            odd: odd as u64,
            twos,
        })
    }

    fn whole(n: u64) -> Word {
        Word {
            num: n as i64,
            odd: 1,
            twos: 0,
        }
    }

    #[inline(always)]
    fn times(&self, o: &Word) -> Option<Word> {
        let twos = self.twos + o.twos;
        if twos > 63 {
            return None;
        }
        Some(Word {
            num: self.num.checked_mul(o.num)?,
            odd: self.odd.checked_mul(o.odd)?,
            twos,
        })
    }

    #[inline(always)]
    fn product(&self, o: &Word) -> Option<Unreduced> {
        let odd = self.odd as u128 * o.odd as u128;
        let twos = self.twos + o.twos;
        if bits(odd) + twos > 127 {
            return None;
        }
        Some(Unreduced {
            num: self.num as i128 * o.num as i128,
            odd,
            twos,
        })
    }
}

/// A number that is a fraction of words, or not.
#[derive(Clone, Copy)]
pub enum Number {
    Word(Word),
    Long(Frac),
}

impl Number {
    #[inline(always)]
    fn of(v: Frac) -> Number {
        match Word::of(v) {
            Some(word) => Number::Word(word),
            None => Number::Long(v),
        }
    }

    #[inline(always)]
    fn word(&self) -> Option<&Word> {
        match self {
            Number::Word(word) => Some(word),
            Number::Long(_) => None,
        }
    }

    fn unreduced(&self) -> Unreduced {
        match self {
            Number::Word(word) => Unreduced {
                num: word.num as i128,
                odd: word.odd as u128,
                twos: word.twos,
            },
            Number::Long(v) => Unreduced::of(*v),
        }
    }
}

#[inline(always)]
fn word_once(times: u8, v: &Number, x: &Number) -> Option<Unreduced> {
    let weight = Word::whole(u64::from(times)).times(v.word()?)?;
    weight.product(x.word()?)
}

#[inline(always)]
fn word_joined(weight: &Option<Number>, x: &Number) -> Option<Unreduced> {
    weight.as_ref()?.word()?.product(x.word()?)
}

#[inline(always)]
fn word_twice(weight: &Option<Number>, ways: u32, x: &Number, y: &Number) -> Option<Unreduced> {
    let weight = weight
        .as_ref()?
        .word()?
        .times(&Word::whole(u64::from(ways)))?;
    weight.times(x.word()?)?.product(y.word()?)
}

// ---- reduced once

/// A fraction that need not be in lowest terms, `num` over `odd` 2^`twos`; with `odd` 0 nothing.
pub struct Unreduced {
    num: i128,
    odd: u128,
    twos: u32,
}

impl Unreduced {
    #[inline(always)]
    fn of(v: Frac) -> Unreduced {
        let (num, den) = v.parts();
        let den = den as u128;
        let twos = den.trailing_zeros();
        Unreduced {
            num,
            odd: den >> twos,
            twos,
        }
    }

    #[inline(always)]
    fn from(v: Option<Frac>) -> Unreduced {
        match v {
            Some(v) => Unreduced::of(v),
            None => Unreduced {
                num: 0,
                odd: 0,
                twos: 0,
            },
        }
    }

    #[inline(always)]
    fn moved(&self) -> Unreduced {
        Unreduced {
            num: self.num,
            odd: self.odd,
            twos: self.twos,
        }
    }

    #[inline(always)]
    fn add(&mut self, o: &Unreduced) {
        if self.odd == o.odd && o.twos <= self.twos {
            if let Some(part) = raised(o.num, 1, self.twos - o.twos) {
                if let Some(num) = short_sum(self.num, part) {
                    self.num = num;
                    return;
                }
            }
        }
        *self = long_sum(self, &o.moved());
    }
}

/// The product without a reduction, where the sizes say that it is in range.
fn certified_product(a: &Unreduced, b: &Unreduced) -> Option<Unreduced> {
    let num = short_product(a.num, b.num)?;
    let twos = a.twos + b.twos;
    if bits(a.odd) + bits(b.odd) + twos > 126 {
        return None;
    }
    Some(Unreduced {
        num,
        odd: a.odd * b.odd,
        twos,
    })
}

#[inline(never)]
fn long_product(a: &Unreduced, b: &Unreduced) -> Unreduced {
    if let Some(product) = certified_product(a, b) {
        return product;
    }
    let product = a.value().and_then(|x| x.mul(b.value()?));
    Unreduced::from(product)
}

/// The sum over a common denominator, where the sizes say that all is in range.
fn certified_sum(a: &Unreduced, b: &Unreduced) -> Option<Unreduced> {
    if a.odd == 0 || b.odd == 0 {
        return None;
    }
    let (f, g) = common(a.odd, b.odd)?;
    let twos = a.twos.max(b.twos);
    if bits(a.odd) + bits(f) + twos > 127 {
        return None;
    }
    let x = raised(a.num, f, twos - a.twos)?;
    let y = raised(b.num, g, twos - b.twos)?;
    Some(Unreduced {
        num: short_sum(x, y)?,
        odd: a.odd * f,
        twos,
    })
}

#[inline(never)]
fn long_sum(a: &Unreduced, b: &Unreduced) -> Unreduced {
    if let Some(sum) = certified_sum(a, b) {
        return sum;
    }
    let sum = a.value().and_then(|x| x.add(b.value()?));
    Unreduced::from(sum)
}

fn long_weight(weight: &Option<Number>) -> Unreduced {
    match weight {
        Some(weight) => weight.unreduced(),
        None => Unreduced::from(None),
    }
}

#[inline(never)]
fn long_once(times: u8, v: &Number, x: &Number) -> Unreduced {
    let times = Unreduced::of(Frac::whole(i64::from(times)));
    let weight = long_product(&times, &v.unreduced());
    long_product(&weight, &x.unreduced())
}

#[inline(never)]
fn long_joined(weight: &Option<Number>, x: &Number) -> Unreduced {
    long_product(&long_weight(weight), &x.unreduced())
}

#[inline(never)]
fn long_twice(weight: &Option<Number>, ways: u32, x: &Number, y: &Number) -> Unreduced {
    let ways = Unreduced::of(Frac::whole(i64::from(ways)));
    let weight = long_product(&long_weight(weight), &ways);
    let first = long_product(&weight, &x.unreduced());
    long_product(&first, &y.unreduced())
}

impl Sum for Unreduced {
    type Number = Number;

    fn number(v: Frac) -> Number {
        Number::of(v)
    }

    fn zero() -> Unreduced {
        Unreduced::of(Frac::whole(0))
    }

    fn add_alone(&mut self, v: Frac) {
        self.add(&Unreduced::of(v));
    }

    #[inline(always)]
    fn add_once(&mut self, times: u8, v: Frac, x: Number) {
        let v = Number::of(v);
        match word_once(times, &v, &x) {
            Some(term) => self.add(&term),
            None => self.add(&long_once(times, &v, &x)),
        }
    }

    #[inline(always)]
    fn add_joined(&mut self, weight: Option<Number>, x: Number) {
        match word_joined(&weight, &x) {
            Some(term) => self.add(&term),
            None => self.add(&long_joined(&weight, &x)),
        }
    }

    #[inline(always)]
    fn add_twice(&mut self, weight: Option<Number>, ways: u32, x: Number, y: Number) {
        match word_twice(&weight, ways, &x, &y) {
            Some(term) => self.add(&term),
            None => self.add(&long_twice(&weight, ways, &x, &y)),
        }
    }

    fn value(&self) -> Option<Frac> {
        if self.odd == 0 {
            return None;
        }
        if self.odd == 1 {
            return Some(Frac::over_twos(self.num, self.twos));
        }
        Frac::new(self.num, (self.odd << self.twos) as i128).ok()
    }
}
