//! The sums and products of the crate frac128 in plain Rust, path by path.
use std::fmt;

/// A fraction in lowest terms; both numbers are below 2^127.
#[derive(Clone, Copy, PartialEq, Eq, Debug)]
pub struct Frac {
    num: i128,
    den: i128,
}

// ---- divisors

fn odd_gcd(a: u64, b: u64) -> u64 {
    let mut x = a;
    let mut y = b;
    while y != 0 {
        let part = y >> y.trailing_zeros();
        if part < x {
            y = x - part;
            x = part;
        } else {
            y = part - x;
        }
    }
    x
}

fn gcd_u64(a: u64, b: u64) -> u64 {
    if a == 0 {
        return b;
    }
    if b == 0 {
        return a;
    }
    let i = a.trailing_zeros();
    let j = b.trailing_zeros();
    let twos = i.min(j);
    let x = a >> i;
    let y = b >> j;
    if x == 1 || y == 1 {
        return 1 << twos;
    }
    odd_gcd(x, y) << twos
}

fn gcd_u128(a: u128, b: u128) -> u128 {
    let mut x = a;
    let mut y = b;
    while y != 0 {
        if x >> 64 == 0 && y >> 64 == 0 {
            return gcd_u64(x as u64, y as u64) as u128;
        }
        let rest = x % y;
        x = y;
        y = rest;
    }
    x
}

fn shared_twos(n: u128, m: u32) -> u32 {
    n.trailing_zeros().min(m)
}

fn without_common(a: u64, b: u64) -> (u64, u64) {
    let j = b.trailing_zeros();
    if b >> j == 1 {
        let t = shared_twos(a as u128, j);
        return (a >> t, b >> t);
    }
    let common = gcd_u64(a, b);
    if common == 1 {
        return (a, b);
    }
    (a / common, b / common)
}

// ---- signs

fn signed(negative: bool, size: u128) -> i128 {
    if negative {
        -(size as i128)
    } else {
        size as i128
    }
}

fn scaled(x: i64, k: u64) -> i128 {
    x as i128 * k as i128
}

fn part_of(a: i128, k: u128) -> i128 {
    signed(a < 0, a.unsigned_abs() / k)
}

// ---- products

fn word_product(x: u64, b: u64, y: u64, d: u64) -> (u128, u128) {
    let (left, end) = without_common(x, d);
    let (right, begin) = without_common(y, b);
    (left as u128 * right as u128, begin as u128 * end as u128)
}

fn dyadic_word_product(x: u64, i: u32, y: u64, j: u32) -> (u128, u128) {
    let left = shared_twos(x as u128, j);
    let right = shared_twos(y as u128, i);
    (
        (x >> left) as u128 * (y >> right) as u128,
        1 << ((i - right) + (j - left)),
    )
}

fn dyadic_product(x: u128, i: u32, y: u128, j: u32) -> Option<(u128, u128)> {
    let left = shared_twos(x, j);
    let right = shared_twos(y, i);
    let num = (x >> left).checked_mul(y >> right)?;
    let twos = (i - right) + (j - left);
    if num >> 127 != 0 || twos > 126 {
        return None;
    }
    Some((num, 1 << twos))
}

#[inline(never)]
fn long_product(x: u128, b: u128, y: u128, d: u128) -> Option<(u128, u128)> {
    let left = gcd_u128(x, d);
    let right = gcd_u128(y, b);
    let num = (x / left).checked_mul(y / right)?;
    let den = (b / right).checked_mul(d / left)?;
    if num >> 127 != 0 || den >> 127 != 0 {
        return None;
    }
    Some((num, den))
}

#[inline(never)]
fn general_product(x: u128, b: u128, y: u128, d: u128) -> Option<(u128, u128)> {
    if (x | b | y | d) >> 63 == 0 {
        return Some(word_product(x as u64, b as u64, y as u64, d as u64));
    }
    let i = b.trailing_zeros();
    let j = d.trailing_zeros();
    if b >> i == 1 && d >> j == 1 {
        return dyadic_product(x, i, y, j);
    }
    long_product(x, b, y, d)
}

fn product_sizes(x: u128, b: u128, y: u128, d: u128) -> Option<(u128, u128)> {
    if (x | b | y | d) >> 63 == 0 {
        let i = (b as u64).trailing_zeros();
        let j = (d as u64).trailing_zeros();
        if b as u64 >> i == 1 && d as u64 >> j == 1 {
            return Some(dyadic_word_product(x as u64, i, y as u64, j));
        }
    }
    general_product(x, b, y, d)
}

// ---- sums

fn shifted_part(a: i128, twos: u32) -> i128 {
    signed(a < 0, a.unsigned_abs() >> twos)
}

fn shifted_word_sum(x: i64, b: u64, y: i64, d: u64, twos: u32) -> (i128, u128) {
    let b_part = b >> twos;
    let whole = scaled(x, d >> twos) + scaled(y, b_part);
    let shared = shared_twos(whole.unsigned_abs(), twos);
    (
        shifted_part(whole, shared),
        b_part as u128 * (d >> shared) as u128,
    )
}

fn word_sum(x: i64, b: u64, y: i64, d: u64) -> (i128, u128) {
    let i = b.trailing_zeros();
    let j = d.trailing_zeros();
    if b >> i == 1 || d >> j == 1 {
        return shifted_word_sum(x, b, y, d, i.min(j));
    }
    let common = gcd_u64(b, d);
    if common == 1 {
        return shifted_word_sum(x, b, y, d, 0);
    }
    let whole = scaled(x, d / common) + scaled(y, b / common);
    let shared = gcd_u128(whole.unsigned_abs(), common as u128);
    (
        part_of(whole, shared),
        (b / common) as u128 * (d as u128 / shared),
    )
}

fn times(a: i128, k: u128) -> Option<i128> {
    let size = a.unsigned_abs().checked_mul(k)?;
    if size >> 127 != 0 {
        return None;
    }
    Some(signed(a < 0, size))
}

fn sum_of(a: i128, c: i128) -> Option<i128> {
    let sum = a.checked_add(c)?;
    if sum == i128::MIN {
        None
    } else {
        Some(sum)
    }
}

#[inline(never)]
fn dyadic_sum(x: i128, i: u32, y: i128, j: u32) -> Option<(i128, u128)> {
    let both = i.min(j);
    let left = times(x, 1 << (j - both))?;
    let right = times(y, 1 << (i - both))?;
    let whole = sum_of(left, right)?;
    let shared = shared_twos(whole.unsigned_abs(), both);
    let twos = i - both + j - shared;
    if twos > 126 {
        return None;
    }
    Some((shifted_part(whole, shared), 1 << twos))
}

#[inline(never)]
fn long_sum(x: i128, b: u128, y: i128, d: u128) -> Option<(i128, u128)> {
    let common = gcd_u128(b, d);
    let left = times(x, d / common)?;
    let right = times(y, b / common)?;
    let whole = sum_of(left, right)?;
    let shared = gcd_u128(whole.unsigned_abs(), common);
    let den = (b / common).checked_mul(d / shared)?;
    if den >> 127 != 0 {
        return None;
    }
    Some((part_of(whole, shared), den))
}

fn sum_numbers(x: i128, b: u128, y: i128, d: u128) -> Option<(i128, u128)> {
    if (x.unsigned_abs() | b | y.unsigned_abs() | d) >> 63 == 0 {
        return Some(word_sum(x as i64, b as u64, y as i64, d as u64));
    }
    let i = b.trailing_zeros();
    let j = d.trailing_zeros();
    if b >> i == 1 && d >> j == 1 {
        return dyadic_sum(x, i, y, j);
    }
    long_sum(x, b, y, d)
}

// ---- fractions

impl Frac {
    pub fn whole(n: i64) -> Frac {
        Frac {
            num: n as i128,
            den: 1,
        }
    }

    pub fn new(num: i128, den: i128) -> Result<Frac, ()> {
        if den == 0 || num == i128::MIN || den == i128::MIN {
            return Err(());
        }
        let common = gcd_u128(num.unsigned_abs(), den.unsigned_abs());
        Ok(Frac {
            num: signed((num < 0) != (den < 0), num.unsigned_abs() / common),
            den: (den.unsigned_abs() / common) as i128,
        })
    }

    /// The number num/2^twos, of which `frac.rs` makes no use.
    #[allow(dead_code)]
    pub fn over_twos(num: i128, twos: u32) -> Frac {
        let shared = shared_twos(num.unsigned_abs(), twos);
        Frac {
            num: shifted_part(num, shared),
            den: 1 << (twos - shared),
        }
    }

    pub fn parts(self) -> (i128, i128) {
        (self.num, self.den)
    }

    pub fn mul(self, o: Frac) -> Option<Frac> {
        let (num, den) = product_sizes(
            self.num.unsigned_abs(),
            self.den.unsigned_abs(),
            o.num.unsigned_abs(),
            o.den.unsigned_abs(),
        )?;
        Some(Frac {
            num: signed((self.num < 0) != (o.num < 0), num),
            den: den as i128,
        })
    }

    pub fn add(self, o: Frac) -> Option<Frac> {
        let (num, den) = sum_numbers(
            self.num,
            self.den.unsigned_abs(),
            o.num,
            o.den.unsigned_abs(),
        )?;
        Some(Frac {
            num,
            den: den as i128,
        })
    }
}

impl fmt::Display for Frac {
    fn fmt(&self, f: &mut fmt::Formatter<'_>) -> fmt::Result {
        write!(f, "{}", self.num)?;
        if self.den == 1 {
            return Ok(());
        }
        write!(f, "/{}", self.den)
    }
}
