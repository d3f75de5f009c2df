//! Tensors A, B, C and D by rows, and those of the named structures.
use crate::fraction::Frac;

/// The two numbers of a shape's law.
#[derive(Clone, Copy)]
pub struct Law {
    pub per_g: i32,
    pub per_n: i32,
}

impl Law {
    /// The law's number for a genus and a count of indices.
    pub fn number(self, genus: usize, places: usize) -> i32 {
        self.per_g * (genus as i32 - 1) + self.per_n * places as i32
    }
}

/// Which keys a structure covers: all, or those whose indices add up to the law's number, or to at most that.
#[derive(Clone, Copy)]
pub enum Shape {
    All,
    Exact(Law),
    AtMost(Law),
}

/// The entries that aren't 0. A and D are kept whole, B by the rows of `B^i_{ja}`, C by those of `C^i_{ab}` with a <= b.
pub struct Tensors {
    pub dim: usize,
    pub shape: Shape,
    a: Vec<Frac>,
    b: Vec<Vec<(u8, Frac)>>,
    c: Vec<Vec<(u8, u8, Frac)>>,
    d: Vec<Frac>,
}

impl Tensors {
    fn empty(dim: usize, shape: Shape) -> Tensors {
        Tensors {
            dim,
            shape,
            a: vec![Frac::whole(0); dim * dim * dim],
            b: vec![Vec::new(); dim * dim],
            c: vec![Vec::new(); dim],
            d: vec![Frac::whole(0); dim],
        }
    }

    fn put_a(&mut self, i: usize, j: usize, k: usize, v: Frac) {
        self.a[(i * self.dim + j) * self.dim + k] = v;
        self.a[(i * self.dim + k) * self.dim + j] = v;
    }

    /// Puts an entry at the end of its row.
    fn put_b(&mut self, i: usize, j: usize, k: usize, v: Frac) {
        self.b[i * self.dim + j].push((k as u8, v));
    }

    /// Puts an entry at the end of its row, j <= k.
    fn put_c(&mut self, i: usize, j: usize, k: usize, v: Frac) {
        self.c[i].push((j as u8, k as u8, v));
    }

    pub fn a(&self, i: u8, j: u8, k: u8) -> Frac {
        self.a[(i as usize * self.dim + j as usize) * self.dim + k as usize]
    }

    pub fn b(&self, i: u8, j: u8, k: u8) -> Frac {
        let row = self.row_b(i, j);
        match row.binary_search_by_key(&k, |entry| entry.0) {
            Ok(at) => row[at].1,
            Err(_) => Frac::whole(0),
        }
    }

    pub fn c(&self, i: u8, j: u8, k: u8) -> Frac {
        let row = self.row_c(i);
        match row.binary_search_by_key(&(j.min(k), j.max(k)), |entry| (entry.0, entry.1)) {
            Ok(at) => row[at].2,
            Err(_) => Frac::whole(0),
        }
    }

    pub fn row_b(&self, i: u8, j: u8) -> &[(u8, Frac)] {
        &self.b[i as usize * self.dim + j as usize]
    }

    pub fn row_c(&self, i: u8) -> &[(u8, u8, Frac)] {
        &self.c[i as usize]
    }

    pub fn d(&self, i: u8) -> Frac {
        self.d[i as usize]
    }
}

fn fraction(num: i128, den: i128) -> Frac {
    Frac::new(num, den).expect("small numbers")
}

// ---- Witten and Kontsevich; Brezin, Gross and Witten

/// Tensors with `B^i_{jk} = 2j + 1` where `i + j = k + shift`, `C^i_{jk} = 1` where `i = j + k + shift + 1` and
/// `D^shift = 1/8`.
fn exact(dim: usize, law: Law, shift: usize) -> Tensors {
    let mut tensors = Tensors::empty(dim, Shape::Exact(law));
    for i in 0..dim {
        for j in 0..dim {
            if i + j >= shift && i + j - shift < dim {
                tensors.put_b(i, j, i + j - shift, Frac::whole(2 * j as i64 + 1));
            }
        }
        if i > shift {
            let sum = i - shift - 1;
            for j in 0..=sum / 2 {
                tensors.put_c(i, j, sum - j, Frac::whole(1));
            }
        }
    }
    tensors.d[shift] = fraction(1, 8);
    tensors
}

pub fn wk(bound: usize) -> Tensors {
    let law = Law { per_g: 3, per_n: 1 };
    let mut tensors = exact(bound + bound.div_ceil(2), law, 1);
    tensors.put_a(0, 0, 0, Frac::whole(1));
    tensors
}

pub fn bgw(bound: usize) -> Tensors {
    exact(bound.div_ceil(2), Law { per_g: 1, per_n: 0 }, 0)
}

// ---- Weil and Petersson

/// The numbers `c_0` to `c_most`: the series of the `c_k` is the inverse of that of `(-4)^l/(2l+1)!`. Where a step leaves
/// the range, the k of the number that was being made.
fn inverse_sines(most: usize) -> Result<Vec<Frac>, usize> {
    let mut sines = vec![Frac::whole(1)];
    let mut inverse = vec![Frac::whole(1)];
    for k in 1..=most {
        let factor = fraction(-2, (k * (2 * k + 1)) as i128);
        sines.push(sines[k - 1].mul(factor).ok_or(k)?);
        let mut sum = Frac::whole(0);
        for l in 1..=k {
            let product = sines[l].mul(inverse[k - l]).ok_or(k)?;
            sum = sum.add(product).ok_or(k)?;
        }
        inverse.push(sum.mul(Frac::whole(-1)).ok_or(k)?);
    }
    Ok(inverse)
}

/// Tensors with `B^i_{jk} = (2j + 1) c_e` where `e = k + 1 - i - j`, and `C^i_{jk} = c_e` where `e = j + k + 2 - i`. Where a
/// step leaves the range, the k of the number `c_k`.
pub fn wp(bound: usize) -> Result<Tensors, usize> {
    let dim = bound + bound.div_ceil(2);
    let numbers = inverse_sines(dim - 1)?;
    let mut tensors = Tensors::empty(dim, Shape::AtMost(Law { per_g: 3, per_n: 1 }));
    tensors.put_a(0, 0, 0, Frac::whole(1));
    for i in 0..dim {
        for j in 0..dim {
            for k in 0..dim {
                if k + 1 >= i + j && k + 1 - i - j < dim {
                    let e = k + 1 - i - j;
                    let value = Frac::whole(2 * j as i64 + 1).mul(numbers[e]).ok_or(e)?;
                    tensors.put_b(i, j, k, value);
                }
                if j <= k && j + k + 2 >= i && j + k + 2 - i < dim {
                    tensors.put_c(i, j, k, numbers[j + k + 2 - i]);
                }
            }
        }
    }
    tensors.d[0] = fraction(1, 12);
    tensors.d[1] = fraction(1, 8);
    Ok(tensors)
}

// ---- tensors without a 0

/// A generator of numbers.
struct Draws {
    state: u64,
}

impl Draws {
    fn next(&mut self) -> u64 {
        self.state = self.state.wrapping_mul(1103515245).wrapping_add(12345) % (1 << 31);
        self.state >> 16
    }

    /// A fraction above 0 with small numbers.
    fn fraction(&mut self) -> Frac {
        let num = 1 + (self.next() % 7) as i128;
        let den = 1 + (self.next() % 5) as i128;
        fraction(num, den)
    }
}

/// Tensors of the shape All, of which no entry is 0.
pub fn dense(dim: usize) -> Tensors {
    let mut tensors = Tensors::empty(dim, Shape::All);
    let mut draws = Draws { state: 1 };
    for i in 0..dim {
        for j in 0..dim {
            for k in 0..dim {
                if j <= k {
                    tensors.put_a(i, j, k, draws.fraction());
                    tensors.put_c(i, j, k, draws.fraction());
                }
                tensors.put_b(i, j, k, draws.fraction());
            }
        }
        tensors.d[i] = draws.fraction();
    }
    tensors
}

// ---- large structures from a number

/// All entries of a tensor with three indices below 8.
type Full = [[[Frac; 8]; 8]; 8];

/// A change of one index: the entry at `to` gains a multiple of the one at `from`.
#[derive(Clone, Copy)]
struct Gain {
    to: usize,
    from: usize,
    factor: Frac,
}

impl Gain {
    fn entry(self, old: Frac, other: Frac) -> Option<Frac> {
        old.add(self.factor.mul(other)?)
    }
}

/// The tensor with one slot changed.
fn slot_changed(full: &Full, slot: usize, gain: Gain) -> Option<Full> {
    let mut new = *full;
    let (to, from) = (gain.to, gain.from);
    for j in 0..8 {
        for k in 0..8 {
            match slot {
                0 => new[to][j][k] = gain.entry(full[to][j][k], full[from][j][k])?,
                1 => new[j][to][k] = gain.entry(full[j][to][k], full[j][from][k])?,
                _ => new[j][k][to] = gain.entry(full[j][k][to], full[j][k][from])?,
            }
        }
    }
    Some(new)
}

/// The tensor with all slots changed, from left to right.
fn changed(full: &Full, gains: [Gain; 3]) -> Option<Full> {
    let mut new = *full;
    for (slot, gain) in gains.iter().enumerate() {
        new = slot_changed(&new, slot, *gain)?;
    }
    Some(new)
}

/// The tensors of `bulk SEED DIM`: drawn ones of one index each, behind dim - 1 changes of basis. None where a step leaves the range.
pub fn bulk(seed: u64, dim: usize) -> Option<Tensors> {
    let mut draws = Draws { state: seed };
    let zero = [[[Frac::whole(0); 8]; 8]; 8];
    let (mut a, mut b, mut c, mut d) = (zero, zero, zero, [Frac::whole(0); 8]);
    for i in 0..dim {
        a[i][i][i] = Frac::whole(1 + (draws.next() % 3) as i64);
        b[i][i][i] = Frac::whole(1 + (draws.next() % 3) as i64);
        c[i][i][i] = Frac::whole((draws.next() % 2) as i64);
        d[i] = fraction(1 + (draws.next() % 7) as i128, 8);
    }
    for s in 1..dim {
        let t = (draws.next() % 3) as i64 - 1;
        let amplitude = Gain {
            to: s,
            from: s - 1,
            factor: Frac::whole(t),
        };
        let contracted = Gain {
            to: s - 1,
            from: s,
            factor: Frac::whole(-t),
        };
        a = changed(&a, [amplitude, amplitude, amplitude])?;
        b = changed(&b, [amplitude, amplitude, contracted])?;
        c = changed(&c, [amplitude, contracted, contracted])?;
        d[s] = amplitude.entry(d[s], d[s - 1])?;
    }
    Some(stored(dim, &a, &b, &c, &d))
}

/// The entries that aren't 0, by rows.
fn stored(dim: usize, a: &Full, b: &Full, c: &Full, d: &[Frac; 8]) -> Tensors {
    let zero = Frac::whole(0);
    let mut tensors = Tensors::empty(dim, Shape::All);
    for i in 0..dim {
        for j in 0..dim {
            for k in 0..dim {
                if j <= k {
                    tensors.put_a(i, j, k, a[i][j][k]);
                    if c[i][j][k] != zero {
                        tensors.put_c(i, j, k, c[i][j][k]);
                    }
                }
                if b[i][j][k] != zero {
                    tensors.put_b(i, j, k, b[i][j][k]);
                }
            }
        }
        tensors.d[i] = d[i];
    }
    tensors
}
