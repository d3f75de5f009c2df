//! The five relations of a quantum Airy structure, checked place by place.
use crate::fraction::Frac;
use crate::tensors::Tensors;

/// The sum so far, and what the products of a side add to it. A product with a factor 0 is passed over.
fn with_products(mut sum: Frac, products: [(Frac, Frac); 3]) -> Option<Frac> {
    let zero = Frac::whole(0);
    for (x, y) in products.iter() {
        if *x != zero && *y != zero {
            sum = sum.add(x.mul(*y)?)?;
        }
    }
    Some(sum)
}

/// The sum over a of `B^i_{ja} A^a_{kl} + B^i_{ka} A^j_{al} + B^i_{la} A^j_{ak}`.
fn side_ba(t: &Tensors, [i, j, k, l]: [u8; 4]) -> Option<Frac> {
    (0..t.dim as u8).try_fold(Frac::whole(0), |sum, a| {
        let first = (t.b(i, j, a), t.a(a, k, l));
        let second = (t.b(i, k, a), t.a(j, a, l));
        with_products(sum, [first, second, (t.b(i, l, a), t.a(j, a, k))])
    })
}

/// The sum over a of `B^i_{ja} B^a_{kl} + B^i_{ka} B^j_{al} + C^i_{la} A^j_{ak}`.
fn side_bb(t: &Tensors, [i, j, k, l]: [u8; 4]) -> Option<Frac> {
    (0..t.dim as u8).try_fold(Frac::whole(0), |sum, a| {
        let first = (t.b(i, j, a), t.b(a, k, l));
        let second = (t.b(i, k, a), t.b(j, a, l));
        with_products(sum, [first, second, (t.c(i, l, a), t.a(j, a, k))])
    })
}

/// The sum over a of `B^i_{ja} C^a_{kl} + C^i_{ka} B^j_{al} + C^i_{la} B^j_{ak}`.
fn side_bc(t: &Tensors, [i, j, k, l]: [u8; 4]) -> Option<Frac> {
    (0..t.dim as u8).try_fold(Frac::whole(0), |sum, a| {
        let first = (t.b(i, j, a), t.c(a, k, l));
        let second = (t.c(i, k, a), t.b(j, a, l));
        with_products(sum, [first, second, (t.c(i, l, a), t.b(j, a, k))])
    })
}

/// The sum over a of `B^i_{ja} D^a`, and one half of the sum over a and b of `C^i_{ab} A^j_{ab}`.
fn side_d(t: &Tensors, [i, j, _, _]: [u8; 4]) -> Option<Frac> {
    let half = Frac::new(1, 2).ok()?;
    let mut sum = Frac::whole(0);
    for (a, v) in t.row_b(i, j) {
        sum = sum.add(v.mul(t.d(*a))?)?;
    }
    for (a, b, v) in t.row_c(i) {
        let weight = if a == b { v.mul(half)? } else { *v };
        sum = sum.add(weight.mul(t.a(j, *a, *b))?)?;
    }
    Some(sum)
}

/// Whether both sides of a relation are in range and equal in all places, with i below j, and k and l below so many.
fn holds(t: &Tensors, (ks, ls): (u8, u8), side: fn(&Tensors, [u8; 4]) -> Option<Frac>) -> bool {
    let fine = |i, j, k, l| match (side(t, [i, j, k, l]), side(t, [j, i, k, l])) {
        (Some(left), Some(right)) => left == right,
        _ => false,
    };
    let dim = t.dim as u8;
    (0..dim).all(|i| (i + 1..dim).all(|j| (0..ks).all(|k| (0..ls).all(|l| fine(i, j, k, l)))))
}

/// Whether the five relations hold in all places.
pub fn check(t: &Tensors) -> bool {
    let dim = t.dim as u8;
    holds(t, (dim, 1), |t, [i, j, k, _]| Some(t.a(i, j, k)))
        && holds(t, (dim, dim), side_ba)
        && holds(t, (dim, dim), side_bb)
        && holds(t, (dim, dim), side_bc)
        && holds(t, (1, 1), side_d)
}
