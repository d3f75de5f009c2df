//! Weil-Petersson volumes from a table of amplitudes.
use crate::fraction::Frac;
use crate::keys::Key;
use crate::plan::Plan;
use std::fs::File;
use std::io::{self, Write};

/// A term: the coefficient, the power of the letter, and the list of which each length has twice the number as its power.
pub struct Term {
    coefficient: Frac,
    letter: usize,
    list: Key,
}

/// A value over 2, 3, .., 2d + 1 for each index d.
fn coefficient(value: Frac, list: &[u8]) -> Option<Frac> {
    let mut quotient = value;
    for d in list {
        for k in 2..=2 * i128::from(*d) + 1 {
            quotient = quotient.mul(Frac::new(1, k).ok()?)?;
        }
    }
    Some(quotient)
}

/// The coefficients of the keys of a genus and a number of indices at their ranks, 0 at the others.
fn coefficients(plan: &Plan, values: &[Frac], pair: (u8, usize)) -> Option<Vec<Frac>> {
    let number = |(key, value): (&Key, &Frac)| {
        if (key.genus, key.list().len()) == pair {
            coefficient(*value, key.list())
        } else {
            Some(Frac::whole(0))
        }
    };
    plan.keys.iter().zip(values).map(number).collect()
}

/// What the terms are made of, and those that there are.
struct Listing<'a> {
    plan: &'a Plan,
    coefficients: Vec<Frac>,
    greatest: usize,
    list: Key,
    terms: Vec<Term>,
}

impl Listing<'_> {
    fn add_term(&mut self) {
        let rank = self.plan.rank_of(&self.list.sorted());
        let coefficient = self.coefficients[rank];
        if coefficient != Frac::whole(0) {
            let sum: usize = self.list.list().iter().map(|d| *d as usize).sum();
            self.terms.push(Term {
                coefficient,
                letter: self.greatest - sum,
                list: self.list,
            });
        }
    }

    /// Adds the terms of the lists with the numbers before `at` as they stand and the others of sum `left`, descending.
    fn add_terms(&mut self, at: usize, left: u8) {
        if at + 1 == self.list.list().len() {
            self.list.set(at, left);
            return self.add_term();
        }
        for rest in 0..=left {
            self.list.set(at, left - rest);
            self.add_terms(at + 1, rest);
        }
    }
}

/// The terms of the volume of a genus and a number of boundaries, by the sum of the list; None where a coefficient leaves the range.
pub fn terms(plan: &Plan, values: &[Frac], (genus, places): (u8, usize)) -> Option<Vec<Term>> {
    let mut listing = Listing {
        plan,
        coefficients: coefficients(plan, values, (genus, places))?,
        greatest: 3 * genus as usize + places - 3,
        list: Key::zeros(genus, places),
        terms: Vec::new(),
    };
    for sum in 0..=listing.greatest {
        listing.add_terms(0, sum as u8);
    }
    Some(listing.terms)
}

fn write_term(term: &Term, behind: &str, line: &mut Vec<u8>) -> io::Result<()> {
    write!(line, "{}", term.coefficient)?;
    match term.letter {
        0 => {}
        1 => write!(line, " p")?,
        power => write!(line, " p^{power}")?,
    }
    for (place, d) in term.list.list().iter().enumerate() {
        if *d > 0 {
            write!(line, " L{}^{}", place + 1, 2 * d)?;
        }
    }
    write!(line, "{behind}")
}

/// Writes the terms, each by one write.
pub fn write_terms(terms: &[Term], out: &mut File) -> io::Result<()> {
    let mut line = Vec::new();
    for (at, term) in terms.iter().enumerate() {
        line.clear();
        let behind = if at + 1 == terms.len() { "\n" } else { " + " };
        write_term(term, behind, &mut line)?;
        out.write_all(&line)?;
    }
    Ok(())
}
