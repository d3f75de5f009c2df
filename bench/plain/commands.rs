//! The commands `bulk SEED DIM X` and `volume G N` of the program in plain Rust, on one thread, and `text SEED DIM`, which prints the tensors of `bulk` as
//! a text. Where the program would refuse, they print nothing on standard output.
use crate::filling::{all_values, check, filled, End};
use crate::fraction::Frac;
use crate::plan::Plan;
use crate::sums::Sum;
use crate::{relations, tensors, volume};
use std::fs::File;
use std::io::{self, Write};
use std::os::fd::AsFd;

type Done = Result<(), &'static str>;

/// Standard output without a buffer.
fn output() -> Result<File, &'static str> {
    let end = io::stdout().as_fd().try_clone_to_owned();
    Ok(File::from(end.map_err(|_| "no standard output")?))
}

fn print_bulk<S: Sum>(seed: u64, dim: usize, bound: usize) -> Done {
    let tensors = tensors::bulk(seed, dim).ok_or("a change of basis leaves the range")?;
    if !relations::check(&tensors) {
        return Err("a relation fails");
    }
    let plan = Plan::make(tensors, bound).map_err(|_| "too many keys or needs")?;
    let outcomes = filled::<S>(&plan);
    let End::Solution = check::<S>(&plan, &outcomes) else {
        return Err("the table is no solution");
    };
    let values = all_values(&outcomes).map_err(|_| "a number leaves the range")?;
    let mut text = format!("cells {}\nneeds {}\n", plan.keys.len(), plan.needs.count());
    if let (Some(key), Some(value)) = (plan.keys.last(), values.last()) {
        text += &format!("last {} {value}\n", key.text());
    }
    text += "solution\n";
    let written = output()?.write_all(text.as_bytes());
    written.map_err(|_| "a write failed")
}

/// Prints the tensors of a seed as a text.
fn print_text(seed: u64, dim: usize) -> Done {
    let t = tensors::bulk(seed, dim).ok_or("a change of basis leaves the range")?;
    let mut text = format!("airy 1\ndim {dim}\n");
    let mut put = |name: char, indices: &[u8], value: Frac| {
        if value.parts().0 != 0 {
            let indices: Vec<String> = indices.iter().map(u8::to_string).collect();
            text += &format!("{name} {} {value}\n", indices.join(" "));
        }
    };
    let below = || 0..dim as u8;
    for i in below() {
        for j in below() {
            for k in below() {
                put('B', &[i, j, k], t.b(i, j, k));
                if j <= k {
                    put('A', &[i, j, k], t.a(i, j, k));
                    put('C', &[i, j, k], t.c(i, j, k));
                }
            }
        }
        put('D', &[i], t.d(i));
    }
    text += "end\n";
    let written = output()?.write_all(text.as_bytes());
    written.map_err(|_| "a write failed")
}

fn print_volume<S: Sum>(genus: u8, places: usize) -> Done {
    let bound = 2 * genus as usize + places - 2;
    let tensors = tensors::wp(bound).map_err(|_| "a number of the structure leaves the range")?;
    let plan = Plan::make(tensors, bound).map_err(|_| "too many keys or needs")?;
    let values = all_values(&filled::<S>(&plan)).map_err(|_| "a number leaves the range")?;
    let terms =
        volume::terms(&plan, &values, (genus, places)).ok_or("a quotient leaves the range")?;
    volume::write_terms(&terms, &mut output()?).map_err(|_| "a write failed")
}

/// Does a command, or says why not.
pub fn done<S: Sum>(words: &[String]) -> Done {
    let mut numbers = Vec::new();
    for word in &words[1..] {
        numbers.push(word.parse::<usize>().map_err(|_| "a number, please")?);
    }
    match (words[0].as_str(), numbers.as_slice()) {
        ("bulk", [seed, dim, bound]) => print_bulk::<S>(*seed as u64, *dim, *bound),
        ("text", [seed, dim]) => print_text(*seed as u64, *dim),
        ("volume", [genus, places]) => print_volume::<S>(*genus as u8, *places),
        _ => Err("bulk SEED DIM X, text SEED DIM or volume G N, please"),
    }
}
