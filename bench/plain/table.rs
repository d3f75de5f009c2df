//! Plans, tables of amplitudes and the check of every pivot in plain Rust, timed as `table_main.rt.txt` times the proved ones.
//! The words are a structure and a bound, as `wk 12`; `dense 4` makes a plan alone. It writes a line for each number. With `bulk SEED DIM X` or
//! `volume G N` it writes what the built program does. Behind a first word `once` sums are reduced once, as the built program does it.
mod commands;
mod filling;
mod fraction;
mod keys;
mod plan;
mod ranks;
mod relations;
mod splits;
mod sums;
mod tensors;
mod unreduced;
mod volume;
mod walk;

use filling::{End, Outcome, check, filled};
use fraction::Frac;
use plan::{Plan, Refusal};
use splits::Splits;
use std::time::Instant;
use sums::{Steps, Sum};
use tensors::Tensors;
use unreduced::Unreduced;
use walk::Visitor;

// ---- counts

/// Counts terms of each kind.
#[derive(Default)]
struct Counts {
    once: u64,
    joined: u64,
    twice: u64,
}

impl Visitor for Counts {
    fn alone(&mut self, _: Frac) {}

    fn once(&mut self, _: u8, _: Frac, _: u32) {
        self.once += 1;
    }

    fn weight(&mut self, _: Option<Frac>) {}

    fn joined(&mut self, _: u32) {
        self.joined += 1;
    }

    fn twice(&mut self, _: u32, _: u32, _: u32) {
        self.twice += 1;
    }
}

/// The terms of all keys at their least index, or at each distinct index above it.
fn counted(plan: &Plan, least: bool) -> Counts {
    let mut counts = Counts::default();
    let mut splits = Splits::none();
    for key in &plan.keys {
        let list = key.list();
        for at in 0..list.len() {
            if least && at == 0 || !least && at > 0 && list[at] != list[at - 1] {
                plan.walk(key, list[at], &mut splits, &mut counts);
            }
        }
    }
    counts
}

// ---- sums over results

/// A number that depends on all needs and their order.
fn needs_sum(plan: &Plan) -> u64 {
    let mut total = 0u64;
    for rank in 0..plan.keys.len() {
        for need in plan.needs.row(rank) {
            total = total.wrapping_mul(31).wrapping_add(*need as u64);
        }
        total = total.wrapping_mul(31).wrapping_add(rank as u64);
    }
    total
}

/// The sum of the ranks that outcomes name as the least one without a value.
fn blocking_sum(outcomes: &[Outcome]) -> u64 {
    let ranks = outcomes.iter().map(|outcome| match outcome {
        Outcome::Blocked(first) => u64::from(*first),
        _ => 0,
    });
    ranks.sum()
}

/// A number that depends on all values and their order.
fn values_sum(outcomes: &[Outcome]) -> u128 {
    let mut total = 0u128;
    for outcome in outcomes {
        total = total.wrapping_mul(31);
        if let Outcome::Value(value) = outcome {
            let (num, den) = value.parts();
            total = (total ^ num as u128).wrapping_add(den as u128);
        }
    }
    total
}

// ---- jobs

fn fill_and_check<S: Sum>(plan: &Plan) {
    let start = Instant::now();
    let outcomes = filled::<S>(plan);
    println!("time-fill {}", start.elapsed().as_nanos());
    let start = Instant::now();
    let end = check::<S>(plan, &outcomes);
    println!("time-check {}", start.elapsed().as_nanos());
    match end {
        End::NotValue(key) => println!("end-over {}", key.text()),
        End::Over(key, pivot) => println!("end-over-at {}\nend-pivot {pivot}", key.text()),
        End::Orders(key, pivot) => println!("end-orders {}\nend-pivot {pivot}", key.text()),
        End::Solution => println!("end solution"),
    }
    println!("values-sum {}", values_sum(&outcomes));
    println!("blocking-sum {}", blocking_sum(&outcomes));
    if let (Some(key), Some(outcome)) = (plan.keys.last(), outcomes.last()) {
        println!("last-key {}", key.text());
        match outcome {
            Outcome::Value(value) => println!("last-value {}/{}", value.parts().0, value.parts().1),
            _ => println!("last-value none"),
        }
    }
    for (name, least) in [("fill", true), ("check", false)] {
        let counts = counted(plan, least);
        println!("count-{name}-products {}", counts.twice);
        println!(
            "count-{name}-terms {}",
            counts.once + counts.joined + counts.twice
        );
    }
}

fn table_of<S: Sum>(tensors: Tensors, bound: usize, fills: bool) {
    let start = Instant::now();
    let made = Plan::make(tensors, bound);
    println!("time-plan {}", start.elapsed().as_nanos());
    let plan = match made {
        Ok(plan) => plan,
        Err(Refusal::Cells(level)) => return println!("refused-cells {level}"),
        Err(Refusal::Needs(key)) => return println!("refused-needs {}", key.text()),
    };
    println!("cells {}", plan.keys.len());
    println!("needs {}", plan.needs.count());
    println!("needs-sum {}", needs_sum(&plan));
    if fills {
        fill_and_check::<S>(&plan);
    }
}

fn run<S: Sum>(words: &[String]) {
    if let Some("bulk" | "text" | "volume") = words.first().map(String::as_str) {
        return match commands::done::<S>(words) {
            Ok(()) => {}
            Err(why) => eprintln!("{why}"),
        };
    }
    let bound: usize = words.get(1).and_then(|word| word.parse().ok()).unwrap_or(0);
    if !(1..=24).contains(&bound) {
        return println!("a bound from 1 to 24, please");
    }
    match words[0].as_str() {
        "wk" => table_of::<S>(tensors::wk(bound), bound, true),
        "bgw" => table_of::<S>(tensors::bgw(bound), bound, true),
        "wp" => match tensors::wp(bound) {
            Ok(tensors) => table_of::<S>(tensors, bound, true),
            Err(k) => println!("refused-c {k}"),
        },
        "dense" => table_of::<S>(tensors::dense(8), bound, false),
        name => println!("no such structure: {name}"),
    }
}

fn main() {
    let words: Vec<String> = std::env::args().skip(1).collect();
    match words.split_first() {
        Some((first, behind)) if first == "once" => run::<Unreduced>(behind),
        _ => run::<Steps>(&words),
    }
}
