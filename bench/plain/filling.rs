//! The outcomes of a plan, and the check of every pivot.
use crate::fraction::Frac;
use crate::keys::Key;
use crate::plan::Plan;
use crate::splits::Splits;
use crate::sums::Sum;
use crate::walk::Visitor;

// ---- outcomes

/// What a rank has: its value, or that a step left the range, or the least rank without a value that it needs.
#[derive(Clone, Copy)]
pub enum Outcome {
    Value(Frac),
    Over,
    Blocked(u32),
}

/// The sum of the terms so far over outcomes of lower ranks, and the least rank so far without a value.
struct PivotSum<'a, S: Sum> {
    outcomes: &'a [Outcome],
    blocked: Option<u32>,
    weight: Option<S::Number>,
    sum: S,
}

impl<S: Sum> PivotSum<'_, S> {
    fn number(&mut self, rank: u32) -> S::Number {
        match self.outcomes[rank as usize] {
            Outcome::Value(value) => S::number(value),
            _ => {
                self.blocked = Some(self.blocked.map_or(rank, |least| least.min(rank)));
                S::number(Frac::whole(0))
            }
        }
    }
}

impl<S: Sum> Visitor for PivotSum<'_, S> {
    fn alone(&mut self, v: Frac) {
        self.sum.add_alone(v);
    }

    fn once(&mut self, times: u8, v: Frac, rank: u32) {
        let value = self.number(rank);
        self.sum.add_once(times, v, value);
    }

    fn weight(&mut self, w: Option<Frac>) {
        self.weight = w.map(S::number);
    }

    fn joined(&mut self, rank: u32) {
        let value = self.number(rank);
        self.sum.add_joined(self.weight, value);
    }

    fn twice(&mut self, ways: u32, left: u32, right: u32) {
        let (left, right) = (self.number(left), self.number(right));
        self.sum.add_twice(self.weight, ways, left, right);
    }
}

/// The outcome of every rank, lowest first.
#[inline(never)]
pub fn filled<S: Sum>(plan: &Plan) -> Vec<Outcome> {
    let mut outcomes = Vec::with_capacity(plan.keys.len());
    let mut splits = Splits::none();
    for key in &plan.keys {
        let mut sum = PivotSum {
            outcomes: &outcomes,
            blocked: None,
            weight: None,
            sum: S::zero(),
        };
        plan.walk(key, key.list()[0], &mut splits, &mut sum);
        outcomes.push(match (sum.blocked, sum.sum.value()) {
            (Some(first), _) => Outcome::Blocked(first),
            (None, Some(value)) => Outcome::Value(value),
            (None, None) => Outcome::Over,
        });
    }
    outcomes
}

// ---- the check of every pivot

/// The sum of the terms so far over values of all ranks.
struct ValueSum<'a, S: Sum> {
    values: &'a [S::Number],
    weight: Option<S::Number>,
    sum: S,
}

impl<S: Sum> Visitor for ValueSum<'_, S> {
    fn alone(&mut self, v: Frac) {
        self.sum.add_alone(v);
    }

    fn once(&mut self, times: u8, v: Frac, rank: u32) {
        self.sum.add_once(times, v, self.values[rank as usize]);
    }

    fn weight(&mut self, w: Option<Frac>) {
        self.weight = w.map(S::number);
    }

    fn joined(&mut self, rank: u32) {
        self.sum.add_joined(self.weight, self.values[rank as usize]);
    }

    fn twice(&mut self, ways: u32, left: u32, right: u32) {
        let (left, right) = (self.values[left as usize], self.values[right as usize]);
        self.sum.add_twice(self.weight, ways, left, right);
    }
}

/// How the check ends: at the first key without a value, at the first pivot that is out of range or gives another number, or nowhere.
pub enum End {
    NotValue(Key),
    Over(Key, u8),
    Orders(Key, u8),
    Solution,
}

/// The values, or the first rank without one.
pub fn all_values(outcomes: &[Outcome]) -> Result<Vec<Frac>, usize> {
    let value = |(rank, outcome): (usize, &Outcome)| match outcome {
        Outcome::Value(value) => Ok(*value),
        _ => Err(rank),
    };
    outcomes.iter().enumerate().map(value).collect()
}

/// The first pivot above the least index whose sum isn't the key's value.
#[inline(never)]
pub fn check<S: Sum>(plan: &Plan, outcomes: &[Outcome]) -> End {
    let values = match all_values(outcomes) {
        Ok(values) => values,
        Err(rank) => return End::NotValue(plan.keys[rank]),
    };
    let numbers: Vec<S::Number> = values.iter().map(|value| S::number(*value)).collect();
    let mut splits = Splits::none();
    for (rank, key) in plan.keys.iter().enumerate() {
        for pair in key.list().windows(2).filter(|pair| pair[0] != pair[1]) {
            let mut sum = ValueSum {
                values: &numbers,
                weight: None,
                sum: S::zero(),
            };
            plan.walk(key, pair[1], &mut splits, &mut sum);
            match sum.sum.value() {
                None => return End::Over(*key, pair[1]),
                Some(sum) if sum == values[rank] => {}
                Some(_) => return End::Orders(*key, pair[1]),
            }
        }
    }
    End::Solution
}
