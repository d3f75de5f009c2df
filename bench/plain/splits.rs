//! What is left of a key without a pivot, and its splits into a part and the others.
use crate::keys::{Key, MOST_PLACES};
use crate::ranks::Ranks;

/// A distinct index of a list, how often it stands there, its code, and its excess: the index less the law's number for each index.
#[derive(Clone, Copy, Default)]
pub struct Run {
    pub index: u8,
    pub count: u8,
    pub excess: i32,
    pub code: u64,
}

/// The indices of a key without the pivot: by runs, and their sum, excess and code. A part's excess is from `least` to `most`.
pub struct Rest {
    runs: [Run; MOST_PLACES],
    len: usize,
    pub places: usize,
    pub sum: i32,
    pub excess: i32,
    pub least: i32,
    pub most: i32,
    pub code: u64,
}

impl Rest {
    pub fn of(ranks: &Ranks, per_n: i32, key: &Key, pivot: u8) -> Rest {
        let mut rest = Rest {
            runs: [Run::default(); MOST_PLACES],
            len: 0,
            places: key.list().len() - 1,
            sum: 0,
            excess: 0,
            least: 0,
            most: 0,
            code: 0,
        };
        let mut dropped = false;
        for index in key.list() {
            if !dropped && *index == pivot {
                dropped = true;
            } else {
                rest.push(*index);
            }
        }
        rest.add_up(ranks, per_n);
        rest
    }

    fn push(&mut self, index: u8) {
        if self.len == 0 || self.runs[self.len - 1].index != index {
            self.runs[self.len].index = index;
            self.len += 1;
        }
        self.runs[self.len - 1].count += 1;
    }

    fn add_up(&mut self, ranks: &Ranks, per_n: i32) {
        for run in &mut self.runs[..self.len] {
            run.excess = run.index as i32 - per_n;
            run.code = ranks.index_code(run.index);
            let count = run.count as i32;
            self.sum += count * run.index as i32;
            self.excess += count * run.excess;
            self.least += count * run.excess.min(0);
            self.most += count * run.excess.max(0);
            self.code = self.code.wrapping_add(run.code.wrapping_mul(count as u64));
        }
    }

    pub fn runs(&self) -> &[Run] {
        &self.runs[..self.len]
    }
}

/// A part of a list: its code, in how many ways it comes, how many indices it has, and its excess.
#[derive(Clone, Copy)]
struct Part {
    code: u64,
    ways: u32,
    excess: i16,
    size: u8,
}

impl Part {
    const NOTHING: Part = Part {
        code: 0,
        ways: 1,
        excess: 0,
        size: 0,
    };

    /// The part with so many of a run.
    #[inline(always)]
    fn with(self, run: &Run, taken: u8, ways: u32) -> Part {
        Part {
            code: self.code.wrapping_add(run.code.wrapping_mul(taken as u64)),
            ways: self.ways * ways,
            excess: self.excess + (run.excess * taken as i32) as i16,
            size: self.size + taken,
        }
    }
}

/// A part in a list of those of one excess.
struct Link {
    code: u64,
    ways: u32,
    next: u16,
    size: u8,
}

/// The bounds of the excess and of the number of indices of a part.
pub struct Bounds {
    pub low: i32,
    pub high: i32,
    pub fewest: usize,
    pub most: usize,
}

/// The parts of a list in their order. Made once, and listed anew for each list: its memory stays.
pub struct Splits {
    ways: [[u32; MOST_PLACES]; MOST_PLACES],
    parts: Vec<Part>,
    heads: Vec<u16>,
    links: Vec<Link>,
    least: i32,
}

/// The end of a list of links, of which each other number is that of a link plus one.
const END: u16 = 0;

impl Splits {
    pub fn none() -> Splits {
        Splits {
            ways: binomials(),
            parts: Vec::new(),
            heads: Vec::new(),
            links: Vec::new(),
            least: 0,
        }
    }

    /// Lists the parts of these runs: from the last run to the first, those so far once more with one of it, with two, and so on.
    pub fn list(&mut self, runs: &[Run]) {
        self.parts.clear();
        self.parts.push(Part::NOTHING);
        for run in runs.iter().rev() {
            let so_far = self.parts.len();
            self.parts.reserve(so_far * run.count as usize);
            for taken in 1..=run.count {
                let ways = self.ways[run.count as usize][taken as usize];
                for at in 0..so_far {
                    let part = self.parts[at].with(run, taken, ways);
                    self.parts.push(part);
                }
            }
        }
    }

    /// Links the parts of a list by excess, from the last to the first.
    pub fn link(&mut self, rest: &Rest) {
        let (first, behind) = match rest.runs().split_first() {
            Some((run, behind)) => (*run, behind),
            None => (Run::default(), rest.runs()),
        };
        self.list(behind);
        self.least = rest.least;
        self.heads.clear();
        self.heads
            .resize((rest.most - rest.least + 1) as usize, END);
        self.links.clear();
        self.links
            .reserve(self.parts.len() * (first.count as usize + 1));
        assert!(self.parts.len() * (first.count as usize + 1) < u16::MAX as usize);
        for taken in (0..=first.count).rev() {
            let ways = self.ways[first.count as usize][taken as usize];
            for part in self.parts.iter().rev() {
                let part = part.with(&first, taken, ways);
                let head = &mut self.heads[(part.excess as i32 - rest.least) as usize];
                self.links.push(Link {
                    code: part.code,
                    ways: part.ways,
                    next: *head,
                    size: part.size,
                });
                *head = self.links.len() as u16;
            }
        }
    }

    /// Hands over code and ways of the linked parts with the excess `low`.
    #[inline(always)]
    pub fn each_linked(&self, bounds: &Bounds, mut take: impl FnMut(u64, u32)) {
        let mut at = self.heads[(bounds.low - self.least) as usize];
        while at != END {
            let link = &self.links[at as usize - 1];
            if bounds.fewest <= link.size as usize && link.size as usize <= bounds.most {
                take(link.code, link.ways);
            }
            at = link.next;
        }
    }

    /// Hands over code and ways of the listed parts within bounds.
    #[inline(always)]
    pub fn each_within(&self, bounds: &Bounds, mut take: impl FnMut(u64, u32)) {
        for part in &self.parts {
            let (excess, size) = (part.excess as i32, part.size as usize);
            if bounds.low <= excess
                && excess <= bounds.high
                && bounds.fewest <= size
                && size <= bounds.most
            {
                take(part.code, part.ways);
            }
        }
    }
}

fn binomials() -> [[u32; MOST_PLACES]; MOST_PLACES] {
    let mut rows = [[0; MOST_PLACES]; MOST_PLACES];
    for n in 0..MOST_PLACES {
        rows[n][0] = 1;
        for k in 1..=n {
            rows[n][k] = rows[n - 1][k - 1] + rows[n - 1][k];
        }
    }
    rows
}
