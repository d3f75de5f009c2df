//! The ranks of keys by codes that add up: that of a key is the sum of those of its genus and of its indices.
use crate::keys::{Key, MOST_GENUS};

/// An open table. A seat has the low half of a code and the rank, and is looked for by the high half.
pub struct Ranks {
    seats: Vec<(u32, u32)>,
    mask: usize,
    genus_codes: [u64; MOST_GENUS + 1],
    index_codes: [u64; 256],
}

const EMPTY: u32 = u32::MAX;

impl Ranks {
    pub fn of(keys: &[Key]) -> Ranks {
        let size = (4 * keys.len()).next_power_of_two();
        let mut state = 0x9e3779b97f4a7c15u64;
        let mut code = || {
            state ^= state << 13;
            state ^= state >> 7;
            state ^= state << 17;
            state.wrapping_mul(0x2545f4914f6cdd1d)
        };
        let mut ranks = Ranks {
            seats: vec![(0, EMPTY); size],
            mask: size - 1,
            genus_codes: std::array::from_fn(|_| code()),
            index_codes: std::array::from_fn(|_| code()),
        };
        for (rank, key) in keys.iter().enumerate() {
            ranks.put(ranks.code(key), rank as u32);
        }
        ranks
    }

    pub fn genus_code(&self, genus: usize) -> u64 {
        self.genus_codes[genus]
    }

    pub fn index_code(&self, index: u8) -> u64 {
        self.index_codes[index as usize]
    }

    fn code(&self, key: &Key) -> u64 {
        let codes = key.list().iter().map(|index| self.index_code(*index));
        codes.fold(self.genus_code(key.genus as usize), u64::wrapping_add)
    }

    fn put(&mut self, code: u64, rank: u32) {
        let mut at = (code >> 32) as usize & self.mask;
        while self.seats[at].1 != EMPTY {
            assert!(self.seats[at].0 != code as u32, "two keys have one code");
            at = (at + 1) & self.mask;
        }
        self.seats[at] = (code as u32, rank);
    }

    /// The rank of the planned key with a code.
    #[inline(always)]
    pub fn find(&self, code: u64) -> u32 {
        let mut at = (code >> 32) as usize & self.mask;
        while self.seats[at].0 != code as u32 {
            at = (at + 1) & self.mask;
        }
        self.seats[at].1
    }
}
