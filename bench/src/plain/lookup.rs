//! Which entries a script is held against: all in their order, or those that share its hash.
use super::script::lines_in;
use crate::command::{ENTRY, RawLine};

/// No entry; a store has fewer.
const NONE: u16 = u16::MAX;

pub enum Lookup {
    All,
    /// The first entry of each bucket, and for each entry the next of its bucket.
    Hashed {
        heads: Vec<u16>,
        next: Vec<u16>,
    },
}

fn hash(script: &[u64]) -> usize {
    const ODD: RawLine = [0x9e37_79b9_7f4a_7c15, 0xbf58_476d_1ce4_e5b9, 0x94d0_49bb_1331_11eb, 0xd6e8_feb8_6659_fd93];
    let mut lanes = [script[0]; 4];
    for line in lines_in(script) {
        for ((lane, number), odd) in lanes.iter_mut().zip(line).zip(ODD) {
            *lane = (lane.rotate_left(5) ^ number).wrapping_mul(odd);
        }
    }
    let all = lanes.iter().fold(0u64, |all, lane| all.rotate_left(17) ^ lane);
    (all ^ (all >> 32)) as usize
}

impl Lookup {
    pub fn hashed(entries: &[[u64; ENTRY]]) -> Self {
        let mut heads = vec![NONE; (2 * entries.len()).next_power_of_two()];
        let mut next = vec![NONE; entries.len()];
        for (at, entry) in entries.iter().enumerate().rev() {
            let bucket = hash(entry) & (heads.len() - 1);
            next[at] = heads[bucket];
            heads[bucket] = at as u16;
        }
        Lookup::Hashed { heads, next }
    }

    /// The first entry that may be of this script; a number past the last if there is none.
    pub fn first(&self, script: &[u64]) -> usize {
        match self {
            Lookup::All => 0,
            Lookup::Hashed { heads, .. } => heads[hash(script) & (heads.len() - 1)].into(),
        }
    }

    pub fn after(&self, at: usize) -> usize {
        match self {
            Lookup::All => at + 1,
            Lookup::Hashed { next, .. } => next[at].into(),
        }
    }
}
