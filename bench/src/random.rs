//! Random numbers, rules and readings.

use crate::rule::{Entry, Grid, Rule};

/// A xorshift generator, so that each run has the same cases.
pub struct Random(u64);

impl Random {
    pub fn new(seed: u64) -> Random {
        Random(seed.max(1))
    }

    fn next(&mut self) -> u64 {
        self.0 ^= self.0 << 13;
        self.0 ^= self.0 >> 7;
        self.0 ^= self.0 << 17;
        self.0
    }

    pub fn below(&mut self, n: u64) -> u64 {
        (self.next() >> 11) % n
    }
}

/// How readings run: `Any` jumps anywhere, `Few` has four values, `Walk` wanders.
#[derive(Clone, Copy, PartialEq)]
pub enum Readings {
    Any,
    Few,
    Walk,
}

pub fn grid(random: &mut Random, heads: u32, polls: u32, readings: Readings) -> Grid {
    let mut at = vec![30_000_i64; heads as usize];
    let mut list = Vec::with_capacity(heads as usize * polls as usize);
    for _ in 0..polls {
        for x in &mut at {
            *x = match readings {
                Readings::Any => random.below(65_536) as i64,
                Readings::Few => random.below(4) as i64,
                Readings::Walk => (*x + random.below(401) as i64 - 200).clamp(0, 65_535),
            };
            list.push(*x as i32);
        }
    }
    Grid { heads, polls, readings: list }
}

/// A lawful rule of at most so many entries, over all heads, with windows of at most so many polls.
pub fn rule(random: &mut Random, heads: u32, most: usize, width: u64) -> Rule {
    loop {
        let mut entries = Vec::new();
        let count = 1 + random.below(most as u64) as usize;
        let mut open = 0;
        while entries.len() < count || open > 1 {
            let full = entries.len() >= count;
            let limit = random.below(70_000) as i32 - 2_000;
            let sense = random.below(2) as u8;
            match if full { 4 } else { random.below(6) } {
                0 => entries.push(Entry::head_test(random.below(heads as u64) as u8, sense, limit)),
                1 => entries.push(Entry::zone_test(1 + random.below(heads as u64) as u8, sense, limit)),
                2 if open > 0 => entries.push(Entry::not()),
                3 if open > 0 => {
                    let first = random.below(width) as u16;
                    let last = first + random.below(width - first as u64) as u16;
                    entries.push(Entry::window(first, last, 1 + random.below(1_000) as u16));
                }
                4 if open > 1 => {
                    entries.push(if random.below(2) == 0 { Entry::either() } else { Entry::both() });
                    open -= 1;
                }
                _ => continue,
            }
            if matches!(entries[entries.len() - 1].kind, 16 | 17) {
                open += 1;
            }
        }
        if entries.len() <= 24 {
            return Rule { entries, zone: u64::MAX >> (64 - heads) };
        }
    }
}
