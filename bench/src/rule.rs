//! Rules and grids as the peers read them.

#[repr(C)]
#[derive(Clone, Copy, Default, Debug)]
pub struct Entry {
    pub kind: u8,
    pub head: u8,
    pub k: u8,
    pub sense: u8,
    pub limit: i32,
    pub first: u16,
    pub last: u16,
    pub share: u16,
}

impl Entry {
    pub fn head_test(head: u8, sense: u8, limit: i32) -> Entry {
        Entry { kind: 16, head, sense, limit, ..Entry::default() }
    }

    pub fn zone_test(k: u8, sense: u8, limit: i32) -> Entry {
        Entry { kind: 17, k, sense, limit, ..Entry::default() }
    }

    pub fn not() -> Entry {
        Entry { kind: 18, ..Entry::default() }
    }

    pub fn either() -> Entry {
        Entry { kind: 19, ..Entry::default() }
    }

    pub fn both() -> Entry {
        Entry { kind: 20, ..Entry::default() }
    }

    pub fn window(first: u16, last: u16, share: u16) -> Entry {
        Entry { kind: 21, first, last, share, ..Entry::default() }
    }

    pub fn width(&self) -> usize {
        (self.last - self.first) as usize + 1
    }

    /// The least K with 1,000 x K at least share x width.
    pub fn rank(&self) -> usize {
        (self.share as usize * self.width()).div_ceil(1_000)
    }

    pub fn test(&self, reading: i32) -> i32 {
        if self.sense == 0 { reading - self.limit } else { self.limit - reading }
    }
}

#[derive(Clone, Debug)]
pub struct Rule {
    pub entries: Vec<Entry>,
    /// The heads whose bits are set.
    pub zone: u64,
}

impl Rule {
    pub fn zone_heads(&self) -> Vec<usize> {
        (0..64).filter(|head| self.zone >> head & 1 == 1).collect()
    }
}

pub struct Grid {
    pub heads: u32,
    pub polls: u32,
    pub readings: Vec<i32>,
}

impl Grid {
    pub fn row(&self, poll: usize) -> &[i32] {
        let heads = self.heads as usize;
        &self.readings[poll * heads..][..heads]
    }
}

/// What a play gave: its margins, and the head and poll of the first unlawful reading.
pub type Played = (Vec<i32>, Option<(u32, u32)>);
