//! Other ways to the margins of one window over one head: each takes the margins and gives the K-th highest of each window.

/// Each window anew, by selection.
pub fn select(margins: &[i32], width: usize, k: usize, out: &mut [i32]) {
    let mut window = vec![0; width];
    for (place, stretch) in out.iter_mut().zip(margins.windows(width)) {
        window.copy_from_slice(stretch);
        *place = *window.select_nth_unstable(width - k).1;
    }
}

/// A Fenwick tree over the 65,536 lawful counts: margins must be counts.
pub fn fenwick(margins: &[i32], width: usize, k: usize, out: &mut [i32]) {
    const COUNTS: usize = 65_536;
    let mut tree = vec![0_u32; COUNTS + 1];
    let add = |tree: &mut [u32], margin: i32, by: u32| {
        let mut i = COUNTS - margin as usize;
        while i <= COUNTS {
            tree[i] = tree[i].wrapping_add(by);
            i += i & i.wrapping_neg();
        }
    };
    for (t, margin) in margins.iter().enumerate() {
        if t >= width {
            add(&mut tree, margins[t - width], u32::MAX);
        }
        add(&mut tree, *margin, 1);
        if t + 1 < width {
            continue;
        }
        let (mut at, mut left, mut step) = (0, k as u32, COUNTS);
        while step > 0 {
            if at + step <= COUNTS && tree[at + step] < left {
                left -= tree[at + step];
                at += step;
            }
            step >>= 1;
        }
        out[t + 1 - width] = (COUNTS - at - 1) as i32;
    }
}

/// A block of margins in order, as a list that margins can leave and come back to.
struct Block {
    margins: Vec<i32>,
    order: Vec<u32>,
    before: Vec<u32>,
    after: Vec<u32>,
    end: u32,
    at: u32,
    passed: usize,
}

impl Block {
    fn new(margins: &[i32]) -> Block {
        let mut keys: Vec<u64> = margins.iter().enumerate().map(|(i, m)| ((!(*m as u32 ^ 1 << 31)) as u64) << 32 | i as u64).collect();
        keys.sort_unstable();
        let order: Vec<u32> = keys.iter().map(|key| *key as u32).collect();
        let end = margins.len() as u32;
        let (mut before, mut after) = (vec![0; margins.len() + 1], vec![0; margins.len() + 1]);
        let mut last = end;
        for i in &order {
            after[last as usize] = *i;
            before[*i as usize] = last;
            last = *i;
        }
        after[last as usize] = end;
        before[end as usize] = last;
        let at = order[0];
        Block { margins: margins.to_vec(), order, before, after, end, at, passed: 0 }
    }

    fn empty(&mut self) {
        for i in (0..self.order.len()).rev() {
            let (b, a) = (self.before[i], self.after[i]);
            self.after[b as usize] = a;
            self.before[a as usize] = b;
        }
        self.at = self.end;
        self.passed = 0;
    }

    fn comes_before(&self, i: usize) -> bool {
        self.at == self.end || (-self.margins[i], i as u32) < (-self.margins[self.at as usize], self.at)
    }

    fn leave(&mut self, i: usize) {
        let (b, a) = (self.before[i], self.after[i]);
        self.after[b as usize] = a;
        self.before[a as usize] = b;
        if self.comes_before(i) {
            self.passed -= 1;
            return;
        }
        if self.at == i as u32 {
            self.at = a;
        }
        if self.passed > 0 {
            self.at = self.before[self.at as usize];
            self.passed -= 1;
        }
    }

    fn come_back(&mut self, i: usize) {
        let (b, a) = (self.before[i], self.after[i]);
        self.after[b as usize] = i as u32;
        self.before[a as usize] = i as u32;
        if self.comes_before(i) {
            self.at = self.before[self.at as usize];
        }
    }

    fn pass(&mut self) {
        self.at = self.after[self.at as usize];
        self.passed += 1;
    }

    fn margin(&self) -> i64 {
        if self.at == self.end { i64::MIN } else { self.margins[self.at as usize] as i64 }
    }
}

/// Blocks of one width, each sorted at once, for who knows all readings beforehand.
pub fn batch(margins: &[i32], width: usize, k: usize, out: &mut [i32]) {
    if margins.len() < width {
        return;
    }
    let mut old = Block::new(&margins[..width]);
    (0..k - 1).for_each(|_| old.pass());
    out[0] = old.margin() as i32;
    let mut told = 1;
    for block in margins[width..].chunks(width) {
        let mut new = Block::new(block);
        new.empty();
        for i in 0..block.len() {
            old.leave(i);
            new.come_back(i);
            while old.passed + new.passed < k - 1 {
                if old.margin() >= new.margin() { old.pass() } else { new.pass() }
            }
            out[told] = old.margin().max(new.margin()) as i32;
            told += 1;
        }
        old = new;
    }
}
