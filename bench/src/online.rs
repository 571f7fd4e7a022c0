//! The fast online peer: one row after another, a sorted Vec for each window with one `copy_within` between the place that
//! a margin leaves and the one that the newest takes, and a ring of the latest margins for each entry.

use crate::rule::{Entry, Grid, Played, Rule};

enum Node {
    Head { head: usize, entry: Entry },
    Zone { k: usize, entry: Entry },
    Not { of: usize },
    Either { left: usize, right: usize },
    Both { left: usize, right: usize },
    Window { of: usize, rank: usize, width: usize, sorted: Vec<i32> },
}

pub struct Online {
    nodes: Vec<Node>,
    horizons: Vec<usize>,
    /// Ring of entry i at `i << shift`, each of `1 << shift` margins, by the poll that a margin is of.
    rings: Vec<i32>,
    shift: u32,
    zone: Vec<usize>,
    reads: Vec<usize>,
    tests: Vec<i32>,
    rows: usize,
}

fn slide(sorted: &mut Vec<i32>, width: usize, leaving: Option<i32>, newest: i32) {
    let at = sorted.partition_point(|m| *m > newest);
    match leaving {
        Some(old) => {
            let gone = sorted.partition_point(|m| *m > old);
            if at <= gone {
                sorted.copy_within(at..gone, at + 1);
                sorted[at] = newest;
            } else {
                sorted.copy_within(gone + 1..at, gone);
                sorted[at - 1] = newest;
            }
        }
        None => {
            debug_assert!(sorted.len() < width);
            sorted.insert(at, newest);
        }
    }
}

impl Online {
    pub fn new(rule: &Rule) -> Online {
        let mut nodes = Vec::new();
        let mut horizons: Vec<usize> = Vec::new();
        let mut stack: Vec<usize> = Vec::new();
        let mut back = 1;
        for (i, entry) in rule.entries.iter().enumerate() {
            let (node, horizon) = match entry.kind {
                16 => (Node::Head { head: entry.head as usize, entry: *entry }, 0),
                17 => (Node::Zone { k: entry.k as usize, entry: *entry }, 0),
                18 => {
                    let of = stack.pop().unwrap();
                    (Node::Not { of }, horizons[of])
                }
                19 | 20 => {
                    let right = stack.pop().unwrap();
                    let left = stack.pop().unwrap();
                    let node = if entry.kind == 19 { Node::Either { left, right } } else { Node::Both { left, right } };
                    (node, horizons[left].max(horizons[right]))
                }
                _ => {
                    let of = stack.pop().unwrap();
                    let width = entry.width();
                    back = back.max(width + 1);
                    let sorted = Vec::with_capacity(width);
                    (Node::Window { of, rank: entry.rank(), width, sorted }, horizons[of] + entry.last as usize)
                }
            };
            nodes.push(node);
            horizons.push(horizon);
            stack.push(i);
        }
        let size = back.max(horizons.iter().max().unwrap() + 1).next_power_of_two();
        let zone = rule.zone_heads();
        let mut reads: Vec<usize> = rule.entries.iter().filter(|e| e.kind == 16).map(|e| e.head as usize).collect();
        if rule.entries.iter().any(|e| e.kind == 17) {
            reads.extend(&zone);
        }
        reads.sort_unstable();
        reads.dedup();
        Online {
            rings: vec![0; nodes.len() * size],
            shift: size.trailing_zeros(),
            tests: vec![0; zone.len()],
            nodes,
            horizons,
            zone,
            reads,
            rows: 0,
        }
    }

    /// Takes a row, or says which head is unlawful; then the margin of the latest poll that has all its rows.
    pub fn step(&mut self, row: &[i32]) -> Result<Option<i32>, usize> {
        for head in &self.reads {
            if !(0..=65_535).contains(&row[*head]) {
                return Err(*head);
            }
        }
        let Online { nodes, horizons, rings, shift, zone, tests, rows, .. } = self;
        let n = *rows;
        let mask = (1 << *shift) - 1;
        let mut latest = None;
        for (i, node) in nodes.iter_mut().enumerate() {
            let ring = |of: usize, poll: usize| rings[(of << *shift) + (poll & mask)];
            if let Node::Window { of, width, sorted, .. } = node {
                if n >= horizons[*of] {
                    let newest = n - horizons[*of];
                    let leaving = newest.checked_sub(*width).map(|poll| ring(*of, poll));
                    slide(sorted, *width, leaving, ring(*of, newest));
                }
            }
            latest = None;
            if n < horizons[i] {
                continue;
            }
            let poll = n - horizons[i];
            let margin = match node {
                Node::Head { head, entry } => entry.test(row[*head]),
                Node::Zone { k, entry } => {
                    for (test, head) in tests.iter_mut().zip(zone.iter()) {
                        *test = entry.test(row[*head]);
                    }
                    let at = tests.len() - *k;
                    *tests.select_nth_unstable(at).1
                }
                Node::Not { of } => -ring(*of, poll),
                Node::Either { left, right } => ring(*left, poll).max(ring(*right, poll)),
                Node::Both { left, right } => ring(*left, poll).min(ring(*right, poll)),
                Node::Window { rank, sorted, .. } => sorted[*rank - 1],
            };
            rings[(i << *shift) + (poll & mask)] = margin;
            latest = Some(margin);
        }
        *rows += 1;
        Ok(latest)
    }
}

pub fn play_into(rule: &Rule, grid: &Grid, margins: &mut [i32]) -> (usize, Option<(u32, u32)>) {
    let mut online = Online::new(rule);
    let mut told = 0;
    for poll in 0..grid.polls as usize {
        match online.step(grid.row(poll)) {
            Ok(Some(margin)) => {
                margins[told] = margin;
                told += 1;
            }
            Ok(None) => {}
            Err(head) => return (told, Some((head as u32, poll as u32))),
        }
    }
    (told, None)
}

pub fn play(rule: &Rule, grid: &Grid) -> Played {
    let mut margins = vec![0; grid.polls as usize];
    let (told, fault) = play_into(rule, grid, &mut margins);
    margins.truncate(told);
    (margins, fault)
}
