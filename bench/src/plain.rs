//! The plain peer: the margins of every entry at every poll, each window sorted anew.

use crate::rule::{Grid, Played, Rule};

fn kth(mut margins: Vec<i32>, k: usize) -> i32 {
    margins.sort_unstable_by(|a, b| b.cmp(a));
    margins[k - 1]
}

pub fn play(rule: &Rule, grid: &Grid) -> Played {
    let zone = rule.zone_heads();
    let tests_zone = rule.entries.iter().any(|entry| entry.kind == 17);
    let mut reads: Vec<usize> = rule.entries.iter().filter(|e| e.kind == 16).map(|e| e.head as usize).collect();
    if tests_zone {
        reads.extend(&zone);
    }
    reads.sort_unstable();
    let mut polls = grid.polls as usize;
    let mut fault = None;
    for poll in 0..polls {
        if let Some(head) = reads.iter().find(|head| !(0..=65_535).contains(&grid.row(poll)[**head])) {
            fault = Some((*head as u32, poll as u32));
            polls = poll;
            break;
        }
    }
    let mut stack: Vec<Vec<i32>> = Vec::new();
    for entry in &rule.entries {
        let margins = match entry.kind {
            16 => (0..polls).map(|poll| entry.test(grid.row(poll)[entry.head as usize])).collect(),
            17 => (0..polls)
                .map(|poll| kth(zone.iter().map(|head| entry.test(grid.row(poll)[*head])).collect(), entry.k as usize))
                .collect(),
            18 => stack.pop().unwrap().into_iter().map(|m| -m).collect(),
            19 | 20 => {
                let right = stack.pop().unwrap();
                let left = stack.pop().unwrap();
                left.into_iter().zip(right).map(|(a, b)| if entry.kind == 19 { a.max(b) } else { a.min(b) }).collect()
            }
            _ => {
                let of = stack.pop().unwrap();
                let first = entry.first as usize;
                of.get(first..).unwrap_or(&[]).windows(entry.width()).map(|w| kth(w.to_vec(), entry.rank())).collect()
            }
        };
        stack.push(margins);
    }
    (stack.pop().unwrap(), fault)
}
