//! The firmware library beside peers in Rust: equal on random rules and records, and timed on the same input.
//!
//!     cargo run --release            compares, then times
//!     cargo run --release -- once PEER CASE POLLS    one play, to be counted by callgrind

mod firmware;
mod online;
mod plain;
mod random;
mod rule;
mod single;

use random::{Random, Readings};
use rule::{Entry, Grid, Rule};
use std::time::Instant;

const WEEK: u32 = 10_080;
const YEAR: u32 = 525_600;

fn compare(random: &mut Random) {
    let mut margins = 0;
    let mut refused = 0;
    for case in 0..4_000 {
        let heads = 1 + random.below(8) as u32;
        let polls = random.below(400) as u32;
        let readings = [Readings::Any, Readings::Few, Readings::Walk][case % 3];
        let mut grid = random::grid(random, heads, polls, readings);
        let rule = random::rule(random, heads, 12, if case % 2 == 0 { 8 } else { 90 });
        if case % 5 == 0 && polls > 0 {
            let at = random.below(grid.readings.len() as u64) as usize;
            grid.readings[at] = 65_536;
        }
        if firmware::need(&rule).refusal.number != 0 {
            refused += 1;
            continue;
        }
        let ours = firmware::play(&rule, &grid);
        assert_eq!(ours, plain::play(&rule, &grid), "{rule:?}");
        assert_eq!(ours, online::play(&rule, &grid), "{rule:?}");
        margins += ours.0.len();
        surveys(random, &rule, &grid, &ours.0);
        obscuration(&rule, &grid, &ours);
    }
    println!("4000 random rules and records, {refused} of them refused as rules; {margins} margins, all equal");
}

fn surveys(random: &mut Random, rule: &Rule, grid: &Grid, margins: &[i32]) {
    let mut cells = vec![7; firmware::need(rule).cells];
    for _ in 0..margins.len().min(3) {
        let poll = random.below(margins.len() as u64) as usize;
        let survey = firmware::survey(rule, grid, poll as u32, &mut cells);
        assert_eq!((survey.refusal.number, survey.margin), (0, margins[poll]), "{rule:?}");
    }
}

/// The same grid as obscuration: as many steps of 1/256, of which 65,536 is lawful.
fn obscuration(rule: &Rule, grid: &Grid, ours: &rule::Played) {
    let readings: Vec<f32> = grid.readings.iter().map(|r| *r as f32 / 256.0).collect();
    let mut cells = vec![i32::MAX; firmware::need(rule).cells];
    let mut margins = vec![0.0; grid.polls as usize];
    let play = firmware::play_obscuration(rule, grid.heads, grid.polls, &readings, &mut cells, &mut margins);
    assert_eq!(play.refusal.number, 0);
    for (float, margin) in margins.iter().zip(&ours.0) {
        assert_eq!(*float, *margin as f32 / 256.0, "{rule:?}");
    }
}

struct Case {
    name: &'static str,
    rule: Rule,
    heads: u32,
}

fn window(width: u16) -> Rule {
    let entries = vec![Entry::head_test(0, 0, 30_000), Entry::window(0, width - 1, 950)];
    Rule { entries, zone: 1 }
}

fn cases() -> Vec<Case> {
    let of = |name, rule, heads| Case { name, rule, heads };
    let mut most = vec![Entry::head_test(0, 0, 30_000)];
    for head in 1..8 {
        most.push(Entry::head_test(head, 0, 30_000 + head as i32));
        most.push(if head % 2 == 0 { Entry::either() } else { Entry::both() });
    }
    for width in [60, 60, 240, 60] {
        most.push(Entry::window(0, width - 1, 950));
        most.push(Entry::not());
    }
    most.push(Entry::window(0, 59, 500));
    let zone = Rule { entries: vec![Entry::zone_test(16, 0, 30_000)], zone: u32::MAX as u64 };
    let mut counted = zone.clone();
    counted.entries.push(Entry::window(0, 59, 950));
    vec![
        of("head test", Rule { entries: vec![Entry::head_test(0, 0, 30_000)], zone: 1 }, 1),
        of("window 60", window(60), 1),
        of("window 240", window(240), 1),
        of("window 1440", window(1_440), 1),
        of("24 entries", Rule { entries: most, zone: 255 }, 8),
        of("zone of 32", zone, 32),
        of("zone, window 60", counted, 32),
    ]
}

/// Nanoseconds of the quickest of some turns.
fn time(turns: usize, mut play: impl FnMut()) -> f64 {
    (0..turns)
        .map(|_| {
            let start = Instant::now();
            play();
            start.elapsed().as_nanos() as f64
        })
        .fold(f64::MAX, f64::min)
}

fn measure(random: &mut Random, readings: Readings, polls: u32, turns: usize) {
    let name = if readings == Readings::Walk { "a walk" } else { "random" };
    println!("\n{polls} polls, readings {name}: ns a row, and the firmware's share of the fast peer's");
    for case in cases() {
        let grid = random::grid(random, case.heads, polls, readings);
        let mut cells = vec![0; firmware::need(&case.rule).cells];
        let mut ours = vec![0; polls as usize];
        let mut theirs = vec![0; polls as usize];
        let (mut us, mut them) = (f64::MAX, f64::MAX);
        for _ in 0..turns {
            us = us.min(time(1, || { firmware::play_into(&case.rule, &grid, &mut cells, &mut ours); }));
            them = them.min(time(1, || { online::play_into(&case.rule, &grid, &mut theirs); }));
        }
        assert_eq!(ours, theirs);
        let row = polls as f64;
        print!("{:>16}: firmware {:8.1}  online {:8.1}  ratio {:.2}", case.name, us / row, them / row, us / them);
        if polls == WEEK {
            let plain = time(1, || drop(plain::play(&case.rule, &grid)));
            print!("  plain {:9.1} ({:.0} x)", plain / row, plain / us);
        }
        if case.rule.entries.len() == 2 && case.heads == 1 {
            others(&case, &grid, turns, &ours);
        }
        println!();
    }
}

/// Other ways for one window over one head, on the readings themselves.
fn others(case: &Case, grid: &Grid, turns: usize, ours: &[i32]) {
    let entry = case.rule.entries[1];
    let (width, k) = (entry.width(), entry.rank());
    let mut out = vec![0; grid.polls as usize];
    type Way = fn(&[i32], usize, usize, &mut [i32]);
    let ways: [(&str, Way); 3] = [("select", single::select), ("Fenwick", single::fenwick), ("batch", single::batch)];
    for (name, way) in ways {
        if name == "select" && grid.polls > WEEK {
            continue;
        }
        let turns = if name == "select" { 1 } else { turns };
        let ns = time(turns, || way(&grid.readings, width, k, &mut out));
        let told = grid.polls as usize + 1 - width;
        assert!(out[..told].iter().zip(ours).all(|(a, b)| *a - 30_000 == *b), "{name}");
        print!("  {name} {:.1}", ns / grid.polls as f64);
    }
}

fn once(peer: &str, case: &str, polls: u32) {
    let case = cases().into_iter().find(|c| c.name == case).expect("a case");
    let grid = random::grid(&mut Random::new(9), case.heads, polls, Readings::Any);
    let mut margins = vec![0; polls as usize];
    match peer {
        "firmware" => {
            let mut cells = vec![0; firmware::need(&case.rule).cells];
            println!("{:?}", firmware::play_into(&case.rule, &grid, &mut cells, &mut margins));
        }
        "online" => println!("{:?}", online::play_into(&case.rule, &grid, &mut margins)),
        _ => println!("{}", grid.readings.len()),
    }
}

fn main() {
    let words: Vec<String> = std::env::args().collect();
    if let [_, word, peer, case, polls] = words.as_slice()
        && word == "once"
    {
        return once(peer, case, polls.parse().expect("a number of polls"));
    }
    let mut random = Random::new(88_172_645_463_325_252);
    compare(&mut random);
    for readings in [Readings::Any, Readings::Walk] {
        measure(&mut random, readings, WEEK, 30);
        measure(&mut random, readings, YEAR, 3);
    }
}
