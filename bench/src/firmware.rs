//! The firmware library, called as C calls it.

use crate::rule::{Entry, Grid, Played, Rule};

#[repr(C)]
#[derive(Clone, Copy, Debug, PartialEq)]
pub struct Refusal {
    pub number: u32,
    pub layer: u32,
    pub entry: usize,
    pub head: u32,
    pub poll: u32,
}

#[repr(C)]
#[derive(Debug)]
pub struct Need {
    pub refusal: Refusal,
    pub cells: usize,
    pub horizon: u32,
}

#[repr(C)]
#[derive(Debug)]
pub struct Survey {
    pub refusal: Refusal,
    pub margin: i32,
}

#[repr(C)]
#[derive(Debug)]
pub struct Play {
    pub refusal: Refusal,
    pub rows: u32,
    pub margins: usize,
}

unsafe extern "C" {
    fn yiddolza_need(entries: *const Entry, count: usize, zone: u64) -> Need;
    fn yiddolza_survey_counts(
        entries: *const Entry, count: usize, zone: u64, heads: u32, polls: u32,
        readings: *const i32, reading_count: usize, poll: u32, cells: *mut i32, cell_count: usize,
    ) -> Survey;
    fn yiddolza_play_counts(
        entries: *const Entry, count: usize, zone: u64, heads: u32, polls: u32,
        readings: *const i32, reading_count: usize, cells: *mut i32, cell_count: usize,
        margins: *mut i32, margin_count: usize,
    ) -> Play;
    fn yiddolza_play_obscuration(
        entries: *const Entry, count: usize, zone: u64, heads: u32, polls: u32,
        readings: *const f32, reading_count: usize, cells: *mut i32, cell_count: usize,
        margins: *mut f32, margin_count: usize,
    ) -> Play;
}

pub fn need(rule: &Rule) -> Need {
    // SAFETY: pointer and count are those of one slice.
    unsafe { yiddolza_need(rule.entries.as_ptr(), rule.entries.len(), rule.zone) }
}

pub fn survey(rule: &Rule, grid: &Grid, poll: u32, cells: &mut [i32]) -> Survey {
    // SAFETY: each pointer and count are those of one slice, and the slices do not overlap.
    unsafe {
        yiddolza_survey_counts(
            rule.entries.as_ptr(), rule.entries.len(), rule.zone, grid.heads, grid.polls,
            grid.readings.as_ptr(), grid.readings.len(), poll, cells.as_mut_ptr(), cells.len(),
        )
    }
}

pub fn play_into(rule: &Rule, grid: &Grid, cells: &mut [i32], margins: &mut [i32]) -> Play {
    // SAFETY: as above.
    unsafe {
        yiddolza_play_counts(
            rule.entries.as_ptr(), rule.entries.len(), rule.zone, grid.heads, grid.polls,
            grid.readings.as_ptr(), grid.readings.len(), cells.as_mut_ptr(), cells.len(),
            margins.as_mut_ptr(), margins.len(),
        )
    }
}

pub fn play_obscuration(rule: &Rule, heads: u32, polls: u32, readings: &[f32], cells: &mut [i32], margins: &mut [f32]) -> Play {
    // SAFETY: as above.
    unsafe {
        yiddolza_play_obscuration(
            rule.entries.as_ptr(), rule.entries.len(), rule.zone, heads, polls,
            readings.as_ptr(), readings.len(), cells.as_mut_ptr(), cells.len(),
            margins.as_mut_ptr(), margins.len(),
        )
    }
}

pub fn play(rule: &Rule, grid: &Grid) -> Played {
    let mut cells = vec![i32::MIN; need(rule).cells + 3];
    let mut margins = vec![0; grid.polls as usize];
    let play = play_into(rule, grid, &mut cells, &mut margins);
    assert_eq!(cells[cells.len() - 3..], [i32::MIN; 3]);
    margins.truncate(play.margins);
    let fault = (play.refusal.number != 0).then(|| {
        assert_eq!(play.refusal.number, 12);
        (play.refusal.head, play.refusal.poll)
    });
    (margins, fault)
}
