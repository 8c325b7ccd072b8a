//! The exported functions, as include/fiddlecomet.h declares them.

use super::{BranchCount, Cover, Isolation, Life, Listed, Written};

extern "C" {
    pub fn fiddlecomet_listing(
        sheet: *const u8,
        sheet_len: usize,
        table: u32,
        command: u32,
        session: *const u8,
        session_len: usize,
        rows: *const u8,
        rows_len: usize,
        out: *mut u8,
        out_len: usize,
    ) -> Listed;
    pub fn fiddlecomet_normal_form(sheet: *const u8, sheet_len: usize, out: *mut u8, out_len: usize) -> Written;
    pub fn fiddlecomet_dead(sheet: *const u8, sheet_len: usize, table: u32, command: u32) -> Life;
    pub fn fiddlecomet_isolated(sheet: *const u8, sheet_len: usize, table: u32, command: u32) -> Isolation;
    pub fn fiddlecomet_covers(sheet: *const u8, sheet_len: usize, a: u32, b: u32) -> Cover;
    pub fn fiddlecomet_branches(sheet: *const u8, sheet_len: usize, table: u32, command: u32) -> BranchCount;
}
