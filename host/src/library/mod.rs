//! The library as a host sees it: safe calls over the C signatures of include/fiddlecomet.h.
//!
//! A slice is never null here and `out` never overlaps an input, which the borrow rules see to, so
//! nothing is left for the caller to check. Only calls that libfiddlecomet.a exports may be made
//! ([`exports`]); the build finds out which those are.

pub mod bare;
pub mod fence;
pub mod fenced;
pub mod trap;

mod exported {
    include!(concat!(env!("OUT_DIR"), "/exported.rs"));
}

pub use exported::EXPORTED;

/// Does the library that is linked in export the call? `normal` is short for `normal_form`.
pub fn exports(call: &str) -> bool {
    EXPORTED.contains(&if call == "normal" { "normal_form" } else { call })
}

#[repr(C)]
#[derive(Clone, Copy, Debug, PartialEq, Eq)]
pub struct Listed {
    pub refusal: u32,
    pub length: u32,
    pub rows: u32,
}

#[repr(C)]
#[derive(Clone, Copy, Debug, PartialEq, Eq)]
pub struct Written {
    pub refusal: u32,
    pub length: u32,
}

#[repr(C)]
#[derive(Clone, Copy, Debug, PartialEq, Eq)]
pub struct Life {
    pub refusal: u32,
    pub dead: u32,
}

#[repr(C)]
#[derive(Clone, Copy, Debug, PartialEq, Eq)]
pub struct Isolation {
    pub refusal: u32,
    pub leaks: u32,
    pub a: u32,
    pub b: u32,
}

#[repr(C)]
#[derive(Clone, Copy, Debug, PartialEq, Eq)]
pub struct Cover {
    pub refusal: u32,
    pub covers: u32,
}

#[repr(C)]
#[derive(Clone, Copy, Debug, PartialEq, Eq)]
pub struct BranchCount {
    pub refusal: u32,
    pub count: u64,
}

/// Lists the rows that a session may see.
pub fn listing(sheet: &[u8], table: u32, command: u32, session: &[u8], rows: &[u8], out: &mut [u8]) -> Listed {
    // SAFETY: each pointer comes with the length of its slice; `out` is lent alone.
    unsafe {
        bare::fiddlecomet_listing(
            sheet.as_ptr(),
            sheet.len(),
            table,
            command,
            session.as_ptr(),
            session.len(),
            rows.as_ptr(),
            rows.len(),
            out.as_mut_ptr(),
            out.len(),
        )
    }
}

/// Writes the sheet's normal form.
pub fn normal_form(sheet: &[u8], out: &mut [u8]) -> Written {
    // SAFETY: as above.
    unsafe { bare::fiddlecomet_normal_form(sheet.as_ptr(), sheet.len(), out.as_mut_ptr(), out.len()) }
}

/// Is no row and session admitted?
pub fn dead(sheet: &[u8], table: u32, command: u32) -> Life {
    // SAFETY: the pointer comes with its slice's length.
    unsafe { bare::fiddlecomet_dead(sheet.as_ptr(), sheet.len(), table, command) }
}

/// Is no row admitted for two sessions of different tenants?
pub fn isolated(sheet: &[u8], table: u32, command: u32) -> Isolation {
    // SAFETY: the pointer comes with its slice's length.
    unsafe { bare::fiddlecomet_isolated(sheet.as_ptr(), sheet.len(), table, command) }
}

/// Does policy a cover policy b?
pub fn covers(sheet: &[u8], a: u32, b: u32) -> Cover {
    // SAFETY: the pointer comes with its slice's length.
    unsafe { bare::fiddlecomet_covers(sheet.as_ptr(), sheet.len(), a, b) }
}

/// N, at any size.
pub fn branches(sheet: &[u8], table: u32, command: u32) -> BranchCount {
    // SAFETY: the pointer comes with its slice's length.
    unsafe { bare::fiddlecomet_branches(sheet.as_ptr(), sheet.len(), table, command) }
}
