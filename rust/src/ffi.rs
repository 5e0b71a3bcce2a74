//! The functions for C, as include/gpos.h declares them.
use crate::answer::HazardRecord;

pub const APPLIED: u32 = 1;
pub const DECLINED: u32 = 2;
pub const REFUSED: u32 = 3;

pub const UNSAFE_TO_BREAK: u32 = 1;
pub const UNSAFE_TO_CONCAT: u32 = 2;

#[repr(C)]
#[derive(Clone, Copy)]
pub struct Answer {
    pub status: u32,
    pub refusal: u32,
    pub attached: u32,
    pub hazard_count: u32,
    pub next: usize,
    pub hazard: [HazardRecord; 2],
}

#[repr(C)]
#[derive(Clone, Copy)]
pub struct Run {
    pub refusal: u32,
    pub attached: u32,
    pub index: usize,
    pub count: usize,
}

extern "C" {
    pub fn gpos_start(line: *mut u8, line_len: usize, slot_size: usize) -> u32;
    pub fn gpos_finish(
        line: *mut u8,
        line_len: usize,
        slot_size: usize,
        direction: u32,
        nesting_limit: u32,
        attachments: u32,
    ) -> u32;
    pub fn gpos_lookup(
        line: *mut u8,
        line_len: usize,
        slot_size: usize,
        lookup_type: u32,
        lookup_flag: u32,
        subtables: *const u8,
        subtables_len: usize,
        subtable_lens: *const usize,
        subtable_count: usize,
        direction: u32,
        em_size: u32,
        units_per_em: u32,
        list: *mut HazardRecord,
        places: usize,
    ) -> Run;
    pub fn gpos_to_clusters(line: *const u8, line_len: usize, target: *mut u8, target_len: usize) -> u32;
    pub fn gpos_from_clusters(line: *const u8, line_len: usize, target: *mut u8, target_len: usize) -> u32;
}

/// Declares a call that applies a subtable: the arguments that all have, then its own.
macro_rules! applying {
    ($($name:ident($($own:ident: $t:ty),*);)*) => {
        extern "C" {
            $(pub fn $name(
                line: *mut u8, line_len: usize, slot_size: usize, subtable: *const u8, subtable_len: usize,
                direction: u32, em_size: u32, units_per_em: u32, index: usize, $($own: $t),*
            ) -> Answer;)*
        }
    };
}

applying! {
    gpos_single();
    gpos_pair(second_missing: u32, second: usize);
    gpos_cursive(previous_missing: u32, previous: usize, lookup_flag: u32);
    gpos_mark_base();
    gpos_mark_ligature();
    gpos_mark_mark(earlier_missing: u32, earlier: usize);
}
