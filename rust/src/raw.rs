//! The C boundary as it is: the same names, fields and rules as in `include/fenmantle.h`.
//!
//! The functions of the crate's root are safe and say the same. These are for callers that want an answer's every field, as the tests do.

/// Answer of [`fenmantle_plan`].
#[repr(C)]
#[derive(Debug, Clone, Copy, PartialEq, Eq, Default)]
pub struct PlanAnswer {
    pub refusal: u64,
    pub place: u64,
    pub cells: u64,
    pub pairs: u64,
}

/// Answer of [`fenmantle_start`].
#[repr(C)]
#[derive(Debug, Clone, Copy, PartialEq, Eq, Default)]
pub struct StartAnswer {
    pub refusal: u64,
    pub place: u64,
}

/// Answer of [`fenmantle_advance`].
#[repr(C)]
#[derive(Debug, Clone, Copy, PartialEq, Eq, Default)]
pub struct AdvanceAnswer {
    pub refusal: u64,
    pub place: u64,
    pub done: u64,
    pub value: u64,
}

/// Answer of [`fenmantle_sheet`].
#[repr(C)]
#[derive(Debug, Clone, Copy, PartialEq, Eq, Default)]
pub struct SheetAnswer {
    pub refusal: u64,
    pub place: u64,
    pub value: u64,
    pub pairs: u64,
    pub cells: u64,
    pub chains: u64,
    pub numerators: [u64; 8],
    pub busiest: u64,
}

/// Answer of [`fenmantle_tree_part`].
#[repr(C)]
#[derive(Debug, Clone, Copy, PartialEq, Eq, Default)]
pub struct TreePartAnswer {
    pub from: u64,
    pub length: u64,
}

extern "C" {
    /// # Safety
    /// `file` is valid for reads of `file_len` bytes and not null.
    pub fn fenmantle_plan(file: *const u8, file_len: usize, lower: u64) -> PlanAnswer;

    /// # Safety
    /// As for [`fenmantle_plan`]; `area` is aligned, not null, valid for reads and writes of `area_len` cells, and apart from the file.
    pub fn fenmantle_start(file: *const u8, file_len: usize, lower: u64, area: *mut u64, area_len: usize) -> StartAnswer;

    /// # Safety
    /// As for [`fenmantle_start`].
    pub fn fenmantle_advance(
        file: *const u8,
        file_len: usize,
        lower: u64,
        done: u64,
        budget: u64,
        area: *mut u64,
        area_len: usize,
    ) -> AdvanceAnswer;

    /// # Safety
    /// As for [`fenmantle_start`].
    pub fn fenmantle_sheet(file: *const u8, file_len: usize, area: *mut u64, area_len: usize) -> SheetAnswer;

    /// # Safety
    /// As for [`fenmantle_plan`].
    pub fn fenmantle_tree_part(file: *const u8, file_len: usize) -> TreePartAnswer;
}
