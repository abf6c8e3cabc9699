//! The planner's entries for C, as include/planner.h declares them, behind functions that are safe to call.

use std::ptr;

/// The answer of the entries that plan a row or put a line.
#[repr(C)]
#[derive(Clone, Copy, Debug, PartialEq, Eq)]
pub struct Answer {
    /// 0 if planned, else the refusal's number.
    pub number: u32,
    pub place: u32,
    /// The length of the plan's text or of the line, 0 if there is none.
    pub length: u64,
}

/// Number and place, as they are read from a line; 0 and 0 where the line is no reason.
#[repr(C)]
#[derive(Clone, Copy, Debug, PartialEq, Eq)]
pub struct Refusal {
    pub number: u32,
    pub place: u32,
}

/// PLANNER_LONGEST_TEXT of include/planner.h.
pub const LONGEST_TEXT: usize = 4476;

/// PLANNER_LONGEST_REASON of include/planner.h.
pub const LONGEST_REASON: usize = 160;

extern "C" {
    fn planner_check_row(names: *const u8, names_length: usize, row: *const u8, row_length: usize) -> Answer;
    fn planner_plan_row(
        names: *const u8,
        names_length: usize,
        row: *const u8,
        row_length: usize,
        text: *mut u8,
        text_length: usize,
    ) -> Answer;
    fn planner_explain_row(
        names: *const u8,
        names_length: usize,
        row: *const u8,
        row_length: usize,
        line: *mut u8,
        line_length: usize,
    ) -> Answer;
    fn planner_explain_refusal(number: u32, place: u32, line: *mut u8, line_length: usize) -> Answer;
    fn planner_read_reason(line: *const u8, line_length: usize) -> Refusal;
}

/// Memory that is lent for a call; `None` goes over as NULL with length 0. Names, rows and lines that are only read are
/// lent as mutable too, so that an entry that wrote there against its contract would be noticed instead of making the
/// comparison meaningless.
pub type Memory<'a> = Option<&'a mut [u8]>;

/// What the entries do. The comparison is written for any planner, so that tests can hand it wrong ones.
pub trait Planner {
    fn check_row(&self, names: Memory, row: Memory) -> Answer;
    fn plan_row(&self, names: Memory, row: Memory, text: Memory) -> Answer;
    fn explain_row(&self, names: Memory, row: Memory, line: Memory) -> Answer;
    fn explain_refusal(&self, number: u32, place: u32, line: Memory) -> Answer;
    fn read_reason(&self, line: Memory) -> Refusal;
}

/// The planner's static library.
pub struct Library;

impl Planner for Library {
    fn check_row(&self, names: Memory, row: Memory) -> Answer {
        let (names, names_length) = pointer(names);
        let (row, row_length) = pointer(row);
        // SAFETY: each pointer is valid for the length beside it, or NULL beside 0, which planner.h allows.
        unsafe { planner_check_row(names, names_length, row, row_length) }
    }

    fn plan_row(&self, names: Memory, row: Memory, text: Memory) -> Answer {
        let (names, names_length) = pointer(names);
        let (row, row_length) = pointer(row);
        let (text, text_length) = pointer(text);
        // SAFETY: as above; the three are different mutable slices, so the text overlaps neither names nor row.
        unsafe { planner_plan_row(names, names_length, row, row_length, text, text_length) }
    }

    fn explain_row(&self, names: Memory, row: Memory, line: Memory) -> Answer {
        let (names, names_length) = pointer(names);
        let (row, row_length) = pointer(row);
        let (line, line_length) = pointer(line);
        // SAFETY: as above.
        unsafe { planner_explain_row(names, names_length, row, row_length, line, line_length) }
    }

    fn explain_refusal(&self, number: u32, place: u32, line: Memory) -> Answer {
        let (line, line_length) = pointer(line);
        // SAFETY: the pointer is valid for the length beside it, or NULL beside 0.
        unsafe { planner_explain_refusal(number, place, line, line_length) }
    }

    fn read_reason(&self, line: Memory) -> Refusal {
        let (line, line_length) = pointer(line);
        // SAFETY: as above.
        unsafe { planner_read_reason(line, line_length) }
    }
}

pub(crate) fn pointer(memory: Memory) -> (*mut u8, usize) {
    match memory {
        Some(bytes) => (bytes.as_mut_ptr(), bytes.len()),
        None => (ptr::null_mut(), 0),
    }
}
