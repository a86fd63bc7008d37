//! The functions of include/asterix.h, and the only unsafe code of the crate. A slice goes as a
//! pointer and a length, an array as a pointer; each answer is a struct by value. What the library
//! asks of a caller (include/asterix.h, "What holds of every call") is what Rust's slices and
//! references give: pointers that are not null, aligned and valid for their length, and no writable
//! buffer that overlaps another.

use crate::{FIELDS, FRNS};

#[repr(C)]
pub struct BlockChecked {
    pub number: u8,
    pub place: usize,
    pub records: usize,
}

#[repr(C)]
pub struct RecordingChecked {
    pub number: u8,
    pub place: usize,
    pub blocks: usize,
    pub records: usize,
}

#[repr(C)]
pub struct RecordFound {
    pub number: u8,
    pub place: usize,
    pub start: usize,
    pub length: usize,
    pub end: usize,
    pub count: usize,
    pub starts: [u16; FRNS],
}

#[repr(C)]
pub struct ItemFound {
    pub number: u8,
    pub place: usize,
    pub start: usize,
    pub length: usize,
}

#[repr(C)]
#[derive(Clone, Copy, Debug, PartialEq, Eq)]
pub struct Cursor {
    pub block: usize,
    pub place: usize,
    pub end: usize,
    pub category: u8,
}

impl Cursor {
    // Before the block that starts at a place.
    pub fn before(place: usize) -> Cursor {
        Cursor {
            block: place,
            place,
            end: place,
            category: 0,
        }
    }
}

#[repr(C)]
pub struct RecordMet {
    pub number: u8,
    pub met: u8,
    pub category: u8,
    pub place: usize,
    pub start: usize,
    pub length: usize,
    pub block: usize,
    pub end: usize,
    pub count: usize,
    pub starts: [u16; FRNS],
    pub next: Cursor,
}

#[repr(C)]
pub struct MergeStepped {
    pub number: u8,
    pub met: u8,
    pub log: u8,
    pub place: usize,
    pub start: usize,
    pub length: usize,
    pub place_a: usize,
    pub place_b: usize,
}

#[repr(C)]
#[derive(Clone, Copy, Debug)]
pub struct MergeHead {
    pub at: Cursor,
    pub length: usize,
    pub timed: u8,
    pub time: u64,
}

#[repr(C)]
#[derive(Clone, Copy, Debug)]
pub struct Merge {
    pub a: MergeHead,
    pub b: MergeHead,
    pub turn: u64,
}

#[repr(C)]
pub struct MergeBegun {
    pub number: u8,
    pub log: u8,
    pub place: usize,
    pub merge: Merge,
}

#[repr(C)]
pub struct MergeNext {
    pub count: usize,
    pub merge: Merge,
}

// A record that came out, as the six numbers that the library writes of it.
pub const MERGED: usize = 6;

#[derive(Clone, Copy)]
pub struct Merged {
    pub log: usize,
    pub at: Cursor,
}

impl Merged {
    // Its log, its length, which the walk's answer has too, and the cursor at it.
    pub fn new(numbers: [usize; MERGED]) -> Merged {
        let [log, _, block, place, end, category] = numbers;
        let category = category as u8; // never above 255
        Merged {
            log,
            at: Cursor {
                block,
                place,
                end,
                category,
            },
        }
    }
}

#[repr(C)]
pub struct ItemRead {
    pub number: u8,
    pub place: usize,
    pub count: usize,
}

#[repr(C)]
pub struct ItemWritten {
    pub number: u8,
    pub place: usize,
    pub length: usize,
}

#[repr(C)]
pub struct RecordAdded {
    pub number: u8,
    pub in_new: u8,
    pub place: usize,
    pub length: usize,
}

#[repr(C)]
#[derive(Clone, Copy)]
pub struct Mark {
    pub place: u32,
    pub log: u8,
    pub station: u8,
    pub comment: u8,
}

#[repr(C)]
#[derive(Clone, Copy, Debug, PartialEq, Eq, Hash)]
pub struct Marks {
    pub base: usize,
    pub first: usize,
    pub count: usize,
    pub split: u8,
}

#[repr(C)]
pub struct SheetRead {
    pub number: u8,
    pub edition: u8,
    pub place: usize,
    pub offset: i64,
    pub marks: Marks,
}

#[repr(C)]
pub struct MarkFound {
    pub found: u8,
    pub mark: Mark,
}

#[repr(C)]
pub struct SheetWritten {
    pub number: u8,
    pub place: usize,
    pub length: usize,
}

extern "C" {
    fn asterix_check_block(block: *const u8, block_len: usize) -> BlockChecked;
    fn asterix_check_recording(recording: *const u8, recording_len: usize) -> RecordingChecked;
    fn asterix_find_record(block: *const u8, block_len: usize, n: usize) -> RecordFound;
    fn asterix_find_item(block: *const u8, block_len: usize, reference: u16, n: usize) -> ItemFound;
    fn asterix_next_record(recording: *const u8, recording_len: usize, cursor: Cursor) -> RecordMet;
    fn asterix_merge_step(
        a: *const u8,
        a_len: usize,
        b: *const u8,
        b_len: usize,
        place_a: usize,
        place_b: usize,
        offset: i64,
    ) -> MergeStepped;
    fn asterix_begin_merge(a: *const u8, a_len: usize, b: *const u8, b_len: usize, offset: i64) -> MergeBegun;
    fn asterix_next_merged_words(
        a: *const u8,
        a_len: usize,
        b: *const u8,
        b_len: usize,
        merge: Merge,
        out: *mut usize,
        words: usize,
    ) -> MergeNext;
    fn asterix_read_item(category: u8, reference: u16, item: *const u8, item_len: usize, fields: *mut i64) -> ItemRead;
    fn asterix_write_item(
        category: u8,
        reference: u16,
        fields: *const i64,
        fields_len: usize,
        out: *mut u8,
        out_len: usize,
    ) -> ItemWritten;
    fn asterix_add_record(
        out: *mut u8,
        out_len: usize,
        used: usize,
        frns: u64,
        items: *const u8,
        items_len: usize,
    ) -> RecordAdded;
    fn asterix_least_length(category: u8, place: usize, octet: u8) -> usize;
    fn asterix_read_sheet(sheet: *const u8, sheet_len: usize) -> SheetRead;
    fn asterix_find_mark(sheet: *const u8, sheet_len: usize, marks: Marks, n: usize) -> MarkFound;
    fn asterix_write_sheet(
        offset: i64,
        marks: *const u8,
        marks_len: usize,
        out: *mut u8,
        out_len: usize,
    ) -> SheetWritten;
    fn asterix_add_mark(sheet: *const u8, sheet_len: usize, mark: Mark, out: *mut u8, out_len: usize) -> SheetWritten;
    fn asterix_remove_mark(
        sheet: *const u8,
        sheet_len: usize,
        log: u8,
        place: u32,
        out: *mut u8,
        out_len: usize,
    ) -> SheetWritten;
    fn asterix_empty_sheet(sheet: *const u8, sheet_len: usize, out: *mut u8, out_len: usize) -> SheetWritten;
}

pub fn check_block(block: &[u8]) -> BlockChecked {
    unsafe { asterix_check_block(block.as_ptr(), block.len()) }
}

pub fn check_recording(recording: &[u8]) -> RecordingChecked {
    unsafe { asterix_check_recording(recording.as_ptr(), recording.len()) }
}

pub fn find_record(block: &[u8], n: usize) -> RecordFound {
    unsafe { asterix_find_record(block.as_ptr(), block.len(), n) }
}

pub fn find_item(block: &[u8], reference: u16, n: usize) -> ItemFound {
    unsafe { asterix_find_item(block.as_ptr(), block.len(), reference, n) }
}

pub fn next_record(recording: &[u8], cursor: Cursor) -> RecordMet {
    unsafe { asterix_next_record(recording.as_ptr(), recording.len(), cursor) }
}

pub fn merge_step(a: &[u8], b: &[u8], place_a: usize, place_b: usize, offset: i64) -> MergeStepped {
    unsafe { asterix_merge_step(a.as_ptr(), a.len(), b.as_ptr(), b.len(), place_a, place_b, offset) }
}

pub fn begin_merge(a: &[u8], b: &[u8], offset: i64) -> MergeBegun {
    unsafe { asterix_begin_merge(a.as_ptr(), a.len(), b.as_ptr(), b.len(), offset) }
}

pub fn next_merged(a: &[u8], b: &[u8], merge: Merge, out: &mut [[usize; MERGED]]) -> MergeNext {
    let words = MERGED * out.len();
    unsafe {
        asterix_next_merged_words(
            a.as_ptr(),
            a.len(),
            b.as_ptr(),
            b.len(),
            merge,
            out.as_mut_ptr().cast(),
            words,
        )
    }
}

pub fn read_item(category: u8, reference: u16, item: &[u8], fields: &mut [i64; FIELDS]) -> ItemRead {
    unsafe { asterix_read_item(category, reference, item.as_ptr(), item.len(), fields.as_mut_ptr()) }
}

pub fn write_item(category: u8, reference: u16, fields: &[i64], out: &mut [u8]) -> ItemWritten {
    unsafe {
        asterix_write_item(
            category,
            reference,
            fields.as_ptr(),
            fields.len(),
            out.as_mut_ptr(),
            out.len(),
        )
    }
}

pub fn add_record(out: &mut [u8], used: usize, frns: u64, items: &[u8]) -> RecordAdded {
    unsafe { asterix_add_record(out.as_mut_ptr(), out.len(), used, frns, items.as_ptr(), items.len()) }
}

pub fn least_length(category: u8, place: usize, octet: u8) -> usize {
    unsafe { asterix_least_length(category, place, octet) }
}

pub fn read_sheet(sheet: &[u8]) -> SheetRead {
    unsafe { asterix_read_sheet(sheet.as_ptr(), sheet.len()) }
}

pub fn find_mark(sheet: &[u8], marks: Marks, n: usize) -> MarkFound {
    unsafe { asterix_find_mark(sheet.as_ptr(), sheet.len(), marks, n) }
}

pub fn write_sheet(offset: i64, marks: &[u8], out: &mut [u8]) -> SheetWritten {
    unsafe { asterix_write_sheet(offset, marks.as_ptr(), marks.len(), out.as_mut_ptr(), out.len()) }
}

pub fn add_mark(sheet: &[u8], mark: Mark, out: &mut [u8]) -> SheetWritten {
    unsafe { asterix_add_mark(sheet.as_ptr(), sheet.len(), mark, out.as_mut_ptr(), out.len()) }
}

pub fn remove_mark(sheet: &[u8], log: u8, place: u32, out: &mut [u8]) -> SheetWritten {
    unsafe { asterix_remove_mark(sheet.as_ptr(), sheet.len(), log, place, out.as_mut_ptr(), out.len()) }
}

pub fn empty_sheet(sheet: &[u8], out: &mut [u8]) -> SheetWritten {
    unsafe { asterix_empty_sheet(sheet.as_ptr(), sheet.len(), out.as_mut_ptr(), out.len()) }
}
