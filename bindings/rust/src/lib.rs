//! ASTERIX categories 017 (Mode S Surveillance Coordination Function Messages, edition 1.3), 018
//! (Mode S Datalink Function Messages, edition 1.6) and 061 (SDPS Session and Service Control
//! Messages, edition 1.2): checking, finding, walking a log, merging two logs, reading and writing;
//! and exercise sheets.
//!
//! The work is done by the proved library, the archive that `tools/library.sh` writes; this
//! crate gives it safe functions on slices. Any bytes may be given to any function. Each either
//! does its work or refuses, with one of 30 [`Refusal`]s and a place; a refused call changes no
//! byte that was lent to it. Nothing is kept between calls, and nothing is allocated but the bytes
//! of a [`Sheet`].
//!
//! ```
//! use asterix::{check_block, find_item, read_item, Refusal, FIELDS};
//!
//! // Category 017, one record: source 25/3, destination 25/6, message type 20, aircraft 4CA1B2.
//! let block = [0x11, 0x00, 0x0C, 0xE8, 25, 3, 25, 6, 20, 0x4C, 0xA1, 0xB2];
//! assert_eq!(check_block(&block), Ok(1));
//!
//! // I017/220 of the first record is a part of the block; it has one field.
//! let item = find_item(&block, 220, 0)?;
//! assert_eq!(item, &block[9..12]);
//! let mut fields = [0; FIELDS];
//! assert_eq!(read_item(17, 220, item, &mut fields)?, &[0x4CA1B2]);
//!
//! // A block whose last item is cut is refused, where that item starts.
//! let refused = check_block(&[0x11, 0x00, 0x0B, 0xE8, 25, 3, 25, 6, 20, 0x4C, 0xA1]).unwrap_err();
//! assert_eq!((refused.why, refused.place), (Refusal::ItemCut, 9));
//! # Ok::<(), asterix::Refused>(())
//! ```
//!
//! A [`Log`] is gone through record by record, in one pass:
//!
//! ```
//! use asterix::Log;
//!
//! let log = [0x11, 0, 12, 0xE8, 25, 3, 25, 6, 20, 0x4C, 0xA1, 0xB2, 0x12, 0, 9, 0xE0, 1, 2, 3, 4, 5];
//! for record in Log::new(&log).records() {
//!     let record = record?;
//!     println!("category {} at {}: {:?}", record.category, record.place(), record.item(0));
//! }
//! # Ok::<(), asterix::Refused>(())
//! ```
//!
//! Two logs are put on one line by a [`Merge`]:
//!
//! ```
//! use asterix::Merge;
//!
//! let log = [0x12, 0, 9, 0xE0, 1, 2, 3, 4, 5];
//! for merged in Merge::new(&log, &log, 0)? {
//!     println!("{:?}, category {} at {}", merged.log, merged.record.category, merged.record.place());
//! }
//! # Ok::<(), asterix::MergeRefused>(())
//! ```
//!
//! An instructor's marks, and the offset of the second log's clock, are kept in a [`Sheet`]:
//!
//! ```
//! use asterix::{Mark, Sheet, Which};
//!
//! let sheet = Sheet::write(-64, &[])?;
//! let sheet = sheet.add(Mark { log: Which::A.number(), place: 15, station: 2, comment: 7 })?;
//! for mark in sheet.marks() {
//!     println!("log {} at {}: station {}, comment {}", mark.log, mark.place, mark.station, mark.comment);
//! }
//! # Ok::<(), asterix::Refused>(())
//! ```
//!
//! The archive links into x86-64 Linux programs. `build.rs` looks for it in the repository's
//! target/staticlib, or in the folder that `ASTERIX_LIB_DIR` names. The fields of each item, in
//! their order, are listed at the end of `include/asterix.h` and in docs/FIELDS.md.
#![deny(missing_docs)]

use std::{error, fmt, iter::FusedIterator};

mod raw;
mod sheet;

pub use sheet::{
    add_mark, empty_sheet, read_sheet, remove_mark, write_sheet, Mark, Marks, Sheet, SheetRead, MARKS, SHEET_BYTES,
    STATIONS,
};

// ---- Refusals

/// Why a call was refused. The numbers are those of the scope paper and of `include/asterix.h`.
///
/// Where a place is said to be a block's, a record's, an item's, or a field's or mark's of a sheet,
/// it is where that starts, counted from the start of the bytes lent; in a sheet that was to be
/// written it is 0.
#[derive(Clone, Copy, Debug, PartialEq, Eq, Hash)]
#[repr(u8)]
pub enum Refusal {
    /// 1: fewer than three bytes where a block should start. Its place is the block's.
    HeadCut = 1,
    /// 2: CAT is not 17, 18 or 61. Its place is the block's.
    Category = 2,
    /// 3: LEN is under 3, or not the length lent (in a recording: more than is left). Its place is
    /// the block's.
    Len = 3,
    /// 4: LEN is 3, so the block has no record. Its place is the block's.
    NoRecord = 4,
    /// 5: the FSPEC is cut by the block's end. Its place is the record's.
    FspecCut = 5,
    /// 6: FX is set in the last FSPEC octet that the profile allows; then its place is the record's.
    /// Or in the last printed part or primary octet of an item; then it is the item's.
    FspecLong = 6,
    /// 7: the last FSPEC octet has no presence bit; then its place is the record's. Or the last
    /// primary octet of a compound item has none; then it is the item's.
    FspecEmpty = 7,
    /// 8: a presence bit for an FRN that has no item; then its place is the record's. Or one in a
    /// primary octet, where no subfield is printed; then it is the item's.
    FrnUnusable = 8,
    /// 9: an item is cut by the end, its count, length and primary octets included. Its place is the
    /// item's.
    ItemCut = 9,
    /// 10: a length octet under the least that its item allows. Its place is the item's.
    LengthOctet = 10,
    /// 11: a field outside its range, a spare bit set, or a list of too few or too many parts. Its
    /// place is the item's.
    Field = 11,
    /// 12: the record has no message type item. Its place is the record's.
    TypeAbsent = 12,
    /// 13: the message type is not one of the document's. Its place is the record's.
    TypeUnknown = 13,
    /// 14: an item is absent that this message type must have. Its place is the record's.
    ItemMissing = 14,
    /// 15: an item is present that this message type doesn't send. Its place is the record's.
    ItemUnsent = 15,
    /// 16: the lent output is too short. Its place is 0.
    NoRoom = 16,
    /// 17: the block would pass 65,535 bytes. Its place is 0.
    BlockFull = 17,
    /// 18: bytes are left after the last item named, or after the one item read. Its place is the
    /// first of them.
    BytesLeft = 18,
    /// 19: the block has no record with that number. Its place is 0.
    NoSuchRecord = 19,
    /// 20: the record does not have that item. Its place is the record's.
    ItemAbsent = 20,
    /// 21: the category has no item with that reference. Its place is 0.
    NoSuchItem = 21,
    /// 22: a clock offset that is not from -46,080 to 46,080. Its place is 0.
    OffsetRange = 22,
    /// 23: a place in a log that is neither a record's start nor the log's end. Its place is 0.
    NoSuchPlace = 23,
    /// 30: a field of a sheet is cut, its head or its body. Its place is the field's.
    SheetCut = 30,
    /// 31: a sheet has no such field, another in its place, or bytes after the last. Its place is
    /// where the field starts or would start.
    SheetTag = 31,
    /// 32: a field of a sheet has another length than what it holds. Its place is the field's.
    SheetLength = 32,
    /// 33: a barred value in a sheet, or marks that do not rise. Its place is the field's, or in the
    /// marks that of the first one at fault.
    SheetValue = 33,
    /// 34: more marks than a sheet may have. Its place is the field's.
    SheetFull = 34,
    /// 35: there is a mark already at that log and place. Its place is 0.
    MarkTwice = 35,
    /// 36: there is no mark at that log and place. Its place is 0.
    NoSuchMark = 36,
}

impl Refusal {
    const ALL: [Refusal; 30] = [
        Refusal::HeadCut,
        Refusal::Category,
        Refusal::Len,
        Refusal::NoRecord,
        Refusal::FspecCut,
        Refusal::FspecLong,
        Refusal::FspecEmpty,
        Refusal::FrnUnusable,
        Refusal::ItemCut,
        Refusal::LengthOctet,
        Refusal::Field,
        Refusal::TypeAbsent,
        Refusal::TypeUnknown,
        Refusal::ItemMissing,
        Refusal::ItemUnsent,
        Refusal::NoRoom,
        Refusal::BlockFull,
        Refusal::BytesLeft,
        Refusal::NoSuchRecord,
        Refusal::ItemAbsent,
        Refusal::NoSuchItem,
        Refusal::OffsetRange,
        Refusal::NoSuchPlace,
        Refusal::SheetCut,
        Refusal::SheetTag,
        Refusal::SheetLength,
        Refusal::SheetValue,
        Refusal::SheetFull,
        Refusal::MarkTwice,
        Refusal::NoSuchMark,
    ];

    /// The refusal with a number, 1 to 23 or 30 to 36.
    ///
    /// ```
    /// use asterix::Refusal;
    /// assert_eq!(Refusal::from_number(9), Some(Refusal::ItemCut));
    /// assert_eq!(Refusal::from_number(0), None);
    /// assert_eq!(Refusal::from_number(24), None);
    /// assert_eq!(Refusal::from_number(35), Some(Refusal::MarkTwice));
    /// ```
    pub fn from_number(number: u8) -> Option<Refusal> {
        Refusal::ALL.into_iter().find(|why| why.number() == number)
    }

    /// Its number, 1 to 23 or 30 to 36.
    pub fn number(self) -> u8 {
        self as u8
    }
}

impl fmt::Display for Refusal {
    fn fmt(&self, f: &mut fmt::Formatter<'_>) -> fmt::Result {
        f.write_str(match self {
            Refusal::HeadCut => "fewer than three bytes where a block should start",
            Refusal::Category => "CAT is not 17, 18 or 61",
            Refusal::Len => "LEN is not the block's length",
            Refusal::NoRecord => "the block has no record",
            Refusal::FspecCut => "the FSPEC is cut",
            Refusal::FspecLong => "FX is set in the last octet or part allowed",
            Refusal::FspecEmpty => "the last FSPEC or primary octet has no presence bit",
            Refusal::FrnUnusable => "a presence bit for no item or subfield",
            Refusal::ItemCut => "an item is cut",
            Refusal::LengthOctet => "a length octet is too small",
            Refusal::Field => "a field or spare bit is outside its rule",
            Refusal::TypeAbsent => "the record has no message type",
            Refusal::TypeUnknown => "the message type is unknown",
            Refusal::ItemMissing => "a compulsory item is absent",
            Refusal::ItemUnsent => "an item is present that the message type doesn't send",
            Refusal::NoRoom => "the output is too short",
            Refusal::BlockFull => "the block would pass 65,535 bytes",
            Refusal::BytesLeft => "bytes are left",
            Refusal::NoSuchRecord => "there is no record with that number",
            Refusal::ItemAbsent => "the record does not have that item",
            Refusal::NoSuchItem => "the category has no item with that reference",
            Refusal::OffsetRange => "the clock offset is out of range",
            Refusal::NoSuchPlace => "a place is neither a record's start nor the log's end",
            Refusal::SheetCut => "a field of the sheet is cut",
            Refusal::SheetTag => "a field of the sheet is not there, is another, or bytes follow the last",
            Refusal::SheetLength => "a field of the sheet has another length than what it holds",
            Refusal::SheetValue => "a value in the sheet is barred, or its marks do not rise",
            Refusal::SheetFull => "the sheet has too many marks",
            Refusal::MarkTwice => "there is a mark already at that log and place",
            Refusal::NoSuchMark => "there is no mark at that log and place",
        })
    }
}

/// A refusal with its place.
#[derive(Clone, Copy, Debug, PartialEq, Eq, Hash)]
pub struct Refused {
    /// Why.
    pub why: Refusal,
    /// Where, counted from the start of the bytes lent.
    pub place: usize,
}

impl Refused {
    // What an answer of the library says: 0 is no refusal, and its contracts give no other number
    // than those of the refusals.
    fn answer(number: u8, place: usize) -> Result<(), Refused> {
        if number == 0 {
            return Ok(());
        }
        let why = Refusal::from_number(number).expect("a number that the library gives");
        Err(Refused { why, place })
    }
}

impl fmt::Display for Refused {
    fn fmt(&self, f: &mut fmt::Formatter<'_>) -> fmt::Result {
        write!(f, "refused {} at {}: {}", self.why.number(), self.place, self.why)
    }
}

impl error::Error for Refused {}

// ---- Checking

/// Checks a single block, which is all of `block`, and answers how many records it has.
///
/// Refuses by 1 to 15.
///
/// ```
/// use asterix::{check_block, Refusal};
/// let refused = check_block(&[0x11, 0x00, 0x03]).unwrap_err();
/// assert_eq!((refused.why, refused.place), (Refusal::NoRecord, 0));
/// ```
pub fn check_block(block: &[u8]) -> Result<usize, Refused> {
    let checked = raw::check_block(block);
    Refused::answer(checked.number, checked.place)?;
    Ok(checked.records)
}

/// What a recording has.
#[derive(Clone, Copy, Debug, Default, PartialEq, Eq, Hash)]
pub struct Counts {
    /// How many blocks.
    pub blocks: usize,
    /// How many records, in all of them.
    pub records: usize,
}

/// Checks a recording: blocks end to end and nothing else. An empty one is accepted.
///
/// Refuses by 1 to 15; the place counts from the recording's start.
///
/// ```
/// use asterix::{check_recording, Counts};
/// assert_eq!(check_recording(&[]), Ok(Counts { blocks: 0, records: 0 }));
/// ```
pub fn check_recording(recording: &[u8]) -> Result<Counts, Refused> {
    let checked = raw::check_recording(recording);
    Refused::answer(checked.number, checked.place)?;
    Ok(Counts {
        blocks: checked.blocks,
        records: checked.records,
    })
}

// ---- Finding

/// A record of a block, and its record map: where each of its items starts.
#[derive(Clone, Copy, Debug, PartialEq, Eq)]
pub struct Record<'a> {
    /// The record's octets, its FSPEC first: a part of the block.
    pub octets: &'a [u8],
    /// The category of its block, 17, 18 or 61.
    pub category: u8,
    /// Where its block starts, counted from the start of the bytes lent: 0 of a single block.
    pub block: usize,
    /// Where the record starts, counted from the block's start.
    pub start: usize,
    /// How many items it has.
    pub count: usize,
    starts: [u16; FRNS],
}

/// How many places a record map has: the last field reference number (FRN) of the longest profile.
pub const FRNS: usize = 35;

// The items of each category by FRN, FRN 1 first: their references (5.3.1 of the documents, 5.3 of
// that of 061). The tests hold them to `find_item`.
const ITEMS_017: [u16; 15] = [10, 12, 0, 350, 220, 221, 140, 45, 70, 50, 200, 230, 240, 210, 360];
const ITEMS_018: [u16; FRNS] = [
    36, 37, 0, 1, 5, 16, 17, 18, 19, 28, 30, 25, 27, 29, 2, 6, 7, 8, 9, 10, 11, 14, 15, 20, 21, 22, 23, 4, 31, 32, 33,
    34, 35, 12, 13,
];
const ITEMS_061: [u16; 22] = [
    10, 0, 12, 15, 20, 30, 45, 50, 60, 70, 80, 100, 130, 210, 220, 230, 240, 330, 350, 360, 370, 380,
];

impl<'a> Record<'a> {
    // The record that a step of a walk over `bytes` met.
    fn met(bytes: &'a [u8], met: &raw::RecordMet) -> Record<'a> {
        Record {
            octets: &bytes[met.start..met.start + met.length],
            category: met.category,
            block: met.block,
            start: met.start - met.block,
            count: met.count,
            starts: met.starts,
        }
    }

    /// Where the record starts, counted from the start of the bytes lent.
    pub fn place(&self) -> usize {
        self.block + self.start
    }

    /// The octets of the item with a reference (45 for I017/045), its count or length octet among
    /// them; `None` where the record does not have it, or its category has no such item.
    ///
    /// ```
    /// use asterix::find_record;
    /// let block = [0x11, 0x00, 0x0C, 0xE8, 25, 3, 25, 6, 20, 0x4C, 0xA1, 0xB2];
    /// let record = find_record(&block, 0)?;
    /// assert_eq!(record.item(220), Some(&block[9..12]));
    /// assert_eq!(record.item(45), None);
    /// # Ok::<(), asterix::Refused>(())
    /// ```
    pub fn item(&self, reference: u16) -> Option<&'a [u8]> {
        let items: &[u16] = match self.category {
            17 => &ITEMS_017,
            18 => &ITEMS_018,
            _ => &ITEMS_061,
        };
        self.item_at(1 + items.iter().position(|&r| r == reference)?)
    }

    /// The octets of the item with a field reference number; `None` where the record does not have
    /// it.
    pub fn item_at(&self, frn: usize) -> Option<&'a [u8]> {
        let start = self.item_start(frn)?;
        // items stand end to end in the order of their FRNs
        let after = self.starts[frn..].iter().find(|&&next| next != 0);
        let end = after.map_or(self.end(), |&next| usize::from(next));
        Some(&self.octets[start - self.start..end - self.start])
    }

    /// Where the item with a field reference number starts, counted from the block's start; `None`
    /// where the record does not have it.
    pub fn item_start(&self, frn: usize) -> Option<usize> {
        match self.starts.get(frn.checked_sub(1)?) {
            None | Some(0) => None,
            Some(&start) => Some(usize::from(start)),
        }
    }

    /// Where the record ends, counted from the block's start.
    pub fn end(&self) -> usize {
        self.start + self.octets.len()
    }
}

/// Finds record `n`, from 0, of a single block.
///
/// The whole block is checked first: 1 to 15; then 19. Each call does so anew: to go through all
/// records, see [`Log::records`].
///
/// ```
/// use asterix::find_record;
/// let block = [0x11, 0x00, 0x0C, 0xE8, 25, 3, 25, 6, 20, 0x4C, 0xA1, 0xB2];
/// let record = find_record(&block, 0)?;
/// assert_eq!(record.octets, &block[3..]);
/// assert_eq!((record.count, record.item_start(5), record.item_start(4)), (4, Some(9), None));
/// # Ok::<(), asterix::Refused>(())
/// ```
pub fn find_record(block: &[u8], n: usize) -> Result<Record<'_>, Refused> {
    let found = raw::find_record(block, n);
    Refused::answer(found.number, found.place)?;
    Ok(Record {
        octets: &block[found.start..found.start + found.length],
        category: block[0],
        block: 0,
        start: found.start,
        count: found.count,
        starts: found.starts,
    })
}

/// Finds the item with a reference (45 for I017/045) in record `n`, from 0, of a single block: that
/// part of the block.
///
/// The whole block is checked first: 1 to 15; then 21, 19, 20.
///
/// ```
/// use asterix::{find_item, Refusal};
/// let block = [0x11, 0x00, 0x0C, 0xE8, 25, 3, 25, 6, 20, 0x4C, 0xA1, 0xB2];
/// assert_eq!(find_item(&block, 10, 0), Ok(&[25, 3][..]));
/// assert_eq!(find_item(&block, 45, 0).unwrap_err().why, Refusal::ItemAbsent);
/// ```
pub fn find_item(block: &[u8], reference: u16, n: usize) -> Result<&[u8], Refused> {
    let found = raw::find_item(block, reference, n);
    Refused::answer(found.number, found.place)?;
    Ok(&block[found.start..found.start + found.length])
}

// ---- Walking a log

/// A log: the bytes of a recording, blocks end to end, to be gone through in one pass.
///
/// Nothing is checked when it is made: the first fault is met where it lies. A program that must
/// use nothing of a log that is refused asks [`check_recording`] first.
#[derive(Clone, Copy, Debug, PartialEq, Eq)]
pub struct Log<'a> {
    bytes: &'a [u8],
}

impl<'a> Log<'a> {
    /// The log that these bytes are.
    pub fn new(bytes: &'a [u8]) -> Log<'a> {
        Log { bytes }
    }

    /// Its records, in order, each read once.
    ///
    /// Of a log that [`check_recording`] accepts, all of them. Of one that it refuses, those before
    /// the fault, and then that refusal as the last item: records of a block come before it is
    /// known that a later one is refused.
    ///
    /// ```
    /// use asterix::{Log, Refusal};
    /// let log = [0x12, 0, 9, 0xE0, 1, 2, 3, 4, 5, 0x12, 0, 9, 0xE0, 1, 2, 3, 4];
    /// let mut records = Log::new(&log).records();
    /// let first = records.next().unwrap()?;
    /// assert_eq!((first.category, first.place(), first.octets), (18, 3, &log[3..9]));
    /// let refused = records.next().unwrap().unwrap_err();
    /// assert_eq!((refused.why, refused.place), (Refusal::Len, 9));
    /// assert_eq!(records.next(), None);
    /// # Ok::<(), asterix::Refused>(())
    /// ```
    pub fn records(self) -> Records<'a> {
        Records {
            bytes: self.bytes,
            at: Some(raw::Cursor::before(0)),
        }
    }

    /// Its blocks, in order. Each is checked whole before it is given.
    ///
    /// Of a log that [`check_recording`] accepts, all of them. Of one that it refuses, those before
    /// the fault, and then that refusal as the last item.
    ///
    /// ```
    /// use asterix::Log;
    /// let log = [0x12, 0, 9, 0xE0, 1, 2, 3, 4, 5, 0x12, 0, 9, 0xE0, 1, 2, 3, 4, 5];
    /// for block in Log::new(&log).blocks() {
    ///     let block = block?;
    ///     assert_eq!((block.category, block.octets, block.count), (18, &log[..9], 1));
    ///     assert_eq!(block.records().count(), 1);
    /// }
    /// # Ok::<(), asterix::Refused>(())
    /// ```
    pub fn blocks(self) -> Blocks<'a> {
        Blocks {
            bytes: self.bytes,
            at: Some(0),
        }
    }
}

/// A block of a log, which was checked whole.
#[derive(Clone, Copy, Debug, PartialEq, Eq)]
pub struct Block<'a> {
    /// The block's octets, CAT first.
    pub octets: &'a [u8],
    /// Its category, 17, 18 or 61.
    pub category: u8,
    /// Where it starts, counted from the log's start.
    pub start: usize,
    /// How many records it has.
    pub count: usize,
    // the log up to the block's end
    bytes: &'a [u8],
}

impl<'a> Block<'a> {
    /// Its records, in order, their places counted as those of the log. None is refused.
    pub fn records(&self) -> Records<'a> {
        Records {
            bytes: self.bytes,
            at: Some(raw::Cursor::before(self.start)),
        }
    }
}

/// The records of a log or of a block: see [`Log::records`].
#[derive(Clone, Debug)]
pub struct Records<'a> {
    bytes: &'a [u8],
    // none once it has ended
    at: Option<raw::Cursor>,
}

impl<'a> Iterator for Records<'a> {
    type Item = Result<Record<'a>, Refused>;

    fn next(&mut self) -> Option<Self::Item> {
        let met = raw::next_record(self.bytes, self.at?);
        if met.met == 0 {
            self.at = None;
            return Refused::answer(met.number, met.place).err().map(Err);
        }
        self.at = Some(met.next);
        Some(Ok(Record::met(self.bytes, &met)))
    }
}

impl FusedIterator for Records<'_> {}

/// The blocks of a log: see [`Log::blocks`].
#[derive(Clone, Debug)]
pub struct Blocks<'a> {
    bytes: &'a [u8],
    // where the next one starts; none once it has ended
    at: Option<usize>,
}

impl<'a> Iterator for Blocks<'a> {
    type Item = Result<Block<'a>, Refused>;

    fn next(&mut self) -> Option<Self::Item> {
        let start = self.at.take()?;
        // the step to its first record tells where the block ends
        let met = raw::next_record(self.bytes, raw::Cursor::before(start));
        if met.met == 0 {
            return Refused::answer(met.number, met.place).err().map(Err);
        }
        let end = met.next.end;
        let octets = &self.bytes[start..end];
        Some(match check_block(octets) {
            Ok(count) => {
                self.at = Some(end);
                Ok(Block {
                    octets,
                    category: met.category,
                    start,
                    count,
                    bytes: &self.bytes[..end],
                })
            }
            Err(refused) => Err(Refused {
                why: refused.why,
                place: start + refused.place,
            }),
        })
    }
}

impl FusedIterator for Blocks<'_> {}

// ---- Merging two logs

/// The largest clock offset, and its negative the least, in 1/128 s: six minutes.
pub const OFFSET: i64 = 46_080;

/// Which of two logs.
#[derive(Clone, Copy, Debug, PartialEq, Eq, Hash)]
pub enum Which {
    /// The first.
    A,
    /// The second, to whose times the offset is added.
    B,
}

impl Which {
    // As the library tells it.
    fn told(log: usize) -> Which {
        if log == 0 {
            Which::A
        } else {
            Which::B
        }
    }

    /// Its number, as a [`Mark`] has it: 0 is A, 1 is B.
    pub fn number(self) -> u8 {
        match self {
            Which::A => 0,
            Which::B => 1,
        }
    }
}

/// A refusal to merge two logs.
#[derive(Clone, Copy, Debug, PartialEq, Eq, Hash)]
pub enum MergeRefused {
    /// That log is not accepted: 1 to 15, as [`check_recording`] has it of that log alone.
    Log(Which, Refused),
    /// What was asked for is no offset or no place: 22 or 23, at place 0.
    Asked(Refused),
}

impl MergeRefused {
    fn answer(number: u8, place: usize, log: u8) -> Result<(), MergeRefused> {
        Refused::answer(number, place).map_err(|refused| match refused.why {
            Refusal::OffsetRange | Refusal::NoSuchPlace => MergeRefused::Asked(refused),
            _ => MergeRefused::Log(Which::told(log.into()), refused),
        })
    }

    /// The refusal, without the log.
    pub fn refused(self) -> Refused {
        match self {
            MergeRefused::Log(_, refused) | MergeRefused::Asked(refused) => refused,
        }
    }
}

impl fmt::Display for MergeRefused {
    fn fmt(&self, f: &mut fmt::Formatter<'_>) -> fmt::Result {
        match self {
            MergeRefused::Log(log, refused) => write!(f, "log {log:?}: {refused}"),
            MergeRefused::Asked(refused) => refused.fmt(f),
        }
    }
}

impl error::Error for MergeRefused {}

/// What a step over two logs answers.
#[derive(Clone, Copy, Debug, PartialEq, Eq)]
pub struct Stepped<'a> {
    /// The record that comes next; `None` where both logs are at their ends.
    pub next: Option<Part<'a>>,
    /// The new place in log A: where its next record starts, or its length; the one given where
    /// nothing came from it.
    pub place_a: usize,
    /// The new place in log B.
    pub place_b: usize,
}

/// A record as a part of one of two logs.
#[derive(Clone, Copy, Debug, PartialEq, Eq)]
pub struct Part<'a> {
    /// Which log.
    pub log: Which,
    /// Where the record starts, counted from that log's start.
    pub start: usize,
    /// Its octets, its FSPEC first: a part of that log.
    pub octets: &'a [u8],
}

/// Which record comes next, where each log stands at a place: a record's start, or the log's
/// length.
///
/// A's goes first where B's time plus the offset, less A's time, modulo 11,059,200 (a day), is at
/// most half of that, and else B's. Times are I017/140, I018/002 and I061/020, in 1/128 s. A record
/// without one goes at once, A's before B's, and a GICB_extraction counts as one; a log at its end
/// yields to the other.
///
/// Both whole logs are checked at every call: to go through two logs, see [`Merge`]. Refuses by 1
/// to 15 of log A, by 1 to 15 of log B, by 22 where the offset is past [`OFFSET`], then by 23.
///
/// ```
/// use asterix::{merge_step, MergeRefused, Refusal, Which};
/// let log = [0x12, 0, 9, 0xE0, 1, 2, 3, 4, 5]; // Keep_alive has no time
/// let step = merge_step(&log, &log, 3, 3, 0)?;
/// let next = step.next.unwrap();
/// assert_eq!((next.log, next.start, next.octets), (Which::A, 3, &log[3..]));
/// assert_eq!((step.place_a, step.place_b), (9, 3));
///
/// let Err(MergeRefused::Asked(refused)) = merge_step(&log, &log, 0, 3, 0) else { panic!() };
/// assert_eq!(refused.why, Refusal::NoSuchPlace);
/// # Ok::<(), MergeRefused>(())
/// ```
pub fn merge_step<'a>(
    a: &'a [u8],
    b: &'a [u8],
    place_a: usize,
    place_b: usize,
    offset: i64,
) -> Result<Stepped<'a>, MergeRefused> {
    let step = raw::merge_step(a, b, place_a, place_b, offset);
    MergeRefused::answer(step.number, step.place, step.log)?;
    let log = Which::told(step.log.into());
    let bytes = if log == Which::A { a } else { b };
    Ok(Stepped {
        next: (step.met != 0).then(|| Part {
            log,
            start: step.start,
            octets: &bytes[step.start..step.start + step.length],
        }),
        place_a: step.place_a,
        place_b: step.place_b,
    })
}

/// A record of two logs on one line.
#[derive(Clone, Copy, Debug, PartialEq, Eq)]
pub struct Merged<'a> {
    /// Which log it is of.
    pub log: Which,
    /// The record, its places counted as those of its log.
    pub record: Record<'a>,
}

/// The records of two logs on one line: each comes once, those of each log in its own order, and
/// which goes first is as [`merge_step`] has it.
///
/// Both logs are checked when it is made, once; then nothing is refused. Records are fetched many
/// at a time, and each is read once more for its map.
///
/// ```
/// use asterix::{Merge, MergeRefused, Refusal, Which};
/// let a = [0x12, 0, 9, 0xE0, 1, 2, 3, 4, 5, 0x12, 0, 9, 0xE0, 1, 2, 3, 4, 5];
/// let b = [0x12, 0, 9, 0xE0, 6, 7, 8, 9, 5];
/// let order: Vec<_> = Merge::new(&a, &b, 0)?.map(|m| (m.log, m.record.place())).collect();
/// assert_eq!(order, [(Which::A, 3), (Which::A, 12), (Which::B, 3)]); // all without a time
///
/// let Err(MergeRefused::Log(Which::B, refused)) = Merge::new(&a, &b[..8], 0) else { panic!() };
/// assert_eq!((refused.why, refused.place), (Refusal::Len, 0));
/// # Ok::<(), MergeRefused>(())
/// ```
#[derive(Clone, Debug)]
pub struct Merge<'a> {
    a: &'a [u8],
    b: &'a [u8],
    // behind what was fetched
    merge: raw::Merge,
    // what was fetched, and which of it comes next
    fetched: [[usize; raw::MERGED]; AT_ONCE],
    count: usize,
    next: usize,
}

// How many records are fetched at a time.
const AT_ONCE: usize = 64;

impl<'a> Merge<'a> {
    /// Both logs from their first records, with an offset that is added to B's times.
    ///
    /// Refuses by 1 to 15 of log A, by 1 to 15 of log B, then by 22.
    pub fn new(a: &'a [u8], b: &'a [u8], offset: i64) -> Result<Merge<'a>, MergeRefused> {
        let begun = raw::begin_merge(a, b, offset);
        MergeRefused::answer(begun.number, begun.place, begun.log)?;
        Ok(Merge {
            a,
            b,
            merge: begun.merge,
            fetched: [[0; raw::MERGED]; AT_ONCE],
            count: 0,
            next: 0,
        })
    }
}

impl<'a> Iterator for Merge<'a> {
    type Item = Merged<'a>;

    fn next(&mut self) -> Option<Merged<'a>> {
        if self.next == self.count {
            let fetched = raw::next_merged(self.a, self.b, self.merge, &mut self.fetched);
            self.merge = fetched.merge;
            self.count = fetched.count;
            self.next = 0;
        }
        let came = raw::Merged::new(*self.fetched[..self.count].get(self.next)?);
        self.next += 1;
        let log = Which::told(came.log);
        let bytes = if log == Which::A { self.a } else { self.b };
        let met = raw::next_record(bytes, came.at);
        assert_eq!(met.met, 1, "a record of an accepted log");
        Some(Merged {
            log,
            record: Record::met(bytes, &met),
        })
    }
}

impl FusedIterator for Merge<'_> {}

// ---- One item

/// How many numbers are lent for the fields of one item. I061/130 has the most, 7,421.
pub const FIELDS: usize = 8192;

/// What an absent extent or subfield has in place of its fields: once, where it would begin.
/// Anywhere else it is a value like any other, outside every range.
///
/// ```
/// use asterix::{read_item, ABSENT, FIELDS};
/// let mut fields = [0; FIELDS];
/// // I018/008 without its extent, and with one that is zero.
/// assert_eq!(read_item(18, 8, &[0x80], &mut fields)?, &[1, 0, 0, 0, 0, ABSENT]);
/// assert_eq!(read_item(18, 8, &[0x81, 0x00], &mut fields)?, &[1, 0, 0, 0, 0, 0]);
/// # Ok::<(), asterix::Refused>(())
/// ```
pub const ABSENT: i64 = i64::MIN;

/// Reads the fields of one item, which is all of `item`, into the start of `fields`, and answers
/// that part of it.
///
/// Fields are whole numbers from the item's highest bit down, signed ones with their sign. Spare
/// bits, FX, primary octets, a list's count and a led item's length octet are not among them.
///
/// An item that FX extends has for each printed part, in order, its fields, or one [`ABSENT`] where
/// the part is absent; the first part never is. A compound item has for each printed subfield, in
/// order, its fields, those of a list behind their count, or one [`ABSENT`] where the subfield is
/// absent.
///
/// Refuses by 21 (also where the category is not 17, 18 or 61). Then by 9, 10, 9 for the body, 11;
/// in an extended item by 9 part by part, then 6, then 11; in a compound one by 9 and 6 primary octet
/// by primary octet, then 7, 8, and subfield by subfield. Last by 18. The numbers after the item's,
/// and on refusal all, stay as they were.
///
/// ```
/// use asterix::{read_item, Refusal, FIELDS};
/// let mut fields = [0; FIELDS];
/// // I017/045: 45 degrees north, and one unit west of Greenwich.
/// let position = [0x20, 0x00, 0x00, 0xFF, 0xFF, 0xFF];
/// assert_eq!(read_item(17, 45, &position, &mut fields)?, &[2_097_152, -1]);
/// // I017/230: CA 4, and a transponder that is not SI capable. The four bits below are spare.
/// assert_eq!(read_item(17, 230, &[0x90], &mut fields)?, &[4, 1]);
/// assert_eq!(read_item(17, 230, &[0x88], &mut fields).unwrap_err().why, Refusal::Field);
/// // I061/130, a compound item: two track numbers, and no other of its nine subfields.
/// let tracks = read_item(61, 130, &[0x80, 2, 0x00, 0x05, 0x7F, 0xFF], &mut fields)?;
/// assert_eq!((&tracks[..3], &tracks[3..]), (&[2, 5, 32_767][..], &[asterix::ABSENT; 8][..]));
/// # Ok::<(), asterix::Refused>(())
/// ```
pub fn read_item<'f>(
    category: u8,
    reference: u16,
    item: &[u8],
    fields: &'f mut [i64; FIELDS],
) -> Result<&'f [i64], Refused> {
    let read = raw::read_item(category, reference, item, fields);
    Refused::answer(read.number, read.place)?;
    Ok(&fields[..read.count])
}

/// Writes one item from its fields at the start of `out`, and answers how many octets it has.
///
/// Fields are given as [`read_item`] has them. Refuses by 21, then 11 (a value outside its range;
/// too few or too many numbers, or a count that those behind it do not bear out; an extent behind an
/// absent one; a compound item without a subfield), then 16, all at place 0. The octets after the
/// item's, and on refusal all, stay as they were.
///
/// ```
/// use asterix::{write_item, Refusal};
/// let mut out = [0xEE; 8];
/// assert_eq!(write_item(17, 45, &[2_097_152, -1], &mut out), Ok(6));
/// assert_eq!(out, [0x20, 0x00, 0x00, 0xFF, 0xFF, 0xFF, 0xEE, 0xEE]);
/// // 90 degrees north is outside its range.
/// assert_eq!(write_item(17, 45, &[4_194_304, 0], &mut out).unwrap_err().why, Refusal::Field);
/// ```
pub fn write_item(category: u8, reference: u16, fields: &[i64], out: &mut [u8]) -> Result<usize, Refused> {
    let written = raw::write_item(category, reference, fields, out);
    Refused::answer(written.number, written.place)?;
    Ok(written.length)
}

// ---- Adding a record

/// A set of field reference numbers (FRNs): which items a record has.
///
/// ```
/// use asterix::ItemSet;
/// let set: ItemSet = [1, 2, 3].into_iter().collect();
/// assert_eq!(set, ItemSet::EMPTY.with(3).with(2).with(1));
/// assert!(set.has(2) && !set.has(4));
/// ```
#[derive(Clone, Copy, Debug, Default, PartialEq, Eq, Hash)]
pub struct ItemSet(u64);

impl ItemSet {
    /// No item.
    pub const EMPTY: ItemSet = ItemSet(0);

    /// The set with an FRN more. FRNs above 63 count as 63, which no category has.
    #[must_use]
    pub const fn with(self, frn: usize) -> ItemSet {
        ItemSet(self.0 | 1 << 63_usize.saturating_sub(frn))
    }

    /// Whether an FRN is in the set; none above 63 is.
    pub const fn has(self, frn: usize) -> bool {
        frn <= 63 && self.0 >> (63 - frn) & 1 == 1
    }
}

impl FromIterator<usize> for ItemSet {
    fn from_iter<I: IntoIterator<Item = usize>>(frns: I) -> ItemSet {
        frns.into_iter().fold(ItemSet::EMPTY, ItemSet::with)
    }
}

/// A refusal to add a record, and what its place counts in.
#[derive(Clone, Copy, Debug, PartialEq, Eq, Hash)]
pub enum AddRefused {
    /// The old block is at fault.
    Old(Refused),
    /// The new record is at fault: the place counts from the start of its items.
    New(Refused),
}

impl fmt::Display for AddRefused {
    fn fmt(&self, f: &mut fmt::Formatter<'_>) -> fmt::Result {
        match self {
            AddRefused::Old(refused) => write!(f, "the old block: {refused}"),
            AddRefused::New(refused) => write!(f, "the new record: {refused}"),
        }
    }
}

impl error::Error for AddRefused {}

/// Adds a record to the block that the first `used` octets of `out` are, and answers the block's
/// new length, which is its new LEN.
///
/// `items` has the items of `set` end to end in FRN order, without an FSPEC. A new block is begun
/// as CAT, 00, 03 with `used` 3.
///
/// In the old block: 16 where `used` is more than `out` has; then the octets in use are checked as
/// a single block, but a LEN of 3 is allowed. In the new record: 7 for an empty set, 8 for an FRN
/// without an item, 6 to 11 of the items, 18, 12 to 15, then 17, then 16. On refusal `out` stays as
/// it was.
///
/// ```
/// use asterix::{add_record, check_block, AddRefused, ItemSet, Refusal};
/// let mut out = [0; 16];
/// out[..3].copy_from_slice(&[0x12, 0x00, 0x03]);
/// // Keep_alive of category 018: source, destination, message type 05.
/// let set = ItemSet::EMPTY.with(1).with(2).with(3);
/// let len = add_record(&mut out, 3, set, &[25, 3, 25, 6, 0x05])?;
/// assert_eq!(&out[..len], &[0x12, 0x00, 0x09, 0xE0, 25, 3, 25, 6, 0x05]);
/// assert_eq!(check_block(&out[..len]), Ok(1));
///
/// let Err(AddRefused::New(refused)) = add_record(&mut out, len, set, &[25, 3, 25]) else { panic!() };
/// assert_eq!((refused.why, refused.place), (Refusal::ItemCut, 2));
/// # Ok::<(), asterix::AddRefused>(())
/// ```
pub fn add_record(out: &mut [u8], used: usize, set: ItemSet, items: &[u8]) -> Result<usize, AddRefused> {
    let added = raw::add_record(out, used, set.0, items);
    let place = if added.in_new == 0 {
        AddRefused::Old
    } else {
        AddRefused::New
    };
    Refused::answer(added.number, added.place).map_err(place)?;
    Ok(added.length)
}

// ---- Lengths

/// The sum of the least lengths of the items that one FSPEC octet names: a fixed item its length, an
/// extended one that of its first part, a list, a led or a compound one 1.
///
/// `place` is the octet's, the first is 0. FX and FRNs without an item add nothing. 0 where the
/// category has no such octet, or is not 17, 18 or 61.
///
/// ```
/// use asterix::least_length;
/// // I017/010, I017/012, I017/000 and the address I017/220.
/// assert_eq!(least_length(17, 0, 0xE8), 8);
/// assert_eq!(least_length(62, 0, 0xE8), 0);
/// ```
pub fn least_length(category: u8, place: usize, octet: u8) -> usize {
    raw::least_length(category, place, octet)
}
