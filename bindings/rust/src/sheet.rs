//! Exercise sheets (W-203): a sheet that owns its bytes, and the functions on lent ones.

use crate::{raw, Refused, Which};
use std::{fmt, iter::FusedIterator, ops::Range};

/// The most marks that a sheet may have.
pub const MARKS: usize = 200;

/// How many stations there are: a mark's is from 0 to 5.
pub const STATIONS: u8 = 6;

/// How many bytes the longest sheet has.
pub const SHEET_BYTES: usize = room(MARKS);

// How many bytes a mark has, and a sheet of so many.
const MARK_BYTES: usize = 8;

const fn room(marks: usize) -> usize {
    14 + MARK_BYTES * marks
}

// ---- Marks

/// An instructor's mark at a place in one of the two logs of an exercise.
///
/// Any numbers may be given; writing and adding refuse a log above 1 and a station above 5, by 33.
/// Marks compare as they stand in a sheet: by log, then by place.
///
/// ```
/// use asterix::{Mark, Which};
/// let first = Mark { log: Which::A.number(), place: 46, station: 5, comment: 0 };
/// let later = Mark { log: Which::B.number(), place: 3, station: 0, comment: 7 };
/// assert!(first < later);
/// assert_eq!(later.which(), Some(Which::B));
/// ```
#[derive(Clone, Copy, Debug, PartialEq, Eq, PartialOrd, Ord, Hash)]
pub struct Mark {
    // the order of these two is that of the marks
    /// The number of its log: 0 is A, 1 is B.
    pub log: u8,
    /// Its place in that log. That a record starts there is not asked.
    pub place: u32,
    /// Its station, 0 to 5.
    pub station: u8,
    /// A comment code, any.
    pub comment: u8,
}

impl Mark {
    /// Which log it is in; `None` where its number is barred, as it is in no sheet that was read.
    pub fn which(self) -> Option<Which> {
        [Which::A, Which::B]
            .into_iter()
            .find(|which| which.number() == self.log)
    }

    // Its bytes in a sheet.
    fn bytes(self) -> [u8; MARK_BYTES] {
        let [a, b, c, d] = self.place.to_be_bytes();
        [a, b, c, d, self.log, self.station, self.comment, 0]
    }

    // The mark with a number of a sheet that was read.
    fn find(sheet: &[u8], marks: raw::Marks, n: usize) -> Option<Mark> {
        let found = raw::find_mark(sheet, marks, n);
        let raw::Mark {
            place,
            log,
            station,
            comment,
        } = found.mark;
        (found.found != 0).then_some(Mark {
            log,
            place,
            station,
            comment,
        })
    }
}

/// The marks of a sheet, in its order, from both ends: see [`Sheet::marks`].
#[derive(Clone)]
pub struct Marks<'a> {
    sheet: &'a [u8],
    marks: raw::Marks,
    // the numbers of those that are still to come
    left: Range<usize>,
}

impl<'a> Marks<'a> {
    fn new(sheet: &'a [u8], marks: raw::Marks) -> Marks<'a> {
        Marks {
            sheet,
            marks,
            left: 0..marks.count,
        }
    }

    fn found(&self, n: usize) -> Mark {
        Mark::find(self.sheet, self.marks, n).expect("a mark of an accepted sheet")
    }
}

impl Iterator for Marks<'_> {
    type Item = Mark;

    fn next(&mut self) -> Option<Mark> {
        self.left.next().map(|n| self.found(n))
    }

    fn size_hint(&self) -> (usize, Option<usize>) {
        self.left.size_hint()
    }
}

impl DoubleEndedIterator for Marks<'_> {
    fn next_back(&mut self) -> Option<Mark> {
        self.left.next_back().map(|n| self.found(n))
    }
}

impl ExactSizeIterator for Marks<'_> {}

impl FusedIterator for Marks<'_> {}

impl fmt::Debug for Marks<'_> {
    fn fmt(&self, f: &mut fmt::Formatter<'_>) -> fmt::Result {
        f.debug_list().entries(self.clone()).finish()
    }
}

// ---- Sheets

/// An exercise sheet, with its own bytes: an instructor's marks, and the clock offset of the second
/// log. There is none that reading refuses.
///
/// The same marks and offset have one sheet, so two are equal where their bytes are.
///
/// ```
/// use asterix::{Mark, Refusal, Sheet};
/// let first = Mark { log: 0, place: 15, station: 2, comment: 7 };
/// let second = Mark { log: 1, place: 3, station: 5, comment: 255 };
/// let sheet = Sheet::write(-64, &[first, second])?;
/// assert_eq!((sheet.edition(), sheet.offset(), sheet.len()), (1, -64, 2));
/// assert!(sheet.marks().eq([first, second]));
///
/// // Its bytes are what a file keeps; they are read as the same sheet.
/// assert_eq!(Sheet::read(sheet.as_bytes())?, sheet);
///
/// // A change is another sheet, or a refusal; this one stays.
/// assert_eq!(sheet.remove(0, 15)?.add(first)?, sheet);
/// assert_eq!(sheet.add(first).unwrap_err().why, Refusal::MarkTwice);
/// # Ok::<(), asterix::Refused>(())
/// ```
#[derive(Clone, PartialEq, Eq, Hash)]
pub struct Sheet {
    bytes: Vec<u8>,
    edition: u8,
    offset: i64,
    marks: raw::Marks,
}

impl Sheet {
    /// The sheet that all of these bytes are: a `Vec<u8>`, which is kept, or a slice or an array,
    /// which are copied.
    ///
    /// Refuses by 30 to 34, as [`read_sheet`] does.
    ///
    /// ```
    /// use asterix::{Refusal, Sheet};
    /// let sheet = Sheet::read([1, 0, 1, 1, 2, 0, 4, 0, 0, 0, 64, 3, 0, 0])?;
    /// assert_eq!((sheet.offset(), sheet.is_empty()), (64, true));
    ///
    /// let refused = Sheet::read([1, 0, 1, 1, 2, 0, 4, 0, 0, 0, 64, 3, 0, 8]).unwrap_err();
    /// assert_eq!((refused.why, refused.place), (Refusal::SheetCut, 11));
    /// # Ok::<(), asterix::Refused>(())
    /// ```
    pub fn read(bytes: impl Into<Vec<u8>>) -> Result<Sheet, Refused> {
        let bytes = bytes.into();
        let SheetRead {
            edition, offset, marks, ..
        } = read_sheet(&bytes)?;
        Ok(Sheet {
            bytes,
            edition,
            offset,
            marks,
        })
    }

    /// The sheet of an offset and marks, which are taken in the order given.
    ///
    /// Refuses by 34 where they are more than [`MARKS`]; then by 33: an offset past
    /// [`OFFSET`](crate::OFFSET), a barred log or station, marks that do not rise by log and place.
    /// Both are at place 0.
    ///
    /// ```
    /// use asterix::{Mark, Refusal, Sheet};
    /// let mut marks = [(1, 3), (0, 46), (0, 15)].map(|(log, place)| Mark { log, place, station: 0, comment: 0 });
    /// assert_eq!(Sheet::write(0, &marks).unwrap_err().why, Refusal::SheetValue);
    /// marks.sort();
    /// assert_eq!(Sheet::write(0, &marks)?.len(), 3);
    /// # Ok::<(), asterix::Refused>(())
    /// ```
    pub fn write(offset: i64, marks: &[Mark]) -> Result<Sheet, Refused> {
        Sheet::written(marks.len(), |out| write_sheet(offset, marks, out))
    }

    // What a call writes to a buffer with room for so many marks, or for the most.
    fn written(marks: usize, write: impl FnOnce(&mut [u8]) -> Result<usize, Refused>) -> Result<Sheet, Refused> {
        let mut out = vec![0; room(marks.min(MARKS))];
        let length = write(&mut out)?;
        out.truncate(length);
        Sheet::read(out)
    }

    /// Its edition, 1.
    pub fn edition(&self) -> u8 {
        self.edition
    }

    /// The clock offset of log B, in 1/128 s, from -46,080 to 46,080: what [`Merge`](crate::Merge)
    /// takes.
    pub fn offset(&self) -> i64 {
        self.offset
    }

    /// How many marks it has.
    pub fn len(&self) -> usize {
        self.marks.count
    }

    /// Whether it has none.
    pub fn is_empty(&self) -> bool {
        self.len() == 0
    }

    /// The mark with a number, from 0; `None` where there are not so many. It costs the same for
    /// any number.
    pub fn mark(&self, n: usize) -> Option<Mark> {
        Mark::find(&self.bytes, self.marks, n)
    }

    /// Its marks, in order: log A's by place, then log B's.
    ///
    /// ```
    /// use asterix::{Mark, Sheet};
    /// let mark = |log, place| Mark { log, place, station: 0, comment: 0 };
    /// let sheet = Sheet::write(0, &[mark(0, 15), mark(0, 46), mark(1, 3)])?;
    /// let mut marks = sheet.marks();
    /// assert_eq!(marks.next_back(), sheet.mark(2));
    /// assert_eq!(marks.len(), 2);
    /// assert!(marks.eq([mark(0, 15), mark(0, 46)]));
    /// # Ok::<(), asterix::Refused>(())
    /// ```
    pub fn marks(&self) -> Marks<'_> {
        Marks::new(&self.bytes, self.marks)
    }

    /// Its bytes.
    pub fn as_bytes(&self) -> &[u8] {
        &self.bytes
    }

    /// Its bytes, given away.
    pub fn into_bytes(self) -> Vec<u8> {
        self.bytes
    }

    /// The sheet with one mark more, where it belongs.
    ///
    /// Refuses by 33 where the mark's log or station is barred, by 35 where there is one at its log
    /// and place, then by 34 where there are [`MARKS`] already. All are at place 0.
    pub fn add(&self, mark: Mark) -> Result<Sheet, Refused> {
        Sheet::written(self.len() + 1, |out| add_mark(&self.bytes, mark, out))
    }

    /// The sheet without its mark at a log and place.
    ///
    /// Refuses by 36 where there is none, at place 0.
    ///
    /// ```
    /// use asterix::{Mark, Refusal, Sheet};
    /// let sheet = Sheet::write(0, &[Mark { log: 1, place: 3, station: 5, comment: 255 }])?;
    /// assert!(sheet.remove(1, 3)?.is_empty());
    /// assert_eq!(sheet.remove(0, 3).unwrap_err().why, Refusal::NoSuchMark);
    /// # Ok::<(), asterix::Refused>(())
    /// ```
    pub fn remove(&self, log: u8, place: u32) -> Result<Sheet, Refused> {
        Sheet::written(self.len(), |out| remove_mark(&self.bytes, log, place, out))
    }

    /// The sheet without its marks; the offset stays.
    pub fn empty(&self) -> Sheet {
        Sheet::written(0, |out| empty_sheet(&self.bytes, out)).expect("an accepted sheet, and room")
    }
}

impl fmt::Debug for Sheet {
    fn fmt(&self, f: &mut fmt::Formatter<'_>) -> fmt::Result {
        f.debug_struct("Sheet")
            .field("edition", &self.edition)
            .field("offset", &self.offset)
            .field("marks", &self.marks())
            .finish()
    }
}

// ---- Sheets in lent buffers

/// A sheet that was read in bytes that are lent: see [`read_sheet`].
#[derive(Clone, Copy, Debug, PartialEq, Eq, Hash)]
pub struct SheetRead<'a> {
    /// Its edition, 1.
    pub edition: u8,
    /// The clock offset of log B, in 1/128 s.
    pub offset: i64,
    /// How many marks it has.
    pub count: usize,
    sheet: &'a [u8],
    marks: raw::Marks,
}

impl<'a> SheetRead<'a> {
    /// The mark with a number, from 0; `None` where there are not so many. It costs the same for
    /// any number.
    pub fn mark(&self, n: usize) -> Option<Mark> {
        Mark::find(self.sheet, self.marks, n)
    }

    /// Its marks, in order: log A's by place, then log B's.
    pub fn marks(&self) -> Marks<'a> {
        Marks::new(self.sheet, self.marks)
    }
}

/// Reads a sheet, which is all of `sheet`, in one pass.
///
/// Refuses field by field: by 31 where nothing is left, 30 where its head or body is cut, 31 for
/// another tag, 32, then in the marks 34, then 33; and by 31 for bytes after the last field.
///
/// ```
/// use asterix::{read_sheet, Refusal};
/// let sheet = [1, 0, 1, 1, 2, 0, 4, 0, 0, 0, 64, 3, 0, 8, 0, 0, 0, 15, 1, 5, 255, 0];
/// let read = read_sheet(&sheet)?;
/// assert_eq!((read.edition, read.offset, read.count), (1, 64, 1));
/// for mark in read.marks() {
///     assert_eq!((mark.log, mark.place, mark.station, mark.comment), (1, 15, 5, 255));
/// }
///
/// let refused = read_sheet(&sheet[..11]).unwrap_err();
/// assert_eq!((refused.why, refused.place), (Refusal::SheetTag, 11));
/// # Ok::<(), asterix::Refused>(())
/// ```
pub fn read_sheet(sheet: &[u8]) -> Result<SheetRead<'_>, Refused> {
    let read = raw::read_sheet(sheet);
    Refused::answer(read.number, read.place)?;
    Ok(SheetRead {
        edition: read.edition,
        offset: read.offset,
        count: read.marks.count,
        sheet,
        marks: read.marks,
    })
}

// What a call that writes a sheet answers.
fn length(written: raw::SheetWritten) -> Result<usize, Refused> {
    Refused::answer(written.number, written.place)?;
    Ok(written.length)
}

/// Writes the sheet of an offset and marks at the start of `out`, and answers how many bytes it
/// has. [`SHEET_BYTES`] are room for any.
///
/// Refuses by 34, 33 (as [`Sheet::write`] does), then 16, all at place 0. The bytes after the
/// sheet's, and on refusal all, stay as they were; so they do in the three calls that change a
/// sheet.
///
/// ```
/// use asterix::{write_sheet, Mark, Refusal};
/// let mark = Mark { log: 1, place: 15, station: 5, comment: 255 };
/// let mut out = [0xEE; 24];
/// assert_eq!(write_sheet(64, &[mark], &mut out), Ok(22));
/// assert_eq!(out[..14], [1, 0, 1, 1, 2, 0, 4, 0, 0, 0, 64, 3, 0, 8]);
/// assert_eq!(out[14..], [0, 0, 0, 15, 1, 5, 255, 0, 0xEE, 0xEE]);
/// assert_eq!(write_sheet(64, &[mark], &mut out[..21]).unwrap_err().why, Refusal::NoRoom);
/// ```
pub fn write_sheet(offset: i64, marks: &[Mark], out: &mut [u8]) -> Result<usize, Refused> {
    // one more than the most are refused whatever they are, and whatever follows them
    let mut bytes = [0; MARK_BYTES * (MARKS + 1)];
    for (to, mark) in bytes.chunks_exact_mut(MARK_BYTES).zip(marks) {
        to.copy_from_slice(&mark.bytes());
    }
    let given = MARK_BYTES * marks.len().min(MARKS + 1);
    length(raw::write_sheet(offset, &bytes[..given], out))
}

/// Writes a sheet with one mark more, where it belongs, at the start of `out`, and answers how many
/// bytes it has.
///
/// Refuses first as [`read_sheet`] does; then, at place 0, by 33 (the mark), 35, 34, 16.
///
/// ```
/// use asterix::{add_mark, Mark, Refusal};
/// let sheet = [1, 0, 1, 1, 2, 0, 4, 0, 0, 0, 64, 3, 0, 0];
/// let mut out = [0; 22];
/// let mark = Mark { log: 1, place: 15, station: 5, comment: 255 };
/// assert_eq!(add_mark(&sheet, mark, &mut out), Ok(22));
/// assert_eq!(out[11..], [3, 0, 8, 0, 0, 0, 15, 1, 5, 255, 0]);
///
/// let barred = Mark { station: 6, ..mark };
/// assert_eq!(add_mark(&sheet, barred, &mut out).unwrap_err().why, Refusal::SheetValue);
/// ```
pub fn add_mark(sheet: &[u8], mark: Mark, out: &mut [u8]) -> Result<usize, Refused> {
    let mark = raw::Mark {
        place: mark.place,
        log: mark.log,
        station: mark.station,
        comment: mark.comment,
    };
    length(raw::add_mark(sheet, mark, out))
}

/// Writes a sheet without its mark at a log and place at the start of `out`, and answers how many
/// bytes it has.
///
/// Refuses first as [`read_sheet`] does; then, at place 0, by 36, 16.
pub fn remove_mark(sheet: &[u8], log: u8, place: u32, out: &mut [u8]) -> Result<usize, Refused> {
    length(raw::remove_mark(sheet, log, place, out))
}

/// Writes a sheet without its marks at the start of `out`, and answers how many bytes it has; the
/// offset stays.
///
/// Refuses first as [`read_sheet`] does; then by 16, at place 0.
pub fn empty_sheet(sheet: &[u8], out: &mut [u8]) -> Result<usize, Refused> {
    length(raw::empty_sheet(sheet, out))
}
