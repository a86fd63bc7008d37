//! Exercise sheets: what W-203 says, on sheets that are written here.

use asterix::{
    add_mark, empty_sheet, read_sheet, remove_mark, write_sheet, Mark, Merge, Refusal, Refused, Sheet, Which, MARKS,
    OFFSET, SHEET_BYTES, STATIONS,
};

const EMPTY: [u8; 14] = [1, 0, 1, 1, 2, 0, 4, 0, 0, 0, 0, 3, 0, 0];

// Offset 1, and three marks: 15 of log A, station 2, comment 7; 46 of log A; 3 of log B.
const THREE: [u8; 38] = [
    1, 0, 1, 1, 2, 0, 4, 0, 0, 0, 1, 3, 0, 24, // the heads, the edition and the offset
    0, 0, 0, 15, 0, 2, 7, 0, //
    0, 0, 0, 46, 0, 0, 255, 0, //
    0, 0, 0, 3, 1, 5, 0, 0,
];

fn mark(log: u8, place: u32) -> Mark {
    Mark {
        log,
        place,
        station: 0,
        comment: 0,
    }
}

// The same at station 6, which there is not.
fn barred(log: u8, place: u32) -> Mark {
    Mark {
        station: 6,
        ..mark(log, place)
    }
}

fn three() -> [Mark; 3] {
    [(0, 15, 2, 7), (0, 46, 0, 255), (1, 3, 5, 0)].map(|(log, place, station, comment)| Mark {
        log,
        place,
        station,
        comment,
    })
}

// `THREE` with one byte changed.
fn with(at: usize, byte: u8) -> [u8; 38] {
    let mut bytes = THREE;
    bytes[at] = byte;
    bytes
}

// Marks at the places 1, 2, .. of log A.
fn many(count: u32) -> Vec<Mark> {
    (1..=count).map(|place| mark(0, place)).collect()
}

// How reading refuses, in a lent slice and as a sheet of its own.
fn refused(bytes: &[u8]) -> (u8, usize) {
    let refused = read_sheet(bytes).expect_err("a refusal");
    assert_eq!(Sheet::read(bytes), Err(refused));
    (refused.why.number(), refused.place)
}

fn at_0<T: std::fmt::Debug>(answer: Result<T, Refused>) -> u8 {
    let refused = answer.expect_err("a refusal");
    assert_eq!(refused.place, 0);
    refused.why.number()
}

// ---- Reading

#[test]
fn numbers_to_try() {
    assert_eq!(refused(&[]), (31, 0));
    assert_eq!(refused(&[1]), (30, 0));
    assert_eq!(refused(&[1, 0, 1, 4]), (33, 0));
    let empty = Sheet::read(EMPTY).expect("a sheet");
    assert_eq!((empty.edition(), empty.offset(), empty.len()), (1, 0, 0));
    assert!(empty.is_empty() && empty.mark(0).is_none() && empty.marks().next().is_none());
    let mut more = EMPTY.to_vec();
    more.push(4);
    assert_eq!(refused(&more), (31, 14));
    more[3] = 2;
    assert_eq!(refused(&more), (33, 0));
    assert_eq!(refused(&more[..14]), (33, 0));
}

#[test]
fn reads_marks() {
    let sheet = Sheet::read(THREE).expect("a sheet");
    assert_eq!((sheet.edition(), sheet.offset(), sheet.len()), (1, 1, 3));
    assert!(!sheet.is_empty());
    assert!(sheet.marks().eq(three()));
    assert_eq!(sheet.as_bytes(), THREE);
    assert_eq!(
        [0, 1, 2, 3, usize::MAX].map(|n| sheet.mark(n)),
        [Some(three()[0]), Some(three()[1]), Some(three()[2]), None, None]
    );
    let read = read_sheet(&THREE).expect("a sheet");
    assert_eq!((read.edition, read.offset, read.count), (1, 1, 3));
    assert!(read.marks().eq(three()));
    assert_eq!((read.mark(2), read.mark(3)), (Some(three()[2]), None));
}

#[test]
fn marks_from_both_ends() {
    let sheet = Sheet::read(THREE).expect("a sheet");
    let [first, second, third] = three();
    assert!(sheet.marks().rev().eq([third, second, first]));
    let mut marks = sheet.marks();
    assert_eq!((marks.len(), marks.next_back()), (3, Some(third)));
    assert_eq!((marks.len(), marks.next()), (2, Some(first)));
    assert_eq!((marks.len(), marks.next_back()), (1, Some(second)));
    assert_eq!((marks.len(), marks.next(), marks.next_back()), (0, None, None));
    assert_eq!((marks.next(), marks.next_back()), (None, None));
}

// In each field: nothing left, cut, another tag, another length, a barred value.
#[test]
fn fields_in_order() {
    assert_eq!(refused(&[9, 0, 1]), (30, 0));
    assert_eq!(refused(&[9, 0, 1, 1]), (31, 0));
    assert_eq!(refused(&[1, 0, 0]), (32, 0));
    assert_eq!(refused(&[1, 0, 2, 1, 1]), (32, 0));
    assert_eq!(refused(&EMPTY[..4]), (31, 4));
    assert_eq!(refused(&EMPTY[..6]), (30, 4));
    assert_eq!(refused(&EMPTY[..10]), (30, 4));
    assert_eq!(refused(&EMPTY[..11]), (31, 11));
    assert_eq!(refused(&EMPTY[..13]), (30, 11));
    assert_eq!(refused(&with(4, 3)), (31, 4));
    assert_eq!(refused(&with(6, 3)), (32, 4));
    assert_eq!(refused(&with(11, 4)), (31, 11));
    assert_eq!(refused(&with(13, 25)), (30, 11));
    assert_eq!(refused(&with(13, 23)), (32, 11));
    assert_eq!(refused(&with(13, 16)), (31, 30));
    assert_eq!(refused(&[&THREE[..], &[0]].concat()), (31, 38));
}

#[test]
fn offset_ends() {
    for (offset, accepted) in [
        (OFFSET, true),
        (OFFSET + 1, false),
        (-OFFSET, true),
        (-OFFSET - 1, false),
    ] {
        let mut bytes = EMPTY;
        bytes[7..11].copy_from_slice(&i32::try_from(offset).expect("four bytes").to_be_bytes());
        let written = Sheet::write(offset, &[]);
        if accepted {
            assert_eq!(Sheet::read(bytes).expect("a sheet").offset(), offset);
            assert_eq!(written.expect("a sheet").as_bytes(), bytes);
        } else {
            assert_eq!(refused(&bytes), (33, 4));
            assert_eq!(at_0(written), 33);
        }
    }
    // none of these is taken for its low bytes
    for offset in [1 << 32, -1 << 32, i64::MAX, i64::MIN] {
        assert_eq!(at_0(Sheet::write(offset, &[])), 33);
    }
}

#[test]
fn first_mark_at_fault() {
    for (at, byte, place) in [
        (18, 2, 14), // log 2
        (26, 255, 22),
        (19, 6, 14), // station 6
        (35, 6, 30),
        (21, 1, 14), // a last byte that is not zero
        (37, 255, 30),
        (25, 15, 22), // where the mark before it is, and below
        (25, 14, 22),
        (18, 1, 22), // log A after log B: the later one's fault
    ] {
        assert_eq!(refused(&with(at, byte)), (33, place), "{byte} at {at}");
    }
    // the same place in the other log is another
    assert!(Sheet::read(with(33, 15)).is_ok() && Sheet::read(with(33, 46)).is_ok());
    // two at fault: the first
    let mut bytes = with(35, 6);
    bytes[21] = 1;
    assert_eq!(refused(&bytes), (33, 14));
}

// Cut, then a length that 8 does not divide, then too many, then what they are.
#[test]
fn too_many_marks() {
    let sheet = |length: u16| {
        let mut bytes = EMPTY.to_vec();
        bytes[12..].copy_from_slice(&length.to_be_bytes());
        bytes.resize(14 + usize::from(length), 0xFF);
        bytes
    };
    assert_eq!(refused(&sheet(8 * 200)), (33, 14));
    assert_eq!(refused(&sheet(8 * 201 + 1)), (32, 11));
    assert_eq!(refused(&sheet(8 * 201)), (34, 11));
    assert_eq!(refused(&sheet(8 * 201)[..8 * 201]), (30, 11));
    assert_eq!(refused(&sheet(0xFFF8)), (34, 11));
}

// However a byte is changed, what is accepted is what its own marks and offset are written as; and
// no sheet is the start of another.
#[test]
fn one_sheet_for_its_marks() {
    for end in 0..THREE.len() {
        refused(&THREE[..end]);
    }
    let mut accepted = 0;
    for at in 0..THREE.len() {
        for byte in 0..=255 {
            let bytes = with(at, byte);
            let Ok(sheet) = Sheet::read(bytes) else {
                refused(&bytes);
                continue;
            };
            accepted += 1;
            let marks: Vec<Mark> = sheet.marks().collect();
            assert!(marks.windows(2).all(|two| two[0] < two[1]));
            assert!(marks.iter().all(|m| m.which().is_some() && m.station < STATIONS));
            let written = Sheet::write(sheet.offset(), &marks).expect("a sheet");
            assert_eq!(written.as_bytes(), bytes);
            assert_eq!(written, sheet);
        }
    }
    assert!(accepted >= 3 * 256); // any comment code of the three
}

// ---- Writing

#[test]
fn writes_what_is_read() {
    let sheet = Sheet::write(1, &three()).expect("a sheet");
    assert_eq!(sheet.as_bytes(), THREE);
    assert_eq!(Sheet::read(THREE.to_vec()), Ok(sheet.clone()));
    assert_eq!(sheet.into_bytes(), THREE);
    assert_eq!(Sheet::write(0, &[]).expect("a sheet").into_bytes(), EMPTY);
    let ends = [mark(0, 0), mark(0, u32::MAX), mark(1, 0), mark(1, u32::MAX)];
    let sheet = Sheet::write(-1, &ends).expect("a sheet");
    assert_eq!(sheet.offset(), -1);
    assert!(sheet.marks().eq(ends));
}

#[test]
fn writing_refuses_in_order() {
    let too_many = [&many(200)[..], &[barred(0, 1)]].concat();
    assert_eq!(at_0(Sheet::write(99_999, &too_many)), 34);
    assert_eq!(at_0(Sheet::write(99_999, &many(100_000))), 34);
    assert_eq!(at_0(Sheet::write(99_999, &[])), 33);
    for marks in [
        &[barred(0, 1)][..],
        &[mark(2, 1)],
        &[mark(0, 1), mark(0, 1)],
        &[mark(0, 2), mark(0, 1)],
        &[mark(1, 1), mark(0, 2)],
    ] {
        assert_eq!(at_0(Sheet::write(0, marks)), 33);
        assert_eq!(at_0(write_sheet(0, marks, &mut [])), 33);
    }
    assert_eq!(at_0(write_sheet(0, &too_many, &mut [])), 34);
    assert_eq!(at_0(write_sheet(0, &[], &mut [0; 13])), 16);
    assert_eq!(write_sheet(0, &[], &mut [0; 14]), Ok(14));
}

// ---- Changing

#[test]
fn added_in_any_order() {
    let empty = Sheet::write(1, &[]).expect("a sheet");
    let all = Sheet::write(1, &three()).expect("a sheet");
    let [first, second, third] = three();
    for order in [
        [first, second, third],
        [third, second, first],
        [second, third, first],
        [third, first, second],
    ] {
        let added = order
            .iter()
            .fold(empty.clone(), |sheet, &m| sheet.add(m).expect("a mark more"));
        assert_eq!(added, all);
        let removed = order
            .iter()
            .fold(all.clone(), |sheet, m| sheet.remove(m.log, m.place).expect("one less"));
        assert_eq!(removed, empty);
    }
    assert_eq!(all.empty(), empty);
    assert_eq!(empty.empty(), empty);
    assert_eq!(
        all.remove(0, 46).expect("a sheet"),
        Sheet::write(1, &[first, third]).expect("a sheet")
    );
}

// A place of one log is not that of the other.
#[test]
fn logs_apart() {
    let (a, b) = (mark(0, 60), mark(1, 60));
    let [only_a, only_b, both] = [&[a][..], &[b], &[a, b]].map(|marks| Sheet::write(0, marks).expect("a sheet"));
    assert_eq!((only_a.add(b), only_b.add(a)), (Ok(both.clone()), Ok(both.clone())));
    assert_eq!(
        (both.remove(0, 60), both.remove(1, 60)),
        (Ok(only_b.clone()), Ok(only_a.clone()))
    );
    assert_eq!((at_0(only_a.remove(1, 60)), at_0(only_b.remove(0, 60))), (36, 36));
}

#[test]
fn changing_refuses_in_order() {
    let sheet = Sheet::read(THREE).expect("a sheet");
    assert_eq!(at_0(sheet.add(mark(2, 15))), 33);
    assert_eq!(at_0(sheet.add(barred(0, 15))), 33);
    assert_eq!(at_0(sheet.add(mark(0, 15))), 35);
    assert_eq!(at_0(sheet.remove(1, 15)), 36);
    assert_eq!(at_0(sheet.remove(2, 3)), 36);
    assert_eq!(sheet.as_bytes(), THREE);

    // what reading refuses, at its places; then what is asked; then the room
    let damaged = with(19, 6);
    for answer in [
        add_mark(&damaged, mark(2, 0), &mut []),
        remove_mark(&damaged, 2, 0, &mut []),
        empty_sheet(&damaged, &mut []),
    ] {
        let refused = answer.expect_err("a refusal");
        assert_eq!((refused.why, refused.place), (Refusal::SheetValue, 14));
    }
    assert_eq!(at_0(add_mark(&THREE, mark(2, 0), &mut [])), 33);
    assert_eq!(at_0(add_mark(&THREE, mark(1, 3), &mut [])), 35);
    assert_eq!(at_0(remove_mark(&THREE, 1, 4, &mut [])), 36);
    assert_eq!(at_0(add_mark(&THREE, mark(1, 4), &mut [0; 45])), 16);
    assert_eq!(at_0(remove_mark(&THREE, 1, 3, &mut [0; 29])), 16);
    assert_eq!(at_0(empty_sheet(&THREE, &mut [0; 13])), 16);
}

#[test]
fn a_full_sheet() {
    let marks = many(MARKS as u32);
    let full = Sheet::write(0, &marks).expect("a sheet");
    assert_eq!((full.len(), full.as_bytes().len()), (200, SHEET_BYTES));
    assert_eq!(SHEET_BYTES, 1614);
    assert!(full.marks().eq(marks));
    assert_eq!(Sheet::read(full.as_bytes()), Ok(full.clone()));
    assert_eq!(at_0(Sheet::write(0, &many(201))), 34);
    assert_eq!(at_0(full.add(barred(0, 1))), 33);
    assert_eq!(at_0(full.add(mark(0, 1))), 35);
    assert_eq!(at_0(full.add(mark(0, 0))), 34);
    assert_eq!(at_0(add_mark(full.as_bytes(), mark(0, 0), &mut [])), 34);
    let one_less = full.remove(0, 100).expect("one less");
    assert_eq!(one_less.len(), 199);
    assert_eq!(one_less.add(mark(0, 100)), Ok(full.clone()));
    assert_eq!(
        one_less.add(mark(1, 0)).expect("a full sheet").mark(199),
        Some(mark(1, 0))
    );
    assert_eq!(full.empty().into_bytes(), EMPTY);
}

// ---- Lent buffers

#[test]
fn written_at_the_start() {
    let mut out = [0xEE; 48];
    assert_eq!(write_sheet(1, &three(), &mut out), Ok(38));
    assert_eq!(out[..38], THREE);
    assert_eq!(out[38..], [0xEE; 10]);

    out.fill(0xEE);
    assert_eq!(add_mark(&THREE, mark(0, 20), &mut out), Ok(46));
    assert_eq!(out[..14], with(13, 32)[..14]);
    assert_eq!(out[14..22], THREE[14..22]);
    assert_eq!(out[22..30], [0, 0, 0, 20, 0, 0, 0, 0]);
    assert_eq!(out[30..46], THREE[22..]);
    assert_eq!(out[46..], [0xEE; 2]);

    out.fill(0xEE);
    assert_eq!(remove_mark(&THREE, 0, 46, &mut out), Ok(30));
    assert_eq!(out[..14], with(13, 16)[..14]);
    assert_eq!((&out[14..22], &out[22..30]), (&THREE[14..22], &THREE[30..]));
    assert_eq!(out[30..], [0xEE; 18]);

    out.fill(0xEE);
    assert_eq!(empty_sheet(&THREE, &mut out), Ok(14));
    assert_eq!(out[..14], with(13, 0)[..14]);
    assert_eq!(out[14..], [0xEE; 34]);
}

#[test]
fn refused_leaves_the_buffer() {
    let mut out = [0xEE; 60];
    for answer in [
        write_sheet(0, &many(201), &mut out),
        write_sheet(46_081, &three(), &mut out),
        write_sheet(0, &[three()[0], barred(0, 46)], &mut out),
        write_sheet(0, &three(), &mut out[..37]),
        add_mark(&THREE[..37], mark(0, 1), &mut out),
        add_mark(&THREE, barred(0, 1), &mut out),
        add_mark(&THREE, mark(1, 3), &mut out),
        add_mark(&THREE, mark(1, 2), &mut out[..45]),
        remove_mark(&[], 0, 15, &mut out),
        remove_mark(&THREE, 0, 16, &mut out),
        remove_mark(&THREE, 0, 15, &mut out[..29]),
        empty_sheet(&with(0, 2), &mut out),
        empty_sheet(&THREE, &mut out[..13]),
    ] {
        answer.expect_err("a refusal");
    }
    assert_eq!(out, [0xEE; 60]);
}

// ---- In Rust

#[test]
fn refusals_say_why() {
    let refused = Sheet::read(with(35, 6)).expect_err("a refusal");
    assert_eq!(
        refused.to_string(),
        "refused 33 at 30: a value in the sheet is barred, or its marks do not rise"
    );
    let known: Vec<u8> = (0..=255).filter(|&n| Refusal::from_number(n).is_some()).collect();
    assert_eq!(known, (1..=23).chain(30..=36).collect::<Vec<_>>());
    assert!(known
        .iter()
        .all(|&n| Refusal::from_number(n).map(Refusal::number) == Some(n)));
}

#[test]
fn a_sheet_shows_its_marks() {
    let sheet = Sheet::write(-1, &[mark(1, 3)]).expect("a sheet");
    assert_eq!(
        format!("{sheet:?}"),
        "Sheet { edition: 1, offset: -1, marks: [Mark { log: 1, place: 3, station: 0, comment: 0 }] }"
    );
}

#[test]
fn logs_by_number() {
    assert_eq!(
        [0, 1, 2, 255].map(|log| mark(log, 0).which()),
        [Some(Which::A), Some(Which::B), None, None]
    );
    assert!([Which::A, Which::B]
        .iter()
        .all(|&log| mark(log.number(), 0).which() == Some(log)));
}

// What a sheet is for: a mark on a record of two merged logs, found again by its log and place.
#[test]
fn marks_records() {
    let keep_alive = [18, 0, 9, 0xE0, 25, 9, 25, 29, 5].repeat(2);
    let mut sheet = Sheet::write(-64, &[]).expect("a sheet");
    for merged in Merge::new(&keep_alive, &keep_alive, sheet.offset()).expect("two logs") {
        let place = merged.record.place().try_into().expect("a place in four bytes");
        sheet = sheet.add(mark(merged.log.number(), place)).expect("a mark more");
    }
    assert!(sheet.marks().eq([mark(0, 3), mark(0, 12), mark(1, 3), mark(1, 12)]));
    let marked = |log: Which, place| {
        sheet
            .marks()
            .any(|m| m.which() == Some(log) && m.place as usize == place)
    };
    assert!(Merge::new(&keep_alive, &keep_alive, sheet.offset())
        .expect("two logs")
        .all(|merged| marked(merged.log, merged.record.place())));
}
