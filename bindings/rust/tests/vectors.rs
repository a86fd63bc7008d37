//! Every vector of tests/vectors (its README says what questions and answers look like), asked
//! through the safe functions.

use asterix::{
    add_mark, add_record, check_block, check_recording, empty_sheet, find_item, find_record, least_length, merge_step,
    read_item, read_sheet, remove_mark, write_item, write_sheet, AddRefused, ItemSet, Mark, Merge, MergeRefused,
    Refusal, Refused, Sheet, Stepped, ABSENT, FIELDS, FRNS,
};
use std::{fs, path::Path};

// The references of the profiles by FRN, as far as they have items.
const PROFILE_017: [u16; 15] = [10, 12, 0, 350, 220, 221, 140, 45, 70, 50, 200, 230, 240, 210, 360];
const PROFILE_018: [u16; FRNS] = [
    36, 37, 0, 1, 5, 16, 17, 18, 19, 28, 30, 25, 27, 29, 2, 6, 7, 8, 9, 10, 11, 14, 15, 20, 21, 22, 23, 4, 31, 32, 33,
    34, 35, 12, 13,
];
const PROFILE_061: [u16; 22] = [
    10, 0, 12, 15, 20, 30, 45, 50, 60, 70, 80, 100, 130, 210, 220, 230, 240, 330, 350, 360, 370, 380,
];

fn reference(category: u8, frn: usize) -> Option<u16> {
    let profile: &[u16] = match category {
        17 => &PROFILE_017,
        18 => &PROFILE_018,
        _ => &PROFILE_061,
    };
    profile.get(frn - 1).copied()
}

fn octets(word: &str) -> Option<Vec<u8>> {
    if word == "-" {
        return Some(Vec::new());
    }
    if word.is_empty() || !word.bytes().all(|c| c.is_ascii_hexdigit()) {
        return None;
    }
    (0..word.len())
        .step_by(2)
        .map(|i| u8::from_str_radix(word.get(i..i + 2)?, 16).ok())
        .collect()
}

// A number of any size, which may be larger than what a call can be given: the largest of those
// then. No category has an item 65535 or an FRN 63, no field has 63 bits, no list so many parts, and
// no item or block needs more than ROOM.
fn number(word: &str, most: u64) -> Option<u64> {
    if word.is_empty() || !word.bytes().all(|c| c.is_ascii_digit()) {
        return None;
    }
    Some(word.parse().unwrap_or(most).min(most))
}

const ROOM: u64 = 1 << 20;

fn small(word: &str) -> Option<u8> {
    number(word, u64::MAX)?.try_into().ok()
}

fn item(word: &str) -> Option<u16> {
    number(word, u16::MAX.into())?.try_into().ok()
}

fn size(word: &str, most: u64) -> Option<usize> {
    number(word, most)?.try_into().ok()
}

// A field: `x` and the least number are ABSENT, and no other is, however small it is.
fn field(word: &str) -> Option<i64> {
    if word == "x" {
        return Some(ABSENT);
    }
    let (digits, sign) = match word.strip_prefix('-') {
        Some(digits) => (digits, -1),
        None => (word, 1),
    };
    let most = sign * i64::try_from(number(digits, i64::MAX as u64)?).ok()?;
    Some(word.parse().unwrap_or(most))
}

// About sheets a number that a call can't be given makes a bad line.
fn offset(word: &str) -> Option<i64> {
    word.parse().ok().filter(|_| !word.starts_with('+'))
}

fn place(word: &str) -> Option<u32> {
    number(word, u64::MAX)?.try_into().ok()
}

fn mark(word: &str) -> Option<Mark> {
    let numbers: Vec<&str> = word.split(':').collect();
    let [at, log, station, comment] = numbers[..] else {
        return None;
    };
    Some(Mark {
        log: small(log)?,
        place: place(at)?,
        station: small(station)?,
        comment: small(comment)?,
    })
}

fn list<T>(word: &str, part: impl Fn(&str) -> Option<T>) -> Option<Vec<T>> {
    if word == "-" {
        return Some(Vec::new());
    }
    word.split(',').map(part).collect()
}

fn hex(octets: &[u8]) -> String {
    octets.iter().map(|o| format!("{o:02X}")).collect()
}

fn commas(fields: &[i64]) -> String {
    if fields.is_empty() {
        return "-".into();
    }
    let text = |&f: &i64| if f == ABSENT { "x".into() } else { f.to_string() };
    fields.iter().map(text).collect::<Vec<_>>().join(",")
}

fn said(answer: Result<String, Refused>) -> String {
    match answer {
        Ok(text) => format!("ok {text}"),
        Err(refused) => format!("refused {} at {}", refused.why.number(), refused.place),
    }
}

fn block(bytes: &[u8], fields: &mut [i64; FIELDS]) -> Result<String, Refused> {
    let records = check_block(bytes)?;
    let mut text = records.to_string();
    for n in 0..records {
        let record = find_record(bytes, n)?;
        text += &format!(" | {} {}", record.start, record.end());
        for frn in 1..=FRNS {
            if record.item_start(frn).is_none() {
                continue;
            }
            let reference = reference(bytes[0], frn).expect("a usable FRN");
            let item = find_item(bytes, reference, n)?;
            assert_eq!(
                item.as_ptr() as usize - bytes.as_ptr() as usize,
                record.item_start(frn).unwrap()
            );
            text += &format!(
                " {reference:03}={}",
                commas(read_item(bytes[0], reference, item, fields)?)
            );
        }
    }
    Ok(text)
}

fn merge_said(refused: MergeRefused) -> String {
    match refused {
        MergeRefused::Log(log, refused) => format!("{} {log:?}", said(Err(refused))),
        MergeRefused::Asked(refused) => said(Err(refused)),
    }
}

fn merge(offset: i64, place_a: usize, place_b: usize, a: &[u8], b: &[u8]) -> Result<String, MergeRefused> {
    let Stepped { next, place_a, place_b } = merge_step(a, b, place_a, place_b, offset)?;
    Ok(match next {
        Some(part) => {
            format!(
                "next {:?} {} {} {place_a} {place_b}",
                part.log,
                part.start,
                part.octets.len()
            )
        }
        None => format!("finished {place_a} {place_b}"),
    })
}

// By a merge, and by steps, which go the same way.
fn merge_run(offset: i64, a: &[u8], b: &[u8]) -> Result<String, MergeRefused> {
    let first = |log: &[u8]| if log.is_empty() { 0 } else { 3 };
    let (mut place_a, mut place_b) = (first(a), first(b));
    let mut text = String::new();
    let mut count = 0;
    let run = Merge::new(a, b, offset);
    assert_eq!(
        run.as_ref().err().copied(),
        merge_step(a, b, place_a, place_b, offset).err()
    );
    for merged in run? {
        let step = merge_step(a, b, place_a, place_b, offset)?;
        let part = step.next.expect("a record, as the merge has it");
        assert_eq!(
            (part.log, part.start, part.octets),
            (merged.log, merged.record.place(), merged.record.octets)
        );
        (place_a, place_b) = (step.place_a, step.place_b);
        text += &format!(" {:?}@{}", merged.log, merged.record.place());
        count += 1;
    }
    assert_eq!(merge_step(a, b, place_a, place_b, offset)?.next, None);
    Ok(format!("ok {count}{text}"))
}

// By a sheet in a lent slice, and by one that owns its bytes; its marks one after another and by
// their numbers. What was read is written as the same bytes.
fn sheet_read(bytes: &[u8]) -> Result<String, Refused> {
    let owned = Sheet::read(bytes);
    let read = read_sheet(bytes);
    assert_eq!(owned.as_ref().err(), read.as_ref().err());
    let (owned, read) = (owned?, read?);
    assert_eq!(
        (owned.edition(), owned.offset(), owned.len()),
        (read.edition, read.offset, read.count)
    );
    let marks: Vec<Mark> = owned.marks().collect();
    assert_eq!(marks.len(), owned.len());
    assert!(read.marks().rev().eq(marks.iter().rev().copied()));
    assert!((0..marks.len()).all(|n| owned.mark(n) == Some(marks[n]) && read.mark(n) == Some(marks[n])));
    assert_eq!((owned.mark(marks.len()), read.mark(marks.len())), (None, None));
    assert_eq!(Sheet::write(owned.offset(), &marks).as_ref(), Ok(&owned));
    let marks = marks
        .iter()
        .map(|m| format!(" {}:{}:{}:{}", m.place, m.log, m.station, m.comment));
    Ok(format!(
        "{} {} {}{}",
        read.edition,
        read.offset,
        read.count,
        marks.collect::<String>()
    ))
}

// A call that writes a sheet to a buffer with room for so many bytes. Where it is refused, and after
// the sheet, the buffer stays as it was; a sheet that owns its bytes answers the same, but for 16.
fn sheet_written(
    room: usize,
    write: impl FnOnce(&mut [u8]) -> Result<usize, Refused>,
    owned: Result<Sheet, Refused>,
) -> Result<String, Refused> {
    let mut out = vec![0xEE; room];
    let written = write(&mut out);
    assert!(out[written.unwrap_or(0)..].iter().all(|&o| o == 0xEE));
    match written {
        Ok(length) => assert_eq!(owned.expect("a sheet").as_bytes(), &out[..length]),
        Err(refused) if refused.why == Refusal::NoRoom => assert!(owned.expect("a sheet").as_bytes().len() > room),
        Err(refused) => assert_eq!(owned, Err(refused)),
    }
    written.map(|length| format!("{length} {}", hex(&out[..length])))
}

fn answer(question: &str, fields: &mut [i64; FIELDS]) -> Option<String> {
    let words: Vec<&str> = question.split(' ').collect();
    Some(match words[..] {
        ["block", bytes] => said(block(&octets(bytes)?, fields)),
        ["recording", bytes] => said(check_recording(&octets(bytes)?).map(|c| format!("{} {}", c.blocks, c.records))),
        ["read", category, reference, bytes] => {
            said(read_item(small(category)?, item(reference)?, &octets(bytes)?, fields).map(commas))
        }
        ["write", category, reference, room, values] => {
            let mut out = vec![0; size(room, ROOM)?];
            let written = write_item(small(category)?, item(reference)?, &list(values, field)?, &mut out);
            said(written.map(|length| format!("{length} {}", hex(&out[..length]))))
        }
        ["add", old, room, frns, items] => {
            let old = octets(old)?;
            let mut out = old.clone();
            out.resize(size(room, ROOM)?, 0);
            let set: ItemSet = list(frns, |frn| size(frn, 63))?.into_iter().collect();
            match add_record(&mut out, old.len(), set, &octets(items)?) {
                Ok(length) => format!("ok {length} {}", hex(&out[..length])),
                Err(AddRefused::Old(refused)) => said(Err(refused)) + " old",
                Err(AddRefused::New(refused)) => said(Err(refused)) + " new",
            }
        }
        ["find", bytes, reference, n] => {
            let bytes = octets(bytes)?;
            said(find_item(&bytes, item(reference)?, size(n, u64::MAX)?).map(|item| {
                let start = item.as_ptr() as usize - bytes.as_ptr() as usize;
                format!("{start} {} {}", item.len(), hex(item))
            }))
        }
        ["record", bytes, n] => said(find_record(&octets(bytes)?, size(n, u64::MAX)?).map(|r| {
            let map = (1..=FRNS).filter_map(|frn| Some(format!(" {frn}@{}", r.item_start(frn)?)));
            format!("{} {} {}{}", r.start, r.octets.len(), r.count, map.collect::<String>())
        })),
        ["least", category, at, octet] => {
            let [octet] = octets(octet)?[..] else {
                return None;
            };
            format!("ok {}", least_length(small(category)?, size(at, u64::MAX)?, octet))
        }
        ["merge", offset, place_a, place_b, a, b] => {
            let (place_a, place_b) = (size(place_a, u64::MAX)?, size(place_b, u64::MAX)?);
            merge(offset.parse().ok()?, place_a, place_b, &octets(a)?, &octets(b)?).unwrap_or_else(merge_said)
        }
        ["mergerun", offset, a, b] => {
            merge_run(offset.parse().ok()?, &octets(a)?, &octets(b)?).unwrap_or_else(merge_said)
        }
        ["sheetread", bytes] => said(sheet_read(&octets(bytes)?)),
        ["sheetwrite", room, units, marks] => {
            let (room, units, marks) = (size(room, ROOM)?, offset(units)?, list(marks, mark)?);
            let owned = Sheet::write(units, &marks);
            said(sheet_written(room, |out| write_sheet(units, &marks, out), owned))
        }
        ["sheetadd", bytes, new, room] => {
            let (bytes, new, room) = (octets(bytes)?, mark(new)?, size(room, ROOM)?);
            let owned = Sheet::read(&bytes[..]).and_then(|sheet| sheet.add(new));
            said(sheet_written(room, |out| add_mark(&bytes, new, out), owned))
        }
        ["sheetremove", bytes, log, at, room] => {
            let (bytes, log, at, room) = (octets(bytes)?, small(log)?, place(at)?, size(room, ROOM)?);
            let owned = Sheet::read(&bytes[..]).and_then(|sheet| sheet.remove(log, at));
            said(sheet_written(room, |out| remove_mark(&bytes, log, at, out), owned))
        }
        ["sheetempty", bytes, room] => {
            let (bytes, room) = (octets(bytes)?, size(room, ROOM)?);
            let owned = Sheet::read(&bytes[..]).map(|sheet| sheet.empty());
            said(sheet_written(room, |out| empty_sheet(&bytes, out), owned))
        }
        _ => return None,
    })
}

#[test]
fn vectors() {
    let folder = Path::new(env!("CARGO_MANIFEST_DIR")).join("../../tests/vectors");
    let mut fields = [0; FIELDS];
    let mut asked = 0;
    for entry in fs::read_dir(folder).expect("the folder of vectors") {
        let questions = entry.expect("a file").path();
        let name = questions
            .file_name()
            .and_then(|n| n.to_str())
            .expect("a name")
            .to_owned();
        let Some(set) = name.strip_suffix("-questions.txt") else {
            continue;
        };
        let answers = fs::read_to_string(questions.with_file_name(format!("{set}-answers.txt"))).expect("answers");
        let questions = fs::read_to_string(questions).expect("questions");
        assert_eq!(questions.lines().count(), answers.lines().count(), "{set}");
        for (question, expected) in questions.lines().zip(answers.lines()) {
            let answered = answer(question, &mut fields).unwrap_or_else(|| "bad line".into());
            assert_eq!(answered, expected, "{question}");
            asked += 1;
        }
    }
    assert!(asked > 0);
}
