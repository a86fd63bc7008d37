//! A log's records and blocks one after another are those that finding has in each block alone, and
//! end as checking the log ends.

use asterix::{check_recording, find_item, find_record, Log, Record, Refused};
use std::{fs, path::Path};

// The accepted blocks of every message type, end to end.
fn messages() -> Vec<u8> {
    let folder = Path::new(env!("CARGO_MANIFEST_DIR")).join("../../tests/vectors");
    let lines = |name| fs::read_to_string(folder.join(name)).expect("a file of vectors");
    let (questions, answers) = (lines("messages-questions.txt"), lines("messages-answers.txt"));
    let mut log = Vec::new();
    for (question, answer) in questions.lines().zip(answers.lines()) {
        let Some(hex) = question.strip_prefix("block ").filter(|_| answer.starts_with("ok")) else {
            continue;
        };
        log.extend(
            (0..hex.len())
                .step_by(2)
                .map(|i| u8::from_str_radix(&hex[i..i + 2], 16).expect("octets")),
        );
    }
    assert!(!log.is_empty());
    log
}

// The same record as `find_record` has it, and each item as `find_item` has it.
fn is_found(block: &[u8], n: usize, record: &Record<'_>) {
    let found = find_record(block, n).expect("a record of an accepted block");
    assert_eq!(
        (record.octets, record.start, record.end()),
        (found.octets, found.start, found.end())
    );
    assert_eq!((record.category, record.count), (found.category, found.count));
    for frn in 0..=40 {
        assert_eq!(record.item_start(frn), found.item_start(frn));
        assert_eq!(record.item_at(frn), found.item_at(frn));
    }
    for reference in 0..=400 {
        assert_eq!(
            record.item(reference),
            find_item(block, reference, n).ok(),
            "item {reference:03}"
        );
    }
}

#[test]
fn records_are_those_found() {
    let log = messages();
    let counts = check_recording(&log).expect("an accepted log");
    let (mut blocks, mut records, mut at) = (0, 0, 0);
    let mut walk = Log::new(&log).records();
    for block in Log::new(&log).blocks() {
        let block = block.expect("an accepted block");
        assert_eq!((block.start, block.category), (at, block.octets[0]));
        assert_eq!(block.octets, &log[at..at + block.octets.len()]);
        let within: Vec<_> = block.records().collect::<Result<_, _>>().expect("legal records");
        assert_eq!(within.len(), block.count);
        for (n, record) in within.iter().enumerate() {
            assert_eq!(walk.next(), Some(Ok(*record)));
            assert_eq!(record.block, at);
            assert_eq!(record.octets.as_ptr(), log[record.place()..].as_ptr());
            is_found(block.octets, n, record);
        }
        at += block.octets.len();
        blocks += 1;
        records += block.count;
    }
    assert_eq!(walk.next(), None);
    assert_eq!((blocks, records, at), (counts.blocks, counts.records, log.len()));
}

// How a walk over records or blocks ends: how many came, and the refusal, if any; nothing after it.
fn ending<T>(mut walk: impl Iterator<Item = Result<T, Refused>>) -> (usize, Option<Refused>) {
    let mut came = 0;
    loop {
        match walk.next() {
            Some(Ok(_)) => came += 1,
            Some(Err(refused)) => {
                assert!(walk.next().is_none());
                return (came, Some(refused));
            }
            None => {
                assert!(walk.next().is_none());
                return (came, None);
            }
        }
    }
}

#[test]
fn ends_as_checking_does() {
    let log = messages();
    for end in 0..=log.len() {
        let checked = check_recording(&log[..end]);
        let (records, refused) = ending(Log::new(&log[..end]).records());
        assert_eq!(refused, checked.err());
        let (blocks, refused) = ending(Log::new(&log[..end]).blocks());
        assert_eq!(refused, checked.err());
        if let Ok(counts) = checked {
            assert_eq!((blocks, records), (counts.blocks, counts.records));
        }
    }
    for at in 0..log.len() {
        let mut damaged = log.clone();
        damaged[at] ^= 0x81;
        let checked = check_recording(&damaged);
        assert_eq!(ending(Log::new(&damaged).records()).1, checked.err());
        assert_eq!(ending(Log::new(&damaged).blocks()).1, checked.err());
    }
}

#[test]
fn an_empty_log_has_nothing() {
    assert_eq!(ending(Log::new(&[]).records()), (0, None));
    assert_eq!(ending(Log::new(&[]).blocks()), (0, None));
}
