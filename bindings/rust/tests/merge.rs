//! Two logs on one line: what W-201 says, on logs that are written here.

use asterix::{merge_step, Log, Merge, MergeRefused, Merged, Refusal, Which, OFFSET};

// Downlink_broadcast, a block of one record, at a time.
fn at(time: u32) -> Vec<u8> {
    let [_, high, middle, low] = time.to_be_bytes();
    let mut block = vec![18, 0, 25, 0xE9, 0x01, 0x81, 0x04, 25, 9, 25, 29, 0x34, 0x40, 0x6B, 0x2D];
    block.extend([high, middle, low]);
    block.extend([0; 7]);
    block
}

// Request for Connection of category 061 at 08:00:00.
const REQUEST: [u8; 11] = [0x3D, 0x00, 0x0B, 0xE8, 0x01, 0x02, 0x11, 0x09, 0x38, 0x40, 0x00];
const KEEP_ALIVE: [u8; 9] = [18, 0, 9, 0xE0, 25, 9, 25, 29, 5];
const DAY: u32 = 24 * 60 * 60 * 128;

fn order(a: &[u8], b: &[u8], offset: i64) -> String {
    let names = Merge::new(a, b, offset)
        .expect("two accepted logs")
        .map(|m| format!("{:?}", m.log));
    names.collect()
}

#[test]
fn goes_by_time() {
    assert_eq!(order(&at(100), &at(100), 0), "AB");
    assert_eq!(order(&at(100), &at(100), -1), "BA");
    assert_eq!(order(&at(101), &at(100), 1), "AB");
    assert_eq!(order(&at(DAY - 1), &at(0), 0), "AB");
    assert_eq!(order(&at(0), &at(DAY - 1), 0), "BA");
    assert_eq!(order(&at(0), &at(DAY / 2), 0), "AB");
    assert_eq!(order(&at(0), &at(DAY / 2 + 1), 0), "BA");
}

// I061/020 is a time like the others.
#[test]
fn goes_by_time_of_message() {
    let step = |offset| merge_step(&REQUEST, &REQUEST, 3, 3, offset).expect("a step");
    let (zero, less) = (step(0), step(-1));
    let part = |step: &asterix::Stepped| step.next.map(|p| (p.log, p.start, p.octets.len()));
    assert_eq!(part(&zero), Some((Which::A, 3, 8)));
    assert_eq!((zero.place_a, zero.place_b), (11, 3));
    assert_eq!(part(&less), Some((Which::B, 3, 8)));
    assert_eq!((less.place_a, less.place_b), (3, 11));
    assert_eq!(order(&REQUEST, &REQUEST, 0), "AB");
    assert_eq!(order(&REQUEST, &REQUEST, -1), "BA");
    let eight = 8 * 60 * 60 * 128;
    assert_eq!(order(&at(eight), &REQUEST, 0), "AB");
    assert_eq!(order(&at(eight + 1), &REQUEST, 0), "BA");
    assert_eq!(order(&REQUEST, &at(eight - 1), 0), "BA");
    assert_eq!(order(&REQUEST, &KEEP_ALIVE, 0), "BA");
}

#[test]
fn untimed_goes_at_once() {
    assert_eq!(order(&at(0), &KEEP_ALIVE, 0), "BA");
    assert_eq!(order(&KEEP_ALIVE, &at(0), 0), "AB");
    assert_eq!(order(&KEEP_ALIVE.repeat(3), &KEEP_ALIVE.repeat(2), 0), "AAABB");
}

// More records than are fetched at a time: all come, once, each log's in its own order.
#[test]
fn each_comes_once() {
    let a: Vec<u8> = (0..200).flat_map(|n| at(3 * n)).collect();
    let b: Vec<u8> = (0..150)
        .flat_map(|n| if n % 7 == 0 { KEEP_ALIVE.to_vec() } else { at(4 * n) })
        .collect();
    let merged: Vec<Merged> = Merge::new(&a, &b, 5).expect("two accepted logs").collect();
    for (which, log) in [(Which::A, &a), (Which::B, &b)] {
        let came: Vec<_> = merged.iter().filter(|m| m.log == which).map(|m| m.record).collect();
        let records: Vec<_> = Log::new(log).records().collect::<Result<_, _>>().expect("its records");
        assert_eq!(came, records);
    }
    assert_eq!(merged.len(), 350);
    let (mut place_a, mut place_b) = (3, 3);
    for m in &merged {
        let step = merge_step(&a, &b, place_a, place_b, 5).expect("a step");
        let part = step.next.expect("a record");
        assert_eq!(
            (part.log, part.start, part.octets),
            (m.log, m.record.place(), m.record.octets)
        );
        (place_a, place_b) = (step.place_a, step.place_b);
    }
    assert_eq!((place_a, place_b), (a.len(), b.len()));
}

#[test]
fn ends_and_stays_ended() {
    let mut none = Merge::new(&[], &[], OFFSET).expect("two empty logs");
    assert!(none.next().is_none() && none.next().is_none());
    let log = KEEP_ALIVE.repeat(64);
    let mut run = Merge::new(&log, &[], 0).expect("an accepted log");
    assert_eq!(run.by_ref().count(), 64);
    assert!(run.next().is_none() && run.next().is_none());
    let step = merge_step(&log, &[], log.len(), 0, 0).expect("both at their ends");
    assert_eq!((step.next, step.place_a, step.place_b), (None, log.len(), 0));
}

#[test]
fn refusals_in_order() {
    let good = &KEEP_ALIVE[..];
    let cut = &KEEP_ALIVE[..2];
    let step = |a, b, place_a, place_b, offset| merge_step(a, b, place_a, place_b, offset).expect_err("a refusal");
    assert!(matches!(step(cut, cut, 0, 0, 99_999), MergeRefused::Log(Which::A, r) if r.why == Refusal::HeadCut));
    assert!(matches!(step(good, cut, 0, 0, 99_999), MergeRefused::Log(Which::B, r) if r.why == Refusal::HeadCut));
    for offset in [OFFSET + 1, -OFFSET - 1, i64::MAX, i64::MIN] {
        assert!(matches!(step(good, good, 0, 0, offset), MergeRefused::Asked(r) if r.why == Refusal::OffsetRange));
        let refused = Merge::new(good, good, offset).expect_err("a refusal").refused();
        assert_eq!((refused.why, refused.place), (Refusal::OffsetRange, 0));
    }
    for place in [0, 1, 4, 10, usize::MAX] {
        assert!(matches!(step(good, good, place, 3, 0), MergeRefused::Asked(r) if r.why == Refusal::NoSuchPlace));
        assert!(matches!(step(good, good, 3, place, 0), MergeRefused::Asked(r) if r.why == Refusal::NoSuchPlace));
    }
}

#[test]
fn refusals_say_the_log() {
    let refused = Merge::new(&KEEP_ALIVE, &[0x13, 0, 3], 0).expect_err("a refusal");
    assert_eq!(refused.to_string(), "log B: refused 2 at 0: CAT is not 17, 18 or 61");
    let refused = Merge::new(&[], &[], 46_081).expect_err("a refusal");
    assert_eq!(refused.to_string(), "refused 22 at 0: the clock offset is out of range");
}
