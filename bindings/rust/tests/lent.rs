//! What a refused call was lent stays as it was, and an accepted one changes only what it says.

use asterix::{add_record, read_item, write_item, AddRefused, ItemSet, Refusal, FIELDS};

#[test]
fn read_leaves_the_rest() {
    let mut fields = [77; FIELDS];
    assert_eq!(read_item(17, 10, &[1, 2], &mut fields), Ok(&[1, 2][..]));
    assert!(fields[2..].iter().all(|&f| f == 77));
    fields[..2].fill(77);
    assert_eq!(
        read_item(17, 10, &[1, 2, 3], &mut fields).unwrap_err().why,
        Refusal::BytesLeft
    );
    assert_eq!(
        read_item(19, 10, &[1, 2], &mut fields).unwrap_err().why,
        Refusal::NoSuchItem
    );
    assert_eq!(read_item(18, 19, &[], &mut fields).unwrap_err().why, Refusal::ItemCut);
    assert!(fields.iter().all(|&f| f == 77));
}

#[test]
fn write_leaves_the_rest() {
    let mut out = [0xEE; 4];
    assert_eq!(write_item(18, 5, &[0x4CA1B2], &mut out), Ok(3));
    assert_eq!(out, [0x4C, 0xA1, 0xB2, 0xEE]);
    assert_eq!(write_item(18, 5, &[1], &mut out[..2]).unwrap_err().why, Refusal::NoRoom);
    assert_eq!(write_item(18, 5, &[], &mut out).unwrap_err().why, Refusal::Field);
    assert_eq!(out, [0x4C, 0xA1, 0xB2, 0xEE]);
}

#[test]
fn add_says_where() {
    let mut out = [0; 12];
    out[..3].copy_from_slice(&[0x12, 0, 3]);
    let was = out;
    let set: ItemSet = (1..=3).collect();
    let old = |why| move |e| matches!(e, AddRefused::Old(r) if r.why == why);
    let new = |why| move |e| matches!(e, AddRefused::New(r) if r.why == why);
    assert!(add_record(&mut out, 13, set, &[1, 2, 3, 4, 5]).is_err_and(old(Refusal::NoRoom)));
    assert!(add_record(&mut out, 2, set, &[1, 2, 3, 4, 5]).is_err_and(old(Refusal::HeadCut)));
    assert!(add_record(&mut out, 3, ItemSet::EMPTY, &[]).is_err_and(new(Refusal::FspecEmpty)));
    assert!(add_record(&mut out, 3, set.with(64), &[]).is_err_and(new(Refusal::FrnUnusable)));
    assert!(add_record(&mut out, 3, set, &[1, 2, 3, 4, 5, 6]).is_err_and(new(Refusal::BytesLeft)));
    assert!(add_record(&mut out[..8], 3, set, &[1, 2, 3, 4, 5]).is_err_and(new(Refusal::NoRoom)));
    assert_eq!(out, was);
    assert_eq!(add_record(&mut out, 3, set, &[1, 2, 3, 4, 5]), Ok(9));
}

#[test]
fn sets() {
    assert_eq!(ItemSet::EMPTY.with(100), ItemSet::EMPTY.with(63));
    assert!(!ItemSet::EMPTY.with(100).has(100));
    assert!((0..64).all(|frn| ItemSet::EMPTY.with(frn).has(frn)));
}
