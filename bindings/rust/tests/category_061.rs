//! Category 061: its smallest block, and the items whose extents or subfields may be absent.

use asterix::{check_block, find_record, read_item, write_item, Log, Refusal, Refused, ABSENT as X, FIELDS, FRNS};

// Request for Connection, only with what it must have: I061/010, 000, 012 and 020.
const REQUEST: [u8; 11] = [0x3D, 0x00, 0x0B, 0xE8, 0x01, 0x02, 0x11, 0x09, 0x38, 0x40, 0x00];

fn refusal(answer: Result<impl Sized, Refused>) -> (Refusal, usize) {
    let refused = answer.err().expect("a refusal");
    (refused.why, refused.place)
}

#[test]
fn smallest_block() {
    assert_eq!(check_block(&REQUEST), Ok(1));
    let record = find_record(&REQUEST, 0).expect("its record");
    assert_eq!(
        (record.category, record.start, record.end(), record.count),
        (61, 3, 11, 4)
    );
    let map: Vec<_> = (1..=FRNS)
        .filter_map(|frn| Some((frn, record.item_start(frn)?)))
        .collect();
    assert_eq!(map, [(1, 4), (2, 6), (3, 7), (5, 8)]);
    assert_eq!(Log::new(&REQUEST).records().next(), Some(Ok(record)));

    let mut fields = [0; FIELDS];
    let mut read = |reference| {
        read_item(61, reference, record.item(reference)?, &mut fields)
            .ok()
            .map(<[_]>::to_vec)
    };
    assert_eq!(read(10), Some(vec![1, 2]));
    assert_eq!(read(0), Some(vec![1, 1]));
    assert_eq!(read(12), Some(vec![9]));
    assert_eq!(read(20), Some(vec![8 * 60 * 60 * 128]));
    assert_eq!(read(15), None);
    // 090 and 110 have a row in Table 2, and no section: they are no items
    assert_eq!((record.item(90), record.item(110)), (None, None));

    let only_type = [0x3D, 0x00, 0x05, 0x40, 0x11];
    assert_eq!(refusal(check_block(&only_type)), (Refusal::ItemMissing, 3));
}

// Read, these octets are those fields; written, those fields are these octets.
fn both_ways(category: u8, reference: u16, octets: &[u8], fields: &[i64]) {
    let mut read = [0; FIELDS];
    let mut out = vec![0; octets.len()];
    let item = format!("I{category:03}/{reference:03} {octets:02X?}");
    assert_eq!(read_item(category, reference, octets, &mut read), Ok(fields), "{item}");
    assert_eq!(
        write_item(category, reference, fields, &mut out),
        Ok(octets.len()),
        "{item}"
    );
    assert_eq!(out, octets, "{item}");
    let short = octets.len() - 1;
    let refused = refusal(write_item(category, reference, fields, &mut out[..short]));
    assert_eq!(refused, (Refusal::NoRoom, 0), "{item}");
}

#[test]
fn extents() {
    both_ways(18, 8, &[0x82], &[1, 0, 0, 0, 1, X]);
    both_ways(18, 8, &[0x83, 0x80], &[1, 0, 0, 0, 1, 1]);
    both_ways(18, 9, &[0x00], &[0, 0, 0, 0, 0, 0, 0, X]);
    both_ways(18, 9, &[0x01, 0x08], &[0, 0, 0, 0, 0, 0, 0, 0, 0, 0, 0, 1]);
    both_ways(61, 210, &[0x82], &[1, 0, 0, 0, 0, 0, 1, X, X, X]);
    let fields = [0, 0, 0, 0, 0, 0, 0, 0, 0, 0, 0, 0, 0, 0, X, X];
    both_ways(61, 210, &[0x01, 0x00], &fields);
    both_ways(61, 210, &[0xFF, 0xFF, 0xFF, 0xFE], &[1; 28]);
    let fields = [0, 0, 0, 0, 0, 0, 0, 0, 0, 0, 0, 0, 0, 0, 0, 0, 0, 0, 0, 0, 1];
    both_ways(61, 360, &[0x01, 0x01, 0x02], &fields);
    both_ways(61, 230, &[25, 3, 0x80], &[25, 3, 1, X]);
    both_ways(61, 230, &[25, 3, 0x01, 0, 0, 0], &[25, 3, 0, 0, 0]);
}

#[test]
fn subfields() {
    // an empty list is there; its count is 0
    both_ways(61, 130, &[0x80, 0], &[0, X, X, X, X, X, X, X, X]);
    // two track numbers, and an address
    let tracks = [0xC0, 2, 0x00, 0x05, 0x7F, 0xFF, 1, 0x3C, 0x65, 0x89];
    let fields = [2, 5, 32_767, 1, 0x3C6589, X, X, X, X, X, X, X];
    both_ways(61, 130, &tracks, &fields);
    // W2, and the code 4321; the airport LFPG
    let codes = [0x18, 1, 0x48, 0xD1, 1, b'L', b'F', b'P', b'G'];
    let fields = [X, X, X, 1, 0, 1, 0, 0, 0o4321, 1, 76, 70, 80, 71, X, X, X, X];
    both_ways(61, 130, &codes, &fields);
    // the categories selector, of the second primary octet: SIM 2, SSR, FPC 1, OAT, RVSM 3, MI
    let categories = [0x01, 0x40, 0x88, 0x22, 0x18, 0x80];
    let fields = [
        X, X, X, X, X, X, X, X, 2, 0, 0, 1, 0, 0, 0, 1, 0, 0, 2, 0, 0, 0, 3, 0, 0, 1,
    ];
    both_ways(61, 130, &categories, &fields);

    let fields = [1, 1, 1, 0, 0, 1, 1, X, X, X, X, X, X, X, X, X, X];
    both_ways(61, 240, &[0x80, 0xD3], &fields);
    both_ways(61, 240, &[0x11, 0x08, 32, 7], &[X, X, 32, X, X, X, X, X, X, X, 7]);
    both_ways(61, 380, &[0x80, 0x00, 0x3C], &[60, X, X, X, X, X, X, X, X]);
    both_ways(61, 380, &[0x41, 0x40, 0x80, 0x01, 0x02], &[X, 1, X, X, X, X, X, X, 258]);
}

// Every list of I061/130 full: the most numbers that an item has.
#[test]
fn most_fields() {
    let lists: [(usize, usize); 8] = [(1, 2), (1, 3), (8, 6), (5, 2), (4, 4), (4, 4), (4, 4), (2, 2)];
    let mut octets = vec![0xFF, 0xC0];
    let mut fields = Vec::new();
    for (numbers, size) in lists {
        octets.push(255);
        octets.extend(vec![0; 255 * size]);
        fields.push(255);
        fields.extend(vec![0; 255 * numbers]);
    }
    octets.extend([0; 4]);
    fields.extend([0; 18]);
    assert_eq!((octets.len(), fields.len()), (6899, 7421));
    both_ways(61, 130, &octets, &fields);
}

#[test]
fn read_refusals() {
    let read = |category, reference, octets: &[u8]| {
        let mut fields = [77; FIELDS];
        let refused = refusal(read_item(category, reference, octets, &mut fields));
        assert!(fields.iter().all(|&f| f == 77));
        assert_eq!(refused.1, 0, "I{category:03}/{reference:03} {octets:02X?}");
        refused.0
    };
    // primary octets: cut, too many, the last empty, a bit without a subfield
    assert_eq!(read(61, 130, &[]), Refusal::ItemCut);
    assert_eq!(read(61, 130, &[0x01]), Refusal::ItemCut);
    assert_eq!(read(61, 130, &[0x01, 0x81]), Refusal::FspecLong);
    assert_eq!(read(61, 130, &[0x81, 0x00, 0]), Refusal::FspecEmpty);
    assert_eq!(read(61, 130, &[0x00]), Refusal::FspecEmpty);
    assert_eq!(read(61, 130, &[0x01, 0x20]), Refusal::FrnUnusable);
    assert_eq!(read(61, 240, &[0x40, 0x00]), Refusal::FrnUnusable);
    // subfield by subfield: a spare bit of the first before the second's end
    assert_eq!(read(61, 130, &[0xC0, 1, 0x80, 0x00, 1]), Refusal::Field);
    assert_eq!(read(61, 130, &[0xC0, 1, 0x00, 1]), Refusal::ItemCut);
    assert_eq!(read(61, 380, &[0x80, 0x00, 0x03]), Refusal::Field);
    // extents: cut, too many, before any field
    assert_eq!(read(61, 210, &[0x01, 0x01]), Refusal::ItemCut);
    assert_eq!(read(61, 210, &[0x01, 0x01, 0x01, 0x01]), Refusal::FspecLong);
    assert_eq!(read(61, 230, &[0, 0, 0x01, 0, 0, 0x03]), Refusal::FspecLong);
    assert_eq!(read(61, 230, &[0, 0, 0x01, 0, 0, 0x02]), Refusal::Field);
    assert_eq!(read(18, 8, &[0x01, 0x01]), Refusal::FspecLong);
    // two points are no area
    let mut points = [0; 17];
    points[0] = 2;
    assert_eq!(read(61, 60, &points), Refusal::Field);
    assert_eq!(read(61, 90, &[0]), Refusal::NoSuchItem);
}

#[test]
fn write_refusals() {
    let write = |category, reference, fields: &[i64]| {
        let mut out = [0xEE; 99];
        let refused = refusal(write_item(category, reference, fields, &mut out));
        assert!(out.iter().all(|&o| o == 0xEE));
        assert_eq!(refused, (Refusal::Field, 0), "I{category:03}/{reference:03} {fields:?}");
    };
    // no subfield; one too few, one too many; a count that the rest does not bear out
    write(61, 130, &[X; 9]);
    write(61, 130, &[0, X, X, X, X, X, X, X]);
    write(61, 130, &[0, X, X, X, X, X, X, X, X, X]);
    write(61, 130, &[2, 5, X, X, X, X, X, X, X, X]);
    write(61, 130, &[-1, X, X, X, X, X, X, X, X]);
    // an absent track number: there ABSENT is a value
    write(61, 130, &[1, X, X, X, X, X, X, X, X, X]);
    write(61, 380, &[3, X, X, X, X, X, X, X, X]);
    // an extent behind an absent one; no first part; an absent bit; an extent that is not told
    write(61, 210, &[0, 0, 0, 0, 0, 0, 0, X, 0, 0, 0, 0, 0, 0, 0, X]);
    write(61, 210, &[X, 0, 0, 0, 0, 0, 0, 0, X, X]);
    write(61, 210, &[0, 0, 0, 0, 0, 0, X, X, X, X]);
    write(61, 230, &[25, 3, 1]);
    write(18, 8, &[0, 0, 0, 0, 0]);
    write(17, 220, &[X]);
}
