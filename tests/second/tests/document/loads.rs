//! Calls of the program `station` on files.

use std::collections::BTreeMap;

use second::load::{bytes, load, Asked};
use second::make::asked;
use second::part::Part;

/// A blank bench part, and an image of these values a sector.
fn bench(values: &[u16]) -> Asked {
    Asked {
        part: 0,
        first: 2_048,
        p: 10,
        wp_high: true,
        pad: false,
        cells: None,
        image: values
            .iter()
            .flat_map(|value| vec![*value; 2_048])
            .collect(),
    }
}

#[test]
fn a_map_by_hand() {
    let mut call = bench(&[0xFFFF, 0x1234, 0x1235]);
    assert_eq!(load(&call).map, "000000H   .oo\n");
    let mut cells = vec![0xFFFF; 8_192];
    cells[3 * 2_048 + 7] = 0x1234;
    call.cells = Some(cells);
    let loaded = load(&call);
    assert_eq!(loaded.map, "000000H   .o#\n");
    assert_eq!(loaded.bill.erases, 1);
    assert_eq!(loaded.cells[2_048..], call.image[..]);
}

#[test]
fn padding_and_files() {
    let mut call = bench(&[0x1234]);
    call.image.truncate(5);
    assert_eq!(load(&call).bill.answer, 6);
    call.pad = true;
    let loaded = load(&call);
    assert_eq!((loaded.bill.answer, loaded.bill.programs), (0, 5));
    assert_eq!(
        bytes(&loaded.cells[2_051..2_054], 16),
        b"\x34\x12\x34\x12\xff\xff"
    );
    assert_eq!(bytes(&[0x12, 0xFF], 8), b"\x12\xff");
}

#[test]
fn the_map_agrees_with_the_bill_and_the_cells() {
    let mut answers = BTreeMap::new();
    for seed in 0..300 {
        let call = asked(seed);
        let loaded = load(&call);
        *answers.entry(loaded.bill.answer).or_insert(0) += 1;
        let count = |sign| loaded.map.matches(sign).count() as u64;
        assert_eq!(count('#'), loaded.bill.erases);
        if loaded.bill.answer != 0 {
            assert!(loaded.map.is_empty());
            continue;
        }
        let part = Part::get(call.part).expect("a part that is taken");
        let size = u64::from(part.sector());
        let scanned = loaded.bill.scans + loaded.bill.erases * size;
        assert_eq!(2 * size * (count('.') + count('o') + count('#')), scanned);
    }
    for answer in [0, 1, 2, 6, 7, 9, 10] {
        assert!(answers[&answer] >= 5, "{answers:?}");
    }
}
