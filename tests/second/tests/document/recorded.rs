//! Recorded cases: the same for the same seed, and read back as they were
//! made.

use second::events::Counts;
use second::make::{kinds, make, RECORDED};
use second::station::{hash, pattern, replay};

#[test]
fn cases_are_determined_by_their_seed_and_replay_alike() {
    for kind in kinds() {
        let first = make(kind, 77, 12).unwrap();
        let again = make(kind, 77, 12).unwrap();
        assert_eq!(first.input, again.input);
        assert_eq!(first.expected, again.expected);
        assert_eq!(replay(&first.input, first.cells), Ok(first.expected));
    }
    assert!(make("no such kind", 77, 12).is_none());
}

#[test]
fn every_event_occurs_often() {
    let mut counts = Counts::default();
    for (kind, seed, cases) in RECORDED {
        counts.merge(&make(kind, *seed, *cases).unwrap().counts);
    }
    for (name, number) in counts.list() {
        assert!(number >= 15, "{name}: {number}");
    }
}

#[test]
fn patterns_and_hashes() {
    assert_eq!(pattern(3, 10, 5, 65_535), 25);
    assert_eq!(pattern(4_194_303, 65_535, 65_535, 65_535), 0);
    assert_eq!(pattern(100, 255, 3, 255), 43);
    assert_eq!(hash(&[]), 0);
    assert_eq!(hash(&[1, 2, 3]), 31 * (31 + 2) + 3);
    assert_eq!(hash(&[0xFFFF; 8]), 838_152_064);
}

#[test]
fn faults_of_an_input_are_told() {
    for bad in [
        "99 1",
        "10 0",
        "13 8192",
        "21 0 2 0",
        "x",
        "20 0 0 0 0 65536 0 0 0 0 0 0 0 0 0",
        "20 0 0 0 0 0 0 0 0 0 0 65536 0 0",
        "20 0 0 0 0 0 0 0 0 0 0 0 0 0 2",
        "20 0 0 0 0 0 0 0 0 0 0 0 0 0",
        "20 0 0 0 0 0 0 0 0 0 0 0 0 0 0 0",
    ] {
        assert!(replay(bad, 8_192).is_err(), "{bad}");
    }
}
