//! Job files and `bill`.

use second::bill;
use second::file::{parse, JobFile};

/// A trailer with these numbers.
fn trailer(part: u16, level: u8, first: u32, p: u16, distance: u32) -> Vec<u8> {
    let mut bytes = part.to_le_bytes().to_vec();
    bytes.extend([level, 0]);
    bytes.extend(first.to_le_bytes());
    bytes.extend(p.to_le_bytes());
    bytes.extend([0, 0]);
    bytes.extend(distance.to_le_bytes());
    bytes
}

/// A file of so many bytes FFH before this trailer.
fn file(before: usize, trailer: Vec<u8>) -> Vec<u8> {
    let mut bytes = vec![0xFF; before];
    bytes.extend(trailer);
    bytes
}

/// The answer line of `bill` for a file that it refuses.
fn refused(bytes: &[u8], number: u32) {
    assert_eq!(bill::print(bytes), format!("answer {number}\n"));
}

#[test]
fn a_sound_file() {
    let mut bytes = vec![1, 2, 3, 0x34, 0x12, 0x78, 0x56];
    bytes.extend(trailer(0x0201, 1, 0x0605_0403, 0x0807, 4));
    let wanted = JobFile {
        part: 0x0201,
        wp_high: true,
        first: 0x0605_0403,
        p: 0x0807,
        image: vec![0x1234, 0x5678],
    };
    assert_eq!(parse(&bytes), Some(wanted));
}

#[test]
fn malformed_files() {
    let sound = file(8, trailer(0, 0, 0, 10, 8));
    assert!(parse(&sound).is_some());
    for short in 0..16 {
        assert_eq!(parse(&sound[sound.len() - short..]), None);
    }
    for (at, byte) in [
        (3, 1),
        (10, 128),
        (11, 1),
        (2, 2),
        (2, 255),
        (12, 7),
        (12, 10),
    ] {
        let mut bad = sound.clone();
        bad[8 + at] = byte;
        assert_eq!(parse(&bad), None);
    }
    assert_eq!(parse(&file(8, trailer(0, 0, 0, 10, u32::MAX - 1))), None);
    assert!(parse(&file(0, trailer(0, 0, 0, 10, 0))).is_some());
}

#[test]
fn the_longest_file() {
    let longest = file(20_464, trailer(0, 1, 0, 10, 4_096));
    assert!(bill::print(&longest).ends_with("answer 0\n"));
    refused(&file(20_465, trailer(0, 1, 0, 10, 4_096)), 13);
}

#[test]
fn refusals_of_bill_in_their_order() {
    refused(&[], 13);
    refused(&file(4_096, trailer(11, 2, 1, 0, 4_096)), 13);
    refused(&file(4_096, trailer(256, 1, 1, 0, 4_096)), 1);
    refused(&file(4_096, trailer(10, 1, 1, 0, 4_096)), 2);
    refused(&file(4_096, trailer(0, 0, 1, 0, 4_096)), 10);
    refused(&file(4_096, trailer(0, 0, 1, 65_535, 4_096)), 10);
    refused(&file(4_096, trailer(0, 0, 1, 10, 4_096)), 6);
    refused(&file(4_096, trailer(0, 0, 0, 10, 4_094)), 6);
    refused(&file(4_096, trailer(0, 0, 8_192, 10, 4_096)), 7);
    refused(&file(4_096, trailer(0, 0, 2_048, 10, 4_096)), 9);
}

#[test]
fn count_0_prints_a_bill_of_zeros() {
    let zeros = "saved 0\nspent 0\nerases 0\nprograms 0\npolls 0\nscans 0\nconfirms 0\nsum 0\n\
                 answer 0\n";
    assert_eq!(bill::print(&file(5, trailer(0, 0, 0, 10, 0))), zeros);
}
