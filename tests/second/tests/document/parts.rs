//! The part table and its figures.

use second::part::{figure, Kind, Part};

/// The table as document 01 prints it: width, cells, block, device ID, program,
/// sector and block, chip.
const TABLE: [[u32; 7]; 11] = [
    [16, 8_192, 4_096, 0xFFF0, 14, 18_000, 70_000],
    [8, 131_072, 0, 0xB5, 14, 18_000, 70_000],
    [8, 262_144, 0, 0xB6, 14, 18_000, 70_000],
    [8, 524_288, 0, 0xB7, 14, 18_000, 70_000],
    [16, 131_072, 32_768, 0x2789, 14, 18_000, 70_000],
    [16, 262_144, 32_768, 0x2780, 14, 18_000, 70_000],
    [16, 524_288, 32_768, 0x2781, 14, 18_000, 70_000],
    [16, 1_048_576, 32_768, 0x274B, 28, 36_000, 140_000],
    [16, 1_048_576, 32_768, 0x274A, 28, 36_000, 140_000],
    [16, 4_194_304, 32_768, 0x236D, 7, 18_000, 40_000],
    [16, 4_194_304, 32_768, 0x236C, 7, 18_000, 40_000],
];

#[test]
fn the_figures_are_the_tables() {
    for (number, row) in (0..).zip(TABLE) {
        for (column, wanted) in (0..).zip(row) {
            assert_eq!(figure(number, column), (0, wanted));
        }
        assert_eq!(figure(number, 7), (15, 0));
    }
}

#[test]
fn figures_are_refused_with_1_before_15() {
    assert_eq!(figure(11, 0), (1, 0));
    assert_eq!(figure(11, 7), (1, 0));
    assert_eq!(figure(u32::MAX, u32::MAX), (1, 0));
    assert_eq!(figure(10, u32::MAX), (15, 0));
}

#[test]
fn unlock_addresses_and_codes() {
    for number in 0..=10 {
        let part = Part::get(number).unwrap();
        let short = matches!(number, 0 | 9 | 10);
        let unlock = if short {
            (0x555, 0x2AA)
        } else {
            (0x5555, 0x2AAA)
        };
        assert_eq!((part.unlock.u1, part.unlock.u2), unlock);
        let codes = if number >= 9 {
            (0x50, 0x30)
        } else {
            (0x30, 0x50)
        };
        assert_eq!((part.sector_code, part.block_code), codes);
        let sector = if part.width == 8 { 4_096 } else { 2_048 };
        assert_eq!(part.sector(), sector);
    }
}

#[test]
fn protected_blocks() {
    let wanted = [
        (0, Some(0..4_096)),
        (6, None),
        (7, Some(0..32_768)),
        (8, Some(1_015_808..1_048_576)),
        (9, Some(0..32_768)),
        (10, Some(4_161_536..4_194_304)),
    ];
    for (number, block) in wanted {
        assert_eq!(Part::get(number).unwrap().protected_block(), block);
    }
}

#[test]
fn parts_7_to_10_suspend_sector_and_block_erases() {
    for number in 0..=10 {
        let part = Part::get(number).unwrap();
        assert_eq!(part.suspends, number >= 7);
        for kind in Kind::ALL {
            let held = matches!(kind, Kind::Sector | Kind::Block);
            assert_eq!(part.can_suspend(kind), number >= 7 && held);
        }
    }
}

#[test]
fn polls_are_rounded_up() {
    let part = Part::get(9).unwrap();
    assert_eq!(part.polls(Kind::Program, 5), 2);
    assert_eq!(part.polls(Kind::Program, 7), 1);
    assert_eq!(part.polls(Kind::Program, 1_000), 1);
    assert_eq!(part.polls(Kind::Sector, 7), 2_572);
    assert_eq!(part.polls(Kind::Chip, 1), 40_000);
}
