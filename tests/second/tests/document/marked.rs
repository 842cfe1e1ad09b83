//! The eleven marked cases of document 01, with the figures of document 02's
//! first wish in cases 10 and 11.

use crate::chip::{Chip, FRESH};
use second::bill;
use second::cycle::Mode;
use second::job::{load, Bill, Job};

/// The addresses whose cells changed from 0 to blank.
fn erased(chip: &Chip) -> Vec<u32> {
    let blank = chip.part.blank();
    (0..chip.part.cells)
        .filter(|a| chip.cells[*a as usize] == blank)
        .collect()
}

#[test]
fn case_1_code_50h_is_a_sector_on_part_9_and_a_block_on_part_7() {
    for (number, range) in [(9, 2_048..4_096), (7, 0..32_768)] {
        let mut chip = Chip::blank(number);
        chip.cells.fill(0);
        chip.erase(2_053, 0x50);
        chip.idle(36_000);
        assert_eq!(erased(&chip), range.collect::<Vec<u32>>());
    }
}

#[test]
fn case_2_program_clears_bits_only() {
    let mut chip = Chip::blank(5);
    chip.cells[100] = 0x00F0;
    chip.program(100, 0x0F0F);
    chip.idle(14);
    assert_eq!(chip.cells[100], 0);
}

#[test]
fn case_3_program_time_on_part_5() {
    let mut chip = Chip::blank(5);
    chip.program(100, 0x1234);
    assert_eq!(chip.read(13, 100), 0x00C0);
    assert!(chip.busy());
    chip.idle(1);
    assert!(!chip.busy());
    assert_eq!(chip.read(1, 100), 0x1234);
    chip.program(101, 0x1234);
    chip.idle(14);
    assert!(!chip.busy());
    assert_eq!(chip.read(1, 101), 0x1234);
}

#[test]
fn case_4_what_busy_reads_show() {
    let mut chip = Chip::blank(5);
    chip.program(100, 0);
    assert_eq!(chip.read(0, 100), 0x00C0);
    assert_eq!(chip.read(0, 7), 0x0080);
    assert_eq!(chip.read(0, 100), 0x00C0);
    chip.idle(14);
    chip.erase(100, 0x30);
    assert_eq!(chip.read(0, 100), 0x0040);
    assert_eq!(chip.read(0, 100), 0x0000);
}

#[test]
fn case_5_a_broken_sequence_arms_nothing() {
    for number in 0..=10 {
        let mut chip = Chip::blank(number);
        let (u1, u2) = (chip.part.unlock.u1, chip.part.unlock.u2);
        chip.write(u1, 0xAA);
        chip.write(u1, 0xAA);
        chip.write(u2, 0x55);
        chip.write(u1, 0xA0);
        assert_eq!(chip.device, FRESH);
        chip.write(100, 0x12);
        assert!(!chip.busy());
    }
}

#[test]
fn case_6_part_9_takes_5555h_as_555h() {
    for number in [9, 10] {
        let mut chip = Chip::blank(number);
        chip.write(0x5555, 0xAA);
        chip.write(0x2AAA, 0x55);
        chip.write(0xD55, 0x90);
        assert_eq!(chip.device.mode, Mode::Identification);
    }
    let mut chip = Chip::blank(7);
    chip.write(0xD555, 0xAA);
    assert_eq!(chip.device.stage, 1);
    chip.write(0x2AA, 0x55);
    assert_eq!(chip.device.stage, 0);
}

#[test]
fn case_7_bench_protection() {
    let mut chip = Chip::blank(0);
    chip.wp_high = false;
    chip.program(4_095, 0);
    assert_eq!(chip.device, FRESH);
    chip.program(4_096, 0);
    assert!(chip.busy());
}

#[test]
fn case_8_cut_with_a_scar() {
    let mut chip = Chip::blank(5);
    chip.cells[100] = 0x1234;
    chip.erase(100, 0x30);
    chip.cut(17_999, 0x00FF);
    assert_eq!(chip.cells[100], 0x12FF);
    chip.program(50_000, 0x1234);
    chip.cut(13, 0x00FF);
    assert_eq!(chip.cells[50_000], 0x12FF);
}

#[test]
fn case_9_part_3_identifies() {
    let mut chip = Chip::blank(3);
    chip.command(0x90);
    assert_eq!(chip.read(0, 0), 0xBF);
    assert_eq!(chip.read(0, 1), 0xB7);
    assert_eq!(chip.read(0, 2), 0);
}

/// Case 10's image with this sixth value.
fn image(sixth: u16) -> Vec<u16> {
    let mut image = vec![0xFFFF; 2_048];
    image[5] = sixth;
    image
}

/// A job of cases 10 and 11.
fn job(image: &[u16]) -> Job<'_> {
    Job {
        part: 0,
        first: 0,
        image,
        wp_high: true,
        p: 10,
    }
}

#[test]
fn case_10_as_bill_prints_it() {
    let mut bytes = b"remarks".to_vec();
    for value in image(0x1234) {
        bytes.extend(value.to_le_bytes());
    }
    bytes.extend([0, 0, 1, 0, 0, 0, 0, 0, 10, 0, 0, 0, 0, 16, 0, 0]);
    let printed = "saved 60988\nspent 21\nerases 0\nprograms 1\npolls 2\nscans 4096\n\
                   confirms 1\nsum 2613\nanswer 0\n";
    assert_eq!(bill::print(&bytes), printed);
}

#[test]
fn case_11_on_the_cells_case_10_left() {
    let mut cells = vec![0xFFFF; 8_192];
    let first = load(&job(&image(0x1234)), &mut cells);
    assert_eq!((first.saved, first.programs), (60_988, 1));
    let second = load(&job(&image(0x1235)), &mut cells);
    let wanted = Bill {
        saved: 42_987,
        spent: 18_022,
        erases: 1,
        programs: 1,
        polls: 1_802,
        scans: 2_048,
        confirms: 2,
        sum: 2_614,
        answer: 0,
    };
    assert_eq!(second, wanted);
    assert_eq!(cells[..2_048], image(0x1235));
}
