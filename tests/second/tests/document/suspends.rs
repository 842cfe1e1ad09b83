//! An erase that is held to fetch code: document 02's second wish.

use crate::chip::{Chip, FRESH, NONE};
use second::cycle::{cycle, Action, Cycle, Device, Mode, Operation};
use second::driver::{start, step, Named};
use second::part::Part;

/// A chip of 1234H on which a sector erase at 2,053, that is of cells 2,048 to
/// 4,095, was suspended after 100 µs.
fn held(number: u32) -> Chip {
    let mut chip = Chip::blank(number);
    chip.cells.fill(0x1234);
    chip.erase(2_053, chip.part.sector_code);
    chip.write_after(100, 0, 0xB0);
    assert_eq!((chip.suspended(), chip.busy()), (true, false));
    chip
}

/// The sector erase of `held`.
fn held_sector(chip: &Chip) -> Operation {
    Operation {
        kind: 1,
        address: 2_053,
        data: chip.part.sector_code,
        left: chip.part.erase_time - 100,
        toggle: true,
    }
}

#[test]
fn the_figures_on_parts_7_and_9() {
    for (number, code, erase, program) in [(7, 0x30, 36_000, 28), (9, 0x50, 18_000, 7)] {
        let mut chip = Chip::blank(number);
        chip.cells.fill(0x1234);
        chip.erase(2_053, code);
        chip.write_after(100, 0, 0xB0);
        let sector = Operation {
            kind: 1,
            address: 2_053,
            data: code,
            left: erase - 100,
            toggle: true,
        };
        let suspended = Device {
            suspended: sector,
            ..FRESH
        };
        assert_eq!(chip.device, suspended);
        assert_eq!(chip.read(0, 2_048), 0x00C4);
        assert_eq!(chip.read(0, 4_095), 0x00C0);
        assert_eq!(chip.read(0, 2_047), 0x1234);
        assert_eq!(chip.read(0, 4_096), 0x1234);
        assert_eq!(chip.read(0, 2_053), 0x00C4);
        chip.program(4_096, 0x0F0F);
        assert_eq!(chip.read(0, 4_096), 0x00C0);
        assert_eq!(chip.read(0, 2_053), 0x0080);
        chip.idle(program);
        assert_eq!(chip.read(1, 4_096), 0x0204);
        assert_eq!(chip.read(0, 2_053), 0x00C4);
        chip.write_after(50, 0, 0x30);
        let running = sector;
        assert_eq!(chip.device, Device { running, ..FRESH });
        assert_eq!(chip.read(0, 2_053), 0x0044);
        assert_eq!(chip.read(0, 2_047), 0x0000);
        assert_eq!(chip.read(0, 2_053), 0x0040);
        chip.idle(erase - 101);
        assert_eq!(chip.read(1, 2_053), 0x0080);
        assert_eq!(chip.read(1, 2_053), 0xFFFF);
        assert_eq!(chip.cells[2_047..2_049], [0x1234, 0xFFFF]);
        assert_eq!(chip.cells[4_095..4_097], [0xFFFF, 0x0204]);
        assert_eq!(chip.device, FRESH);
    }
}

#[test]
fn the_figures_of_a_cut_with_a_program_running() {
    for (number, code) in [(7, 0x30), (9, 0x50)] {
        let mut chip = Chip::blank(number);
        chip.cells.fill(0x1234);
        chip.erase(5_000, code);
        chip.write_after(10, 0, 0xB0);
        chip.cells[6_144] = 0xFFFF;
        chip.program(6_144, 0x3400);
        chip.cut(5, 0x00FF);
        assert_eq!(chip.cells[4_095..4_097], [0x1234, 0x12FF]);
        assert_eq!(chip.cells[6_143..6_146], [0x12FF, 0x34FF, 0x1234]);
        assert_eq!(chip.read(0, 4_096), 0x12FF);
    }
}

#[test]
fn b0h_suspends_sector_and_block_erases_of_parts_7_to_10() {
    for number in 0..=10 {
        let mut chip = Chip::blank(number);
        let u1 = chip.part.unlock.u1;
        let (sector, block) = (chip.part.sector_code, chip.part.block_code);
        for (kind, address, code) in [(1, 5_000, sector), (2, 5_000, block), (3, u1, 0x10)] {
            chip.erase(address, code);
            let running = chip.device;
            chip.write(7, 0xB0);
            if number >= 7 && kind < 3 {
                let suspended = running.running;
                assert_eq!(suspended.kind, kind);
                assert_eq!(chip.device, Device { suspended, ..FRESH });
            } else {
                assert_eq!(chip.device, running);
            }
            chip.cut(0, 0xFFFF);
        }
        chip.program(9, 0x12);
        let running = chip.device;
        chip.write(9, 0xB0);
        assert_eq!(chip.device, running);
    }
}

#[test]
fn b0h_by_its_low_eight_bits_at_any_address_and_level() {
    let mut chip = Chip::blank(8);
    for wp_high in [true, false] {
        for address in [0, 2_053, 0x5555, 1_048_575] {
            for (data, wanted) in [
                (0xB0, true),
                (0x12B0, true),
                (0xFFB0, true),
                (0xB1, false),
                (0xB000, false),
                (0x30, false),
                (0xF0, false),
            ] {
                chip.wp_high = wp_high;
                chip.erase(2_053, 0x30);
                chip.write(address, data);
                assert_eq!((chip.suspended(), chip.busy()), (wanted, !wanted));
                chip.cut(0, 0);
            }
        }
    }
}

#[test]
fn time_passes_before_b0h() {
    for (elapsed, left) in [(0, 36_000), (1, 35_999), (35_999, 1)] {
        let mut chip = Chip::blank(7);
        chip.erase(2_053, 0x30);
        chip.write_after(elapsed, 3, 0xB0);
        assert_eq!((chip.device.suspended.left, chip.busy()), (left, false));
    }
    // At the time left the erase completes, and B0H is a stray write.
    for (elapsed, recent) in [(36_000, 1), (36_001, 0), (u32::MAX, 0)] {
        let mut chip = Chip::blank(7);
        chip.cells.fill(0);
        chip.erase(2_053, 0x30);
        chip.write_after(elapsed, 3, 0xB0);
        assert_eq!(chip.device, Device { recent, ..FRESH });
        assert_eq!(chip.cells[2_047..2_049], [0, 0xFFFF]);
    }
}

#[test]
fn the_time_left_stands_still() {
    let mut chip = held(7);
    chip.idle(u32::MAX);
    chip.read(1_000, 2_053);
    chip.program(9_000, 0);
    chip.idle(u32::MAX);
    chip.unlock();
    chip.write_after(40_000, 9, 0xB0);
    assert_eq!(chip.device.suspended.left, 35_900);
    // Nor does the time of the resuming cycle count.
    chip.write_after(u32::MAX, 9, 0x30);
    assert_eq!(chip.device.running.left, 35_900);
    // Suspended once more, it goes on counting down from there.
    chip.write_after(200, 9, 0xB0);
    assert_eq!(chip.device.suspended.left, 35_700);
    chip.write(9, 0x30);
    chip.idle(35_699);
    assert!(chip.busy());
    chip.idle(2);
    assert_eq!(chip.device, FRESH);
    assert_eq!(chip.cells[2_047..2_049], [0x1234, 0xFFFF]);
}

#[test]
fn the_suspended_range_at_rest_in_read_mode() {
    let mut chip = held(10);
    for (address, shown) in [
        (2_048, 0x00C4),
        (4_095, 0x00C0),
        (3_000, 0x00C4),
        (2_047, 0x1234),
        (4_096, 0x1234),
        (3_000, 0x00C0),
        (2_053, 0x00C4),
    ] {
        assert_eq!(chip.read(7, address), shown);
    }
    // Inside a sequence too, which goes on.
    chip.unlock();
    assert_eq!(chip.read(0, 2_053), 0x00C0);
    assert_eq!(chip.read(0, 2_053), 0x00C4);
    assert_eq!(chip.read(0, 9), 0x1234);
    assert_eq!(chip.device.stage, 2);
    chip.write(0x555, 0x80);
    assert_eq!(chip.read(0, 2_053), 0x00C0);
    assert_eq!(chip.device.stage, 4);
}

#[test]
fn a_suspended_block_is_the_block_of_its_address() {
    let mut chip = Chip::blank(9);
    chip.cells.fill(0x1234);
    chip.erase(40_000, 0x30);
    chip.write(0, 0xB0);
    assert_eq!(chip.device.suspended.address, 40_000);
    assert_eq!(chip.read(0, 32_767), 0x1234);
    assert_eq!(chip.read(0, 32_768), 0x00C4);
    assert_eq!(chip.read(0, 65_535), 0x00C0);
    assert_eq!(chip.read(0, 65_536), 0x1234);
    chip.write(0, 0x30);
    chip.idle(18_001);
    assert_eq!(chip.cells[32_767..32_769], [0x1234, 0xFFFF]);
    assert_eq!(chip.cells[65_535..65_537], [0xFFFF, 0x1234]);
}

#[test]
fn identification_shows_its_words_in_the_range_too() {
    let mut chip = Chip::blank(8);
    chip.cells.fill(0x1234);
    chip.erase(5, 0x30);
    chip.write(0, 0xB0);
    assert_eq!(chip.read(0, 0), 0x00C4);
    chip.command(0x90);
    assert_eq!(chip.read(0, 0), 0x00BF);
    assert_eq!(chip.read(0, 1), 0x274A);
    assert_eq!(chip.read(0, 2), 0);
    assert_eq!(chip.read(0, 9_000), 0);
    // Those reads did not show bit 2, and so did not count.
    chip.command(0xF0);
    assert_eq!(chip.read(0, 0), 0x00C0);
    assert!(chip.suspended());
}

#[test]
fn bit_6_counts_busy_reads_and_bit_2_those_in_the_range() {
    for (number, code) in [(7, 0x30), (8, 0x30), (9, 0x50), (10, 0x50)] {
        let mut chip = Chip::blank(number);
        chip.erase(2_053, code);
        for (address, shown) in [
            (2_048, 0x44),
            (2_047, 0x00),
            (4_095, 0x40),
            (2_053, 0x04),
            (4_096, 0x40),
            (2_053, 0x00),
            (2_053, 0x44),
        ] {
            assert_eq!(chip.read(1, address), shown);
        }
    }
}

#[test]
fn a_chip_erases_range_is_the_part() {
    let mut chip = Chip::blank(7);
    chip.erase(0x5555, 0x10);
    for (address, shown) in [(0, 0x44), (1_048_575, 0x00), (77, 0x44), (77, 0x00)] {
        assert_eq!(chip.read(0, address), shown);
    }
}

#[test]
fn no_bit_2_on_parts_0_to_6_and_of_a_program() {
    for number in 0..=6 {
        let mut chip = Chip::blank(number);
        chip.erase(5_000, 0x30);
        for shown in [0x40, 0x00, 0x40] {
            assert_eq!(chip.read(0, 5_000), shown);
        }
        assert_eq!(chip.device.turned, 0);
    }
    let mut chip = Chip::blank(9);
    chip.program(5_000, 0);
    for shown in [0xC0, 0x80, 0xC0] {
        assert_eq!(chip.read(0, 5_000), shown);
    }
    assert_eq!(chip.device.turned, 0);
}

#[test]
fn bits_6_and_2_begin_at_1_at_each_start_suspend_and_resume() {
    let mut chip = Chip::blank(7);
    chip.erase(2_053, 0x30);
    assert_eq!(chip.read(0, 2_053), 0x44);
    chip.write(0, 0xB0);
    assert!(chip.device.suspended.toggle);
    assert_eq!(chip.read(0, 2_053), 0xC4);
    chip.write(0, 0x30);
    assert_eq!(chip.read(0, 2_053), 0x44);
    chip.write(0, 0xB0);
    chip.write(0, 0x30);
    assert_eq!(chip.read(0, 2_053), 0x44);
    chip.idle(36_001);
    chip.erase(2_053, 0x30);
    assert_eq!(chip.read(0, 2_053), 0x44);
}

#[test]
fn bit_2_begins_anew_with_a_programs_start_too() {
    let mut chip = held(7);
    assert_eq!(chip.read(0, 2_053), 0xC4);
    chip.program(4_096, 0);
    chip.idle(29);
    assert_eq!(chip.read(0, 2_053), 0xC4);
    assert_eq!(chip.read(0, 2_053), 0xC0);
    // An ignored one is no start.
    assert_eq!(chip.read(0, 2_053), 0xC4);
    chip.program(2_053, 0);
    assert_eq!(chip.read(0, 2_053), 0xC0);
}

#[test]
fn a_program_beside_the_suspended_range() {
    for address in [2_047, 4_096, 1_000_000] {
        let mut chip = held(8);
        chip.program(address, 0x0280);
        let running = Operation {
            kind: 0,
            address,
            data: 0x0280,
            left: 28,
            toggle: true,
        };
        let suspended = held_sector(&chip);
        let beside = Device {
            running,
            suspended,
            ..FRESH
        };
        assert_eq!(chip.device, beside);
        // Its busy reads have no bit 2, and do not count for it.
        assert_eq!(chip.read(0, 2_053), 0x40);
        assert_eq!(chip.read(0, 2_053), 0x00);
        assert_eq!(chip.device, beside);
        // B0H and 30H do nothing while it runs.
        chip.write(2_053, 0xB0);
        chip.write(2_053, 0x30);
        assert_eq!(chip.device, beside);
        chip.idle(29);
        assert_eq!(chip.device, Device { suspended, ..FRESH });
        assert_eq!(chip.read(0, address), 0x0200);
        assert_eq!(chip.read(0, 2_053), 0xC4);
    }
}

#[test]
fn a_program_into_the_range_and_any_erase_is_ignored() {
    for number in 7..=10 {
        let mut chip = held(number);
        let before = chip.device;
        for address in [2_048, 2_053, 4_095] {
            chip.program(address, 0);
            assert_eq!(chip.device, before);
        }
        let (sector, block) = (chip.part.sector_code, chip.part.block_code);
        for address in [2_053, 2_047, 4_096, 900_000] {
            chip.erase(address, sector);
            assert_eq!(chip.device, before);
            chip.erase(address, block);
            assert_eq!(chip.device, before);
        }
        chip.erase(chip.part.unlock.u1, 0x10);
        assert_eq!(chip.device, before);
        // From identification it is ignored into read mode.
        chip.command(0x90);
        chip.program(2_053, 0);
        assert_eq!(chip.device, before);
        assert!(chip.cells.iter().all(|cell| *cell == 0x1234));
    }
}

#[test]
fn wp_rules_on_but_not_over_suspend_and_resume() {
    let mut chip = held(7);
    let before = chip.device;
    chip.wp_high = false;
    chip.program(4_096, 0);
    assert_eq!(chip.device, before);
    chip.program(32_768, 0);
    assert!(chip.busy());
    chip.idle(29);
    // The range is protected now, but that was sampled at the last write.
    chip.write(0, 0x30);
    assert!(chip.busy());
    chip.write(0, 0xB0);
    assert!(chip.suspended());
    chip.write(0, 0x30);
    chip.idle(35_900);
    assert_eq!(chip.cells[2_047..2_049], [0x1234, 0xFFFF]);
}

#[test]
fn resume_by_its_low_eight_bits_at_any_address() {
    for (address, data) in [(0, 0x30), (2_053, 0xFF30), (1_048_575, 0x1230)] {
        let mut chip = held(8);
        let running = held_sector(&chip);
        chip.write(address, data);
        assert_eq!(chip.device, Device { running, ..FRESH });
    }
}

#[test]
fn resume_ends_identification_mode() {
    let mut chip = held(9);
    chip.command(0x90);
    assert_eq!(chip.device.mode, Mode::Identification);
    chip.write(5, 0x30);
    assert_eq!((chip.device.mode, chip.busy()), (Mode::Read, true));
    assert_eq!(chip.read(0, 2_053), 0x44);
    assert_eq!(chip.read(17_900, 0), 0x1234 ^ 0xFF7F);
}

#[test]
fn a_30h_with_a_sequence_begun_does_not_resume() {
    for number in 7..=10 {
        let mut chip = held(number);
        let before = chip.device;
        let (u1, u2) = (chip.part.unlock.u1, chip.part.unlock.u2);
        let writes = [(u1, 0xAA), (u2, 0x55), (u1, 0x80), (u1, 0xAA), (u2, 0x55)];
        // It breaks the sequence, and after the fifth write it is the code of a
        // sector (7, 8) or block (9, 10), which is ignored.
        for count in 1..=5 {
            for (address, data) in &writes[..count] {
                chip.write(*address, *data);
            }
            assert!(chip.device.stage > 0);
            chip.write(9_000, 0x30);
            assert_eq!(chip.device, before);
        }
        // Armed, it is data.
        chip.program(2_053, 0x30);
        assert_eq!(chip.device, before);
        chip.program(9_000, 0x30);
        let running = chip.device.running;
        assert_eq!((running.kind, running.data), (0, 0x30));
        assert!(chip.suspended());
    }
}

#[test]
fn a_30h_with_nothing_suspended_is_a_stray_write() {
    for number in 0..=10 {
        let mut chip = Chip::blank(number);
        chip.write(5, 0x30);
        assert_eq!(chip.device, FRESH);
        chip.command(0x90);
        chip.write(5, 0x30);
        assert_eq!(chip.device, FRESH);
        chip.command(0x90);
        chip.write(5, 0xB0);
        assert_eq!(chip.device, FRESH);
    }
}

#[test]
fn other_writes_return_to_read_mode_and_stay_suspended() {
    let mut chip = held(10);
    let before = chip.device;
    for data in [0xB0, 0xF0, 0x31, 0x00, 0x10, 0x50] {
        chip.write(2_053, data);
        assert_eq!(chip.device, before);
        chip.command(0x90);
        chip.write(2_053, data);
        assert_eq!(chip.device, before);
        chip.unlock();
        chip.write(2_053, data);
        assert_eq!(chip.device, before);
    }
}

#[test]
fn the_word_after_bit_7_in_the_suspended_range() {
    let mut chip = held(7);
    chip.program(4_096, 0);
    assert_eq!(chip.read(28, 2_053), 0xFFBB);
    assert_eq!(chip.read(0, 2_053), 0xFFBF);
    assert_eq!(chip.read(0, 2_047), 0xED4B);
    assert_eq!(chip.read(0, 4_095), 0xFFBB);
    chip.unlock();
    assert_eq!(chip.read(0, 2_053), 0xFFBF);
    assert_eq!(chip.read(1, 2_053), 0x00C4);
    assert_eq!(chip.read(0, 2_053), 0x00C0);
}

#[test]
fn a_program_that_completes_in_the_resuming_cycle() {
    for elapsed in [28, 29] {
        let mut chip = held(7);
        chip.program(4_096, 0x1200);
        chip.write_after(elapsed, 0, 0x30);
        let running = held_sector(&chip);
        assert_eq!(chip.device, Device { running, ..FRESH });
        assert_eq!(chip.cells[4_096], 0x1200);
    }
    let mut chip = held(7);
    chip.program(4_096, 0x1200);
    chip.write_after(27, 0, 0x30);
    assert_eq!(chip.device.running.left, 1);
    assert!(chip.suspended());
}

#[test]
fn a_start_and_a_resume_end_a_completion_0_us_old() {
    let mut chip = held(7);
    chip.program(4_096, 0);
    chip.idle(28);
    assert_eq!(chip.device.recent, 1);
    chip.write(0, 0x30);
    assert_eq!(chip.device.recent, 0);
    chip.write(0, 0xB0);
    assert_eq!(chip.read(0, 2_053), 0x00C4);
    assert_eq!(chip.read(0, 2_047), 0x1234);
    // And an erase started and suspended at once after a completion.
    let mut chip = Chip::blank(7);
    chip.program(4_096, 0);
    chip.idle(28);
    chip.erase(2_053, 0x30);
    chip.write(0, 0xB0);
    assert_eq!(chip.read(0, 2_053), 0x00C4);
    assert_eq!(chip.read(0, 4_096), 0);
}

#[test]
fn a_cut_while_suspended_scars_the_range() {
    for elapsed in [0, 1, u32::MAX] {
        let mut chip = held(9);
        chip.cut(elapsed, 0x00FF);
        assert_eq!(chip.cells[2_047..2_049], [0x1234, 0x12FF]);
        assert_eq!(chip.cells[4_095..4_097], [0x12FF, 0x1234]);
        assert_eq!(chip.read(0, 2_048), 0x12FF);
    }
    // Out of identification and a sequence too, and of a block.
    let mut chip = Chip::blank(8);
    chip.cells.fill(0x1234);
    chip.erase(40_000, 0x50);
    chip.write(0, 0xB0);
    chip.command(0x90);
    chip.unlock();
    chip.cut(0, 0x8000);
    assert_eq!(chip.cells[32_767..32_769], [0x1234, 0x9234]);
    assert_eq!(chip.cells[65_535..65_537], [0x9234, 0x1234]);
}

#[test]
fn a_cut_lets_time_pass_first() {
    for (elapsed, left_behind) in [(27, 0x1030), (28, 0x0030), (29, 0x0030)] {
        let mut chip = held(7);
        chip.program(4_096, 0x00F0);
        chip.cut(elapsed, 0x1000);
        assert_eq!(chip.cells[4_096], left_behind);
        assert_eq!(chip.cells[2_048], 0x1234);
        let mut chip = held(7);
        chip.program(4_096, 0x00F0);
        chip.cut(elapsed, 0x0001);
        assert_eq!(chip.cells[2_047..2_049], [0x1234, 0x1235]);
    }
    // A running erase that was suspended before is cut as any other.
    let mut chip = held(7);
    chip.write(0, 0x30);
    chip.cut(35_899, 0x00FF);
    assert_eq!(chip.cells[4_095..4_097], [0x12FF, 0x1234]);
}

/// The answer of an idle cycle in this state, on cells that a refusal keeps.
fn answer(number: u32, device: Device) -> u32 {
    let given = Cycle {
        elapsed: 0,
        wp_high: true,
        action: Action::Idle,
    };
    let part = Part::get(number).unwrap();
    let mut cells = vec![0; part.cells as usize];
    let reply = cycle(number, &mut cells, device, given);
    assert_eq!(reply.device, device);
    reply.answer
}

/// A suspended sector of cells 2,048 to 4,095.
const SECTOR: Operation = Operation {
    kind: 1,
    address: 2_053,
    data: 0x30,
    left: 100,
    toggle: true,
};

/// The answer with this erase suspended and nothing running.
fn answer_suspended(number: u32, suspended: Operation) -> u32 {
    answer(number, Device { suspended, ..FRESH })
}

#[test]
fn refusal_5_by_what_is_suspended() {
    for number in 7..=10 {
        let part = Part::get(number).unwrap();
        for (kind, wanted) in [(0, 5), (1, 0), (2, 0), (3, 5), (4, 5), (255, 5)] {
            let left = 1;
            let erase = Operation {
                kind,
                left,
                ..SECTOR
            };
            assert_eq!(answer_suspended(number, erase), wanted);
        }
        let time = part.erase_time;
        for (left, wanted) in [(1, 0), (time, 0), (time + 1, 5), (u32::MAX, 5)] {
            let erase = Operation { left, ..SECTOR };
            assert_eq!(answer_suspended(number, erase), wanted);
        }
        for (address, wanted) in [(0, 0), (part.cells - 1, 0), (part.cells, 5), (u32::MAX, 5)] {
            let erase = Operation { address, ..SECTOR };
            assert_eq!(answer_suspended(number, erase), wanted);
        }
        for toggle in [false, true] {
            let data = 0xFFFF;
            let erase = Operation {
                data,
                toggle,
                ..SECTOR
            };
            assert_eq!(answer_suspended(number, erase), 0);
        }
    }
    for number in 0..=6 {
        assert_eq!(answer_suspended(number, SECTOR), 5);
        // With no time left it is stray, and no ground.
        let left = 0;
        let stray = Operation {
            kind: 200,
            address: u32::MAX,
            data: 0xFFFF,
            left,
            toggle: true,
        };
        assert_eq!(answer_suspended(number, stray), 0);
    }
}

#[test]
fn refusal_5_by_what_runs_beside_it() {
    let beside = |kind: u32, address: u32| Device {
        running: Operation {
            kind,
            address,
            data: 0,
            left: 1,
            toggle: false,
        },
        suspended: SECTOR,
        ..FRESH
    };
    for number in [7, 10] {
        for (address, wanted) in [(2_047, 0), (2_048, 5), (4_095, 5), (4_096, 0)] {
            assert_eq!(answer(number, beside(0, address)), wanted);
        }
        for kind in 1..=4 {
            assert_eq!(answer(number, beside(kind, 40_000)), 5);
        }
        let program = beside(0, 40_000);
        let mode = Mode::Identification;
        assert_eq!(answer(number, Device { mode, ..program }), 5);
        let stage = 1;
        assert_eq!(answer(number, Device { stage, ..program }), 5);
        let recent = 1;
        assert_eq!(answer(number, Device { recent, ..program }), 5);
    }
}

#[test]
fn mode_stage_and_completion_are_as_at_rest_without_it() {
    for mode in [Mode::Read, Mode::Identification] {
        for (stage, recent, wanted) in [(0, 0, 0), (6, 1, 0), (7, 0, 5), (0, 2, 5)] {
            let device = Device {
                mode,
                stage,
                recent,
                suspended: SECTOR,
                ..FRESH
            };
            assert_eq!(answer(8, device), wanted);
        }
    }
}

#[test]
fn refusal_5_by_what_bit_2_shows_next() {
    for number in 0..=10 {
        for (turned, wanted) in [(0, 0), (1, 0), (2, 5), (u32::MAX, 5)] {
            assert_eq!(answer(number, Device { turned, ..FRESH }), wanted);
            let running = Operation { left: 1, ..NONE };
            let busy = Device {
                running,
                turned,
                ..FRESH
            };
            assert_eq!(answer(number, busy), wanted);
        }
    }
}

#[test]
fn a_refused_cycle_changes_nothing_that_is_suspended() {
    let mut chip = held(7);
    let before = chip.device;
    let address = chip.part.cells;
    let data = 0x30;
    for action in [Action::Read { address }, Action::Write { address, data }] {
        let reply = chip.cycle(5, action);
        assert_eq!((reply.answer, reply.device), (3, before));
    }
}

#[test]
fn what_a_completion_does_to_given_fields() {
    // A program beside it that completes: bit 2 begins anew.
    let mut chip = Chip::blank(7);
    let suspended = Operation {
        toggle: false,
        ..SECTOR
    };
    chip.device = Device {
        running: Operation {
            address: 9_000,
            left: 5,
            ..NONE
        },
        turned: 1,
        suspended,
        ..FRESH
    };
    chip.read(4, 2_053);
    assert_eq!(chip.device.turned, 1);
    chip.idle(1);
    let recent = 1;
    let wanted = Device {
        recent,
        suspended,
        ..FRESH
    };
    assert_eq!(chip.device, wanted);
    // The resume makes bit 6 begin at 1.
    chip.write(0, 0x30);
    let running = SECTOR;
    assert_eq!(chip.device, Device { running, ..FRESH });
}

#[test]
fn stray_suspended_fields_are_passed_through() {
    let stray = Operation {
        kind: 9,
        address: u32::MAX,
        data: 0x1234,
        left: 0,
        toggle: true,
    };
    for number in [0, 3, 7] {
        let mut chip = Chip::blank(number);
        chip.device.suspended = stray;
        chip.device.turned = 1;
        assert_eq!(chip.read(0, 2_053), chip.part.blank());
        chip.write(5, 0x30);
        assert_eq!(chip.device.turned, 1);
        chip.program(5, 0);
        assert_eq!((chip.busy(), chip.device.turned), (true, 0));
        chip.idle(100);
        chip.erase(2_053, 0x30);
        assert_eq!(chip.device.suspended, stray);
        let running = chip.device.running;
        chip.write(5, 0xB0);
        let wanted = if number == 7 { running } else { stray };
        assert_eq!(chip.device.suspended, wanted);
        chip.cut(0, 0);
    }
}

/// Steps a driver of a sector erase at 2,053 on part 9 with p 1,000, until it
/// ends, with these codes written after its third poll: its answer and polls.
fn driven(codes: &[u16]) -> (u32, u32) {
    let mut chip = Chip::blank(9);
    chip.cells.fill(0);
    let (_, mut driver) = start(9, 1, 2_053, 0, 1_000);
    let mut read = 0;
    loop {
        let next = step(driver, read);
        driver = next.driver;
        match next.named {
            Named::Nothing => return (next.answer, next.polls),
            Named::Write { address, data } => chip.write(address, data),
            Named::Read { elapsed, address } => read = chip.read(elapsed, address),
        }
        if next.polls == 3 {
            for code in codes {
                chip.write(0, *code);
            }
        }
    }
}

#[test]
fn the_driver_looks_at_bit_7_alone() {
    assert_eq!(driven(&[]), (0, 18));
    assert_eq!(driven(&[0xB0, 0x30]), (0, 18));
    // A suspended range shows bit 7 as 1, and then the confirming read differs.
    assert_eq!(driven(&[0xB0]), (12, 4));
}
