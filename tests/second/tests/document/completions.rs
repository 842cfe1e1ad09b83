//! The word that comes a microsecond after bit 7: document 02's first wish.

use crate::chip::{Chip, FRESH, NONE};
use second::cycle::{cycle, Action, Cycle, Device, Mode, Operation};
use second::driver::{start, step, Named};
use second::part::Kind;

/// The fresh device, with a completion 0 µs old.
const RECENT: Device = Device { recent: 1, ..FRESH };

/// A blank chip on which a program of 0 at this address has just ended.
fn just_programmed(number: u32, address: u32) -> Chip {
    let mut chip = Chip::blank(number);
    chip.program(address, 0);
    chip.idle(chip.part.program_time);
    assert_eq!(chip.device, RECENT);
    chip
}

/// Bits 0 to 6, and on sixteen-bit parts 8 to 15.
fn all_but_7(chip: &Chip) -> u16 {
    if chip.part.width == 8 {
        0x7F
    } else {
        0xFF7F
    }
}

#[test]
fn the_figures_on_parts_5_and_3() {
    for (number, data, shown) in [(5, 0x1234, 0xED4B), (3, 0x34, 0x4B)] {
        let mut chip = Chip::blank(number);
        chip.program(100, data);
        assert_eq!(chip.read(14, 100), shown);
        assert_eq!(chip.cells[100], data);
        assert_eq!(chip.read(0, 100), shown);
        assert_eq!(chip.read(1, 100), data);
        assert_eq!(chip.read(0, 100), data);
    }
}

#[test]
fn every_operation_of_every_part() {
    for number in 0..=8 {
        let mut chip = Chip::blank(number);
        let (sector, block) = (chip.part.sector_code, chip.part.block_code);
        let u1 = chip.part.unlock.u1;
        for (kind, address, code) in [
            (Kind::Sector, 5_000, sector),
            (Kind::Block, 5_000, block),
            (Kind::Chip, u1, 0x10),
        ] {
            if !chip.part.knows(kind) {
                continue;
            }
            chip.cells.fill(0);
            chip.erase(address, code);
            let shown = chip.read(chip.part.time(kind), address);
            assert_eq!(shown, 0x80);
            assert_eq!(chip.read(1, address), chip.part.blank());
        }
        chip.program(7, 0xA5);
        let shown = chip.read(chip.part.program_time, 7);
        assert_eq!(shown, 0xA5 ^ all_but_7(&chip));
        assert_eq!(shown & 0x80, 0x80);
    }
}

#[test]
fn only_a_time_equal_to_the_time_left_shows_it() {
    for (elapsed, shown) in [(13, 0x00C0), (14, 0xFF7F), (15, 0), (u32::MAX, 0)] {
        let mut chip = Chip::blank(0);
        chip.program(9, 0);
        assert_eq!(chip.read(elapsed, 9), shown);
    }
    let mut chip = Chip::blank(0);
    chip.program(9, 0);
    chip.idle(15);
    assert_eq!(chip.device, FRESH);
    assert_eq!(chip.read(0, 9), 0);
}

#[test]
fn every_read_at_rest_shows_it_at_any_address() {
    for number in [0, 2, 6] {
        let mut chip = just_programmed(number, 9);
        let (inverted, blank) = (all_but_7(&chip), chip.part.blank());
        chip.cells[10] = 0x12F3;
        assert_eq!(chip.read(0, 9), inverted);
        assert_eq!(chip.read(0, 8), 0x80);
        assert_eq!(chip.read(0, 10), (0x12F3 & blank) ^ inverted);
        assert_eq!(chip.device, RECENT);
    }
}

#[test]
fn identification_shows_it_too() {
    for number in [0, 3, 7] {
        let mut chip = just_programmed(number, 9);
        let inverted = all_but_7(&chip);
        let device = chip.part.device;
        chip.unlock();
        assert_eq!(chip.read(0, 9), inverted);
        chip.write(chip.part.unlock.u1, 0x90);
        assert_eq!(chip.device.mode, Mode::Identification);
        assert_eq!(chip.read(0, 0), 0xBF ^ inverted);
        assert_eq!(chip.read(0, 1), device ^ inverted);
        assert_eq!(chip.read(0, 9), inverted);
        assert_eq!(chip.read(1, 0), 0xBF);
        assert_eq!(chip.read(0, 1), device);
        assert_eq!(chip.read(0, 9), 0);
    }
}

#[test]
fn cycles_without_time_keep_it() {
    let mut chip = just_programmed(0, 5_000);
    let u1 = chip.part.unlock.u1;
    chip.idle(0);
    chip.read(0, 1);
    // A write that breaks off, with no sequence begun and with one.
    chip.write(3, 0x33);
    chip.unlock();
    chip.write(3, 0x33);
    assert_eq!(chip.device, RECENT);
    // A sequence that goes on.
    chip.command(0x80);
    assert_eq!((chip.device.stage, chip.device.recent), (4, 1));
    chip.write(u1, 0xAA);
    assert_eq!((chip.device.stage, chip.device.recent), (5, 1));
    chip.write(u1, 0xAA);
    // Into identification and out of it by command.
    chip.command(0x90);
    chip.command(0xF0);
    assert_eq!(chip.device, RECENT);
    // Commands that protection ignores.
    chip.wp_high = false;
    chip.program(7, 0);
    chip.erase(7, chip.part.sector_code);
    chip.erase(u1, 0x10);
    assert_eq!(chip.device, RECENT);
    assert_eq!(chip.read(0, 5_000), 0xFF7F);
}

#[test]
fn a_completing_write_is_taken_as_before() {
    let mut chip = Chip::blank(0);
    let (address, data) = (chip.part.unlock.u1, 0xAA);
    chip.program(7, 0x1200);
    chip.cycle(14, Action::Write { address, data });
    assert_eq!((chip.device.stage, chip.device.recent), (1, 1));
    assert_eq!(chip.cells[7], 0x1200);
    chip.write(chip.part.unlock.u2, 0x55);
    chip.write(chip.part.unlock.u1, 0xA0);
    assert_eq!(chip.read(0, 7), 0xED7F);
    chip.write(8, 0);
    assert!(chip.busy());
}

#[test]
fn any_time_ends_it_in_any_cycle() {
    let address = 9;
    let write = Action::Write {
        address,
        data: 0x33,
    };
    for elapsed in [1, 2, u32::MAX] {
        for action in [Action::Idle, Action::Read { address }, write] {
            let mut chip = just_programmed(5, address);
            chip.cycle(elapsed, action);
            assert_eq!(chip.device, FRESH);
            assert_eq!(chip.read(0, address), 0);
        }
    }
}

#[test]
fn a_start_ends_it() {
    let mut chip = just_programmed(5, 9);
    chip.program(10, 0);
    assert_eq!((chip.busy(), chip.device.recent), (true, 0));
    assert_eq!(chip.read(0, 9), 0x00C0);
    chip.idle(14);
    chip.erase(9, 0x30);
    assert_eq!((chip.busy(), chip.device.recent), (true, 0));
    assert_eq!(chip.read(0, 9), 0x0040);
}

#[test]
fn a_cut_finds_the_operation_complete_and_leaves_the_fresh_device() {
    let mut chip = Chip::blank(5);
    chip.program(9, 0x1234);
    chip.cut(14, 0xFFFF);
    assert_eq!(chip.read(0, 9), 0x1234);
    let mut chip = just_programmed(5, 9);
    chip.cut(0, 0xFFFF);
    assert_eq!((chip.cells[9], chip.read(0, 9)), (0, 0));
    chip.cells.fill(0);
    chip.erase(9, 0x30);
    chip.cut(18_000, 0);
    assert_eq!(chip.read(0, 9), 0xFFFF);
}

#[test]
fn a_refused_cycle_keeps_it() {
    let mut chip = just_programmed(0, 9);
    let address = chip.part.cells;
    let reply = chip.cycle(1, Action::Read { address });
    assert_eq!((reply.answer, reply.device), (3, RECENT));
    assert_eq!(chip.read(0, 9), 0xFF7F);
}

/// The answer of an idle cycle in this state on a blank bench part.
fn answer(device: Device) -> u32 {
    let given = Cycle {
        elapsed: 1,
        wp_high: true,
        action: Action::Idle,
    };
    let reply = cycle(0, &mut [0xFFFF; 8_192], device, given);
    assert!(reply.answer == 0 || reply.device == device);
    reply.answer
}

#[test]
fn refusal_5_covers_it() {
    for left in [1, 14] {
        let running = Operation { left, ..NONE };
        assert_eq!(answer(Device { running, ..RECENT }), 5);
        assert_eq!(answer(Device { running, ..FRESH }), 0);
    }
    for mode in [Mode::Read, Mode::Identification] {
        for stage in 0..=7 {
            let rest = Device {
                mode,
                stage,
                ..RECENT
            };
            let wanted = if stage == 7 { 5 } else { 0 };
            assert_eq!(answer(rest), wanted);
        }
    }
    // A number above 1 is no state, whatever runs.
    for recent in [2, u32::MAX] {
        for left in [0, 14] {
            let given = Device {
                running: Operation { left, ..NONE },
                recent,
                ..FRESH
            };
            assert_eq!(answer(given), 5);
        }
    }
}

#[test]
fn the_driver_confirms_1_us_after_its_last_poll() {
    // Part 9, program, p 7: the first poll comes just as the program ends.
    let mut chip = Chip::blank(9);
    chip.program(1, 0x1234);
    let (_, mut driver) = start(9, 0, 1, 0x1234, 7);
    for _ in 0..4 {
        driver = step(driver, 0).driver;
    }
    let (elapsed, address) = (7, 1);
    let poll = step(driver, 0);
    assert_eq!(poll.named, Named::Read { elapsed, address });
    let read = chip.read(elapsed, address);
    assert_eq!(read, 0xED4B);
    let elapsed = 1;
    let confirm = step(poll.driver, read);
    assert_eq!(confirm.named, Named::Read { elapsed, address });
    assert_eq!(confirm.polls, 1);
    let end = step(confirm.driver, chip.read(elapsed, address));
    assert_eq!((end.answer, end.named), (0, Named::Nothing));
}
