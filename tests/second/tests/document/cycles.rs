//! Bus cycles: refusals and their order, and the points that the document
//! decides in few words.

use crate::chip::{Chip, FRESH, NONE};
use second::cycle::{cycle, Action, Cycle, Device, Mode, Operation};
use second::part::{Kind, Part};

const BAD_STAGE: Device = Device { stage: 7, ..FRESH };

/// A state with this operation running.
fn with(running: Operation) -> Device {
    Device { running, ..FRESH }
}

/// The answer of one cycle, which must change nothing if it is refused.
fn answer(number: u32, lent: usize, device: Device, action: Action) -> u32 {
    let mut cells = vec![0x1234; lent];
    let wp_high = true;
    let elapsed = u32::MAX;
    let given = Cycle {
        elapsed,
        wp_high,
        action,
    };
    let reply = cycle(number, &mut cells, device, given);
    if reply.answer != 0 {
        assert_eq!((reply.value, reply.device), (0, device));
        assert!(cells.iter().all(|cell| *cell == 0x1234));
    }
    reply.answer
}

#[test]
fn refusals_come_in_their_order() {
    let far_write = Action::Write {
        address: 131_072,
        data: 256,
    };
    let high_write = Action::Write {
        address: 131_071,
        data: 256,
    };
    let fresh = FRESH;
    assert_eq!(answer(11, 3, BAD_STAGE, far_write), 1);
    assert_eq!(answer(1, 131_071, BAD_STAGE, far_write), 2);
    assert_eq!(answer(1, 131_073, fresh, far_write), 2);
    assert_eq!(answer(1, 131_072, BAD_STAGE, far_write), 5);
    assert_eq!(answer(1, 131_072, fresh, far_write), 3);
    assert_eq!(answer(1, 131_072, fresh, high_write), 4);
    assert_eq!(
        answer(1, 131_072, fresh, Action::Read { address: 131_072 }),
        3
    );
    // Idle and cut have no address, and a scar is not refused.
    assert_eq!(answer(1, 131_072, fresh, Action::Idle), 0);
    assert_eq!(answer(1, 131_072, fresh, Action::Cut { scar: 0xFFFF }), 0);
    assert_eq!(answer(4, 131_072, fresh, high_write), 0);
}

#[test]
fn busy_or_not_does_not_matter_for_refusals() {
    let busy = with(Operation { left: 1, ..NONE });
    let write = |address, data| Action::Write { address, data };
    assert_eq!(answer(1, 131_072, busy, write(131_072, 0)), 3);
    assert_eq!(answer(1, 131_072, busy, write(0, 256)), 4);
}

#[test]
fn refusal_5_comes_exactly_then() {
    let busy = |kind: u32, left: u32| with(Operation { kind, left, ..NONE });
    let number = |number: u32| (number, Part::get(number).unwrap());
    for (number, part) in (0..=10).map(number) {
        let lent = part.cells as usize;
        // Only few chips at full length: the state decides before the cells.
        if lent > 600_000 {
            continue;
        }
        let test = |device| answer(number, lent, device, Action::Idle);
        for kind in 0..=3 {
            let known = Kind::ALL[kind as usize];
            let block_missing = known == Kind::Block && part.width == 8;
            let time = part.time(known);
            let good = if block_missing { 5 } else { 0 };
            assert_eq!(test(busy(kind, time)), good);
            assert_eq!(test(busy(kind, 1)), good);
            assert_eq!(test(busy(kind, time + 1)), 5);
        }
        assert_eq!(test(busy(4, 1)), 5);
        let nothing = Operation {
            kind: 200,
            address: u32::MAX,
            data: 0xFFFF,
            left: 0,
            toggle: true,
        };
        let stray = Device {
            mode: Mode::Identification,
            stage: 6,
            running: nothing,
            recent: 0,
            turned: 1,
            suspended: nothing,
        };
        assert_eq!(test(stray), 0);
        assert_eq!(test(Device { stage: 7, ..stray }), 5);
        let running = busy(1, 5);
        let sector = running.running;
        let address = part.cells - 1;
        assert_eq!(test(with(Operation { address, ..sector })), 0);
        let address = part.cells;
        assert_eq!(test(with(Operation { address, ..sector })), 5);
        let data = 256;
        let wide = if part.width == 8 { 5 } else { 0 };
        assert_eq!(test(with(Operation { data, ..sector })), wide);
        let mode = Mode::Identification;
        assert_eq!(test(Device { mode, ..running }), 5);
        let stage = 1;
        assert_eq!(test(Device { stage, ..running }), 5);
        let toggle = true;
        assert_eq!(test(with(Operation { toggle, ..sector })), 0);
    }
}

#[test]
fn surplus_time_is_dropped_and_the_cycle_then_acts() {
    let mut chip = Chip::blank(0);
    chip.program(7, 0x1200);
    chip.cycle(
        u32::MAX,
        Action::Write {
            address: 0x555,
            data: 0xAA,
        },
    );
    assert_eq!(chip.cells[7], 0x1200);
    assert_eq!(chip.device.stage, 1);
    assert!(!chip.busy());
}

#[test]
fn a_start_keeps_its_last_write_and_an_end_leaves_nothing() {
    let mut chip = Chip::blank(4);
    chip.erase(70_001, 0xAB30);
    let running = with(Operation {
        kind: 1,
        address: 70_001,
        data: 0xAB30,
        left: 18_000,
        toggle: true,
    });
    assert_eq!(chip.device, running);
    chip.write(0x5555, 0xAA);
    assert_eq!(chip.device, running);
    chip.idle(17_999);
    assert_eq!(chip.device.running.left, 1);
    chip.idle(1);
    let recent = 1;
    assert_eq!(chip.device, Device { recent, ..FRESH });
    chip.idle(1);
    assert_eq!(chip.device, FRESH);
}

#[test]
fn bit_6_begins_anew_with_each_start() {
    let mut chip = Chip::blank(0);
    chip.program(0, 0x80);
    assert_eq!(chip.read(0, 0), 0x40);
    chip.idle(14);
    chip.program(1, 0x80);
    assert_eq!(chip.read(0, 5), 0x40);
    assert_eq!(chip.read(0, 6), 0x00);
    assert_eq!(chip.read(13, 1), 0x40);
    assert_eq!(chip.read(2, 1), 0x80);
}

#[test]
fn reads_and_idles_do_not_disturb_a_sequence() {
    let mut chip = Chip::blank(9);
    chip.unlock();
    chip.read(u32::MAX, 3);
    chip.idle(u32::MAX);
    chip.write(0x555, 0xA0);
    chip.read(0, 3);
    chip.write(3, 0);
    assert!(chip.busy());
}

#[test]
fn identification_and_the_ways_out_of_it() {
    for number in 0..=10 {
        let mut chip = Chip::blank(number);
        let (u1, u2) = (chip.part.unlock.u1, chip.part.unlock.u2);
        chip.command(0x90);
        assert_eq!(chip.read(0, 0), 0xBF);
        assert_eq!(chip.read(0, 1), chip.part.device);
        assert_eq!(chip.read(0, 2_048), 0);
        // A sequence begun keeps the mode until it ends.
        chip.command(0x80);
        assert_eq!(chip.device.mode, Mode::Identification);
        assert_eq!(chip.read(0, 0), 0xBF);
        chip.write(u2, 0x55);
        assert_eq!(chip.device, FRESH);
        // The command F0H, a lone F0H, a start, a cut.
        chip.command(0x90);
        chip.command(0xF0);
        assert_eq!(chip.device.mode, Mode::Read);
        chip.command(0x90);
        chip.write(u2, 0xF0);
        assert_eq!(chip.device.mode, Mode::Read);
        chip.command(0x90);
        chip.program(9, 0);
        assert_eq!(chip.device.mode, Mode::Read);
        assert!(chip.busy());
        chip.idle(28);
        chip.command(0x90);
        chip.write(u1, 0xAA);
        chip.cut(0, 0);
        // Armed, F0H is data.
        chip.command(0xA0);
        chip.write(u1, 0xF0);
        let running = chip.device.running;
        assert_eq!((running.kind, running.data), (0, 0xF0));
        assert!(chip.busy());
    }
}

#[test]
fn an_ignored_command_leaves_stray_fields_alone() {
    let mut chip = Chip::blank(0);
    let nothing = Operation {
        kind: 9,
        address: 77,
        data: 88,
        left: 0,
        toggle: true,
    };
    chip.device = Device {
        mode: Mode::Identification,
        stage: 3,
        running: nothing,
        recent: 1,
        turned: 1,
        suspended: nothing,
    };
    let stray = chip.device;
    chip.wp_high = false;
    chip.write(0, 0);
    let wanted = Device {
        mode: Mode::Read,
        stage: 0,
        ..stray
    };
    assert_eq!(chip.device, wanted);
}

#[test]
fn protection_by_kind_and_sampled_at_the_last_write() {
    for number in [0, 7, 8, 9, 10] {
        let mut chip = Chip::blank(number);
        let block = chip.part.protected_block().unwrap();
        let (sector, whole) = (chip.part.sector_code, chip.part.block_code);
        let u1 = chip.part.unlock.u1;
        for (code, inside) in [
            (sector, block.start),
            (sector, block.end - 1),
            (whole, block.start + 9),
        ] {
            chip.wp_high = true;
            chip.command(0x80);
            chip.unlock();
            chip.wp_high = false;
            chip.write(inside, code);
            assert_eq!(chip.device, FRESH);
            chip.command(0x80);
            chip.unlock();
            chip.wp_high = true;
            chip.write(inside, code);
            assert!(chip.busy());
            chip.cut(0, 0xFFFF);
        }
        chip.wp_high = false;
        chip.erase(u1, 0x10);
        assert!(!chip.busy());
        let outside = if block.start == 0 {
            block.end
        } else {
            block.start - 1
        };
        chip.erase(outside, sector);
        assert!(chip.busy());
    }
    for number in 1..=6 {
        let mut chip = Chip::blank(number);
        chip.wp_high = false;
        chip.erase(0x5555, 0x10);
        assert!(chip.busy());
    }
}

#[test]
fn which_code_erases_what() {
    for number in 0..=10 {
        let mut chip = Chip::blank(number);
        let u1 = chip.part.unlock.u1;
        let kinds = match number {
            1..=3 => [Some(1), None],
            9 | 10 => [Some(2), Some(1)],
            _ => [Some(1), Some(2)],
        };
        for (code, kind) in [0x30, 0x50].into_iter().zip(kinds) {
            for address in [u1, 5_000] {
                chip.erase(address, code);
                assert_eq!(chip.busy().then_some(chip.device.running.kind), kind);
                chip.cut(0, 0xFFFF);
            }
        }
        chip.erase(u1 ^ 1, 0x10);
        assert!(!chip.busy());
        chip.erase(u1, 0x10);
        assert_eq!((chip.busy(), chip.device.running.kind), (true, 3));
    }
}

#[test]
fn cuts_at_and_before_the_end() {
    let mut chip = Chip::blank(0);
    chip.cells[5] = 0xF0F0;
    chip.program(5, 0x1234);
    chip.cut(14, 0xFFFF);
    assert_eq!(chip.cells[5], 0x1030);
    chip.cells[6] = 0xF0F0;
    chip.program(6, 0x1234);
    chip.cut(13, 0x8000);
    assert_eq!(chip.cells[6], 0xF0F0 & 0x9234);
    chip.cells.fill(1);
    chip.erase(0x555, 0x10);
    chip.cut(69_999, 0x0100);
    assert!(chip.cells.iter().all(|cell| *cell == 0x0101));
    chip.erase(0x555, 0x10);
    chip.cut(70_000, 0);
    assert!(chip.cells.iter().all(|cell| *cell == 0xFFFF));
}

#[test]
fn eight_bit_cells_above_255() {
    let mut chip = Chip::blank(2);
    chip.cells[4_000..4_100].fill(0x12F3);
    assert_eq!(chip.read(0, 4_000), 0xF3);
    chip.program(4_000, 0x3F);
    assert_eq!(chip.read(15, 4_000), 0x33);
    assert_eq!(chip.cells[4_000], 0x33);
    chip.program(4_001, 0x30);
    chip.cut(13, 0xFF01);
    assert_eq!(chip.cells[4_001], 0x31);
    chip.erase(0, 0x30);
    chip.cut(0, 0xFF04);
    assert_eq!(chip.cells[4_095..4_097], [0xF7, 0x12F3]);
    chip.erase(4_096, 0x30);
    chip.idle(18_000);
    assert_eq!(chip.cells[4_095..4_097], [0xF7, 0xFF]);
}
