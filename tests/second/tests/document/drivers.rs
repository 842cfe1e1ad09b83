//! The driver: refusals and their order, states, and its way to its ends.

use crate::chip::Chip;
use second::cycle::Action;
use second::driver::{kth_write, start, step, writes, Driver, Named};
use second::part::{Kind, Part};

#[test]
fn refusals_come_in_their_order() {
    assert_eq!(start(11, 4, u32::MAX, 256, 0).0, 1);
    assert_eq!(start(1, 4, u32::MAX, 256, 0).0, 10);
    assert_eq!(start(1, 4, u32::MAX, 256, 1_001).0, 10);
    assert_eq!(start(1, 4, u32::MAX, 256, 1_000).0, 14);
    assert_eq!(start(1, 2, u32::MAX, 256, 1).0, 14);
    assert_eq!(start(1, 0, 131_072, 256, 1).0, 3);
    assert_eq!(start(1, 0, 131_071, 256, 1).0, 4);
    assert_eq!(start(1, 0, 131_071, 255, 1).0, 0);
    assert_eq!(start(1, 1, 131_072, 256, 1).0, 3);
    assert_eq!(start(1, 1, 131_071, 256, 1).0, 0);
    assert_eq!(start(1, 3, u32::MAX, 256, 1).0, 0);
    assert_eq!(writes(11, 4, u32::MAX, 256).answer, 1);
    assert_eq!(writes(3, 2, u32::MAX, 256).answer, 14);
    assert_eq!(writes(3, 0, 524_288, 256).answer, 3);
    assert_eq!(writes(3, 0, 0, 256).answer, 4);
    assert_eq!(kth_write(11, 4, u32::MAX, 256, 9), (1, 0, 0));
    assert_eq!(kth_write(3, 4, u32::MAX, 256, 9), (14, 0, 0));
    assert_eq!(kth_write(3, 0, u32::MAX, 256, 9), (3, 0, 0));
    assert_eq!(kth_write(3, 0, 0, 256, 9), (4, 0, 0));
    assert_eq!(kth_write(3, 0, 0, 255, 4), (15, 0, 0));
    assert_eq!(kth_write(3, 0, 0, 255, 3), (0, 0, 255));
    assert_eq!(kth_write(3, 3, 9, 0, 6), (15, 0, 0));
    assert_eq!(kth_write(3, 3, 9, 0, 5), (0, 0x5555, 0x10));
}

#[test]
fn a_refused_start_hands_back_a_state_that_a_step_refuses() {
    let (answer, driver) = start(0, 0, 8_192, 0, 10);
    assert_eq!((answer, driver), (3, Driver::default()));
    let refused = step(driver, 0);
    assert_eq!(refused.answer, 5);
    assert_eq!(refused.driver, driver);
    assert_eq!((refused.named, refused.polls), (Named::Nothing, 0));
}

#[test]
fn writes_by_value_with_their_number() {
    let program = writes(9, 0, 4_000_000, 0xBEEF);
    assert_eq!((program.answer, program.count), (0, 4));
    let list = [
        (0x555, 0xAA),
        (0x2AA, 0x55),
        (0x555, 0xA0),
        (4_000_000, 0xBEEF),
        (0, 0),
        (0, 0),
    ];
    assert_eq!(program.list, list);
    let last = |part, command| writes(part, command, 5_000, 1).list[5];
    assert_eq!(last(9, 1), (5_000, 0x50));
    assert_eq!(last(9, 2), (5_000, 0x30));
    assert_eq!(last(9, 3), (0x555, 0x10));
    assert_eq!(last(0, 1), (5_000, 0x30));
    assert_eq!(last(8, 2), (5_000, 0x50));
    assert_eq!(last(8, 3), (0x5555, 0x10));
    assert_eq!(writes(8, 1, 5_000, 1).list[2], (0x5555, 0x80));
}

#[test]
fn what_a_command_ignores_is_stored_as_zero() {
    let (_, chip) = start(5, 3, u32::MAX, 0xFFFF, 10);
    assert_eq!((chip.address, chip.data), (0, 0));
    let (_, sector) = start(5, 1, 77, 0xFFFF, 10);
    assert_eq!((sector.address, sector.data), (77, 0));
    // A given state with other values there is valid.
    let given = Driver {
        address: u32::MAX,
        data: 0xFFFF,
        phase: 1,
        ..chip
    };
    let poll = step(given, 0);
    let named = Named::Read {
        elapsed: 10,
        address: 0,
    };
    assert_eq!((poll.answer, poll.named), (0, named));
}

/// Runs a command on a chip and tells its ending, its polls and its cycles.
fn run(chip: &mut Chip, kind: Kind, address: u32, data: u16, p: u32) -> (u32, u32, u32) {
    let (answer, mut driver) = start(chip.number, kind.number(), address, data, p);
    assert_eq!(answer, 0);
    let (mut read, mut cycles) = (0xFFFF, 0);
    loop {
        let next = step(driver, read);
        driver = next.driver;
        let reply = match next.named {
            Named::Nothing => {
                assert_eq!(step(driver, read ^ 0x80), next);
                return (next.answer, next.polls, cycles);
            }
            Named::Read { elapsed, address } => chip.cycle(elapsed, Action::Read { address }),
            Named::Write { address, data } => chip.cycle(0, Action::Write { address, data }),
        };
        assert_eq!(reply.answer, 0);
        read = reply.value;
        cycles += 1;
    }
}

#[test]
fn on_the_model_the_match_is_at_poll_n() {
    for number in [0, 1, 6, 7] {
        let mut chip = Chip::blank(number);
        let part = chip.part;
        for kind in Kind::ALL {
            if !part.knows(kind) {
                continue;
            }
            for p in [1, 3, 7, 13, 14, 15, 28, 999, 1_000] {
                let n = part.polls(kind, p);
                let writes = if kind == Kind::Program { 4 } else { 6 };
                chip.cells[5_000] = part.blank();
                let ended = run(&mut chip, kind, 5_000, 0x5A, p);
                assert_eq!(ended, (0, n, writes + n + 1));
                let left = if kind == Kind::Program {
                    0x5A
                } else {
                    part.blank()
                };
                assert_eq!(chip.cells[5_000], left);
            }
        }
    }
}

#[test]
fn on_a_protected_cell_it_gives_up_or_differs() {
    let mut chip = Chip::blank(0);
    chip.wp_high = false;
    // Bit 7 of the blank cell never shows the data's 0.
    assert_eq!(run(&mut chip, Kind::Program, 9, 0, 5), (11, 6, 10));
    // It shows a 1 at the first poll, but the value is another.
    assert_eq!(run(&mut chip, Kind::Program, 9, 0x80, 5), (12, 1, 6));
    // The value is there already.
    assert_eq!(run(&mut chip, Kind::Program, 9, 0xFFFF, 5), (0, 1, 6));
    chip.cells[0] = 0;
    assert_eq!(run(&mut chip, Kind::Chip, 9, 0, 1_000), (11, 140, 146));
}

#[test]
fn the_last_poll_may_still_match() {
    // Part 9, program, p 5: N is 2, so four polls.
    let (_, mut driver) = start(9, 0, 1, 0x80, 5);
    for _ in 0..4 {
        driver = step(driver, 0x80).driver;
    }
    assert_eq!((driver.phase, driver.count), (1, 0));
    for polls in 1..=4 {
        let next = step(driver, 0);
        assert_eq!((next.polls, next.driver.phase), (polls, 1));
        driver = next.driver;
    }
    let matched = step(driver, 0x80);
    let named = Named::Read {
        elapsed: 1,
        address: 1,
    };
    assert_eq!((matched.named, matched.polls), (named, 4));
    let given_up = step(driver, 0);
    assert_eq!((given_up.answer, given_up.polls), (11, 4));
    assert_eq!(given_up.driver.phase, 4);
    assert_eq!(step(matched.driver, 0x80).answer, 0);
    assert_eq!(step(matched.driver, 0x81).answer, 12);
}

#[test]
fn eight_bit_replies_by_their_low_byte() {
    let confirming = Driver {
        part: 1,
        command: 0,
        address: 0,
        data: 0x12,
        p: 10,
        phase: 2,
        count: 1,
    };
    assert_eq!(step(confirming, 0xFF12).driver.phase, 3);
    let erase = Driver {
        command: 1,
        data: 0,
        ..confirming
    };
    assert_eq!(step(erase, 0x00FF).driver.phase, 3);
    assert_eq!(step(Driver { part: 4, ..erase }, 0x00FF).driver.phase, 5);
}

#[test]
fn driver_states_in_range() {
    for number in 0..=10 {
        let part = Part::get(number).unwrap();
        for (command, kind) in (0..).zip(Kind::ALL) {
            let most = 2 * part.polls(kind, 100);
            let writes = if command == 0 { 4 } else { 6 };
            for phase in 0..=6 {
                for count in [0, 1, 3, 4, 5, 6, most - 1, most, most + 1, u32::MAX] {
                    let given = Driver {
                        part: number,
                        command,
                        address: 5,
                        data: 5,
                        p: 100,
                        phase,
                        count,
                    };
                    let good = part.knows(kind)
                        && match phase {
                            0 => count < writes,
                            1 => count <= most,
                            2 | 3 | 5 => count >= 1 && count <= most,
                            4 => count == most,
                            _ => false,
                        };
                    assert_eq!(step(given, 0).answer != 5, good, "{given:?}");
                }
            }
        }
    }
}
