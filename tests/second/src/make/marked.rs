//! The marked cases of document 01 as recorded cases, and beside them the
//! moment in which an operation completes, and an erase that is suspended.

use super::Maker;
use crate::part::Part;
use crate::station::op;

impl Maker {
    /// A new chip of a part with all cells alike.
    fn even_chip(&mut self, number: u64, value: u64) {
        let cells = Part::get(number as u32).expect("a known part").cells;
        self.send(&[op::CHIP, number, cells.into(), value, 0, 65_535]);
    }

    /// Writes with WP# at a level and no time between.
    fn writes(&mut self, wp: u64, list: &[(u64, u64)]) {
        for (address, data) in list {
            self.send(&[op::WRITE, 0, wp, *address, *data]);
        }
    }

    /// AAH at U1, 55H at U2 and a code at U1, by the plain addresses.
    fn third(&mut self, wp: u64, code: u64) {
        let (u1, u2) = (self.part().unlock.u1, self.part().unlock.u2);
        self.writes(
            wp,
            &[(u1.into(), 0xAA), (u2.into(), 0x55), (u1.into(), code)],
        );
    }

    fn program(&mut self, wp: u64, address: u64, data: u64) {
        self.third(wp, 0xA0);
        self.writes(wp, &[(address, data)]);
    }

    fn erase(&mut self, wp: u64, address: u64, code: u64) {
        let (u1, u2) = (self.part().unlock.u1, self.part().unlock.u2);
        self.third(wp, 0x80);
        self.writes(wp, &[(u1.into(), 0xAA), (u2.into(), 0x55), (address, code)]);
    }

    /// Case 1 on this part.
    fn case_1(&mut self, number: u64) {
        self.even_chip(number, 0);
        self.erase(1, 2_053, 0x50);
        self.send(&[op::IDLE, 36_000, 1]);
        for edge in [0, 2_048, 4_096, 32_768] {
            self.send(&[op::HASH, 0, edge]);
            self.send(&[op::CELL, edge]);
        }
        self.send(&[op::HASH, 0, 1_048_576]);
    }

    /// A program on a blank part, read as it completes, at once again, and 1 µs
    /// later.
    fn read_at_the_end(&mut self, number: u64, data: u64) {
        let part = Part::get(number as u32).expect("a known part");
        let (blank, time) = (part.blank().into(), part.program_time.into());
        self.even_chip(number, blank);
        self.program(1, 100, data);
        self.send(&[op::READ, time, 1, 100]);
        self.send(&[op::READ, 0, 1, 100]);
        self.send(&[op::READ, 1, 1, 100]);
    }

    /// Some reads with no time between.
    fn read_each(&mut self, addresses: &[u64]) {
        for address in addresses {
            self.send(&[op::READ, 0, 1, *address]);
        }
    }

    /// A chip of 1234H, and a sector erase at an address, suspended by B0H at 0
    /// after some µs.
    fn suspend_a_sector(&mut self, number: u64, address: u64, elapsed: u64) {
        self.even_chip(number, 0x1234);
        let code = self.part().sector_code.into();
        self.erase(1, address, code);
        self.send(&[op::WRITE, elapsed, 1, 0, 0xB0]);
    }

    /// Sector 2,048 to 4,095 suspended after 100 µs: reads in it and beside it,
    /// a program beside it, the resume, the end.
    fn held_to_fetch(&mut self, number: u64) {
        self.suspend_a_sector(number, 2_053, 100);
        self.read_each(&[2_048, 4_095, 2_047, 4_096, 2_053]);
        self.program(1, 4_096, 0x0F0F);
        self.read_each(&[4_096, 2_053]);
        let (time, erase) = (self.part().program_time, self.part().erase_time);
        self.send(&[op::IDLE, time.into(), 1]);
        self.send(&[op::READ, 1, 1, 4_096]);
        self.read_each(&[2_053]);
        self.send(&[op::WRITE, 50, 1, 0, 0x30]);
        self.read_each(&[2_053, 2_047, 2_053]);
        self.send(&[op::IDLE, u64::from(erase) - 101, 1]);
        self.send(&[op::READ, 1, 1, 2_053]);
        self.send(&[op::READ, 1, 1, 2_053]);
        self.read_each(&[2_047, 2_048, 4_095, 4_096]);
        self.send(&[op::HASH, 0, 8_192]);
    }

    /// A cut with scar 00FFH while sector 4,096 to 6,143 is suspended and a
    /// program of 3400H runs on the blank cell after it.
    fn cut_while_suspended(&mut self, number: u64) {
        self.suspend_a_sector(number, 5_000, 10);
        self.send(&[op::PATCH, 6_144, 0xFFFF]);
        self.program(1, 6_144, 0x3400);
        self.send(&[op::CUT, 5, 1, 0x00FF]);
        for edge in [4_095, 4_096, 6_143, 6_144, 6_145] {
            self.send(&[op::CELL, edge]);
        }
        self.read_each(&[4_096, 6_144]);
    }
}

/// The cases of parts 0 to 8.
pub fn make(maker: &mut Maker, _: u64) {
    maker.send(&[op::MARK, 1]);
    maker.case_1(7);

    maker.send(&[op::MARK, 2]);
    maker.even_chip(5, 0xFFFF);
    maker.send(&[op::PATCH, 100, 0x00F0]);
    maker.program(1, 100, 0x0F0F);
    maker.send(&[op::IDLE, 14, 1]);
    maker.send(&[op::READ, 1, 1, 100]);
    maker.send(&[op::CELL, 100]);

    maker.send(&[op::MARK, 3]);
    maker.program(1, 101, 0x1234);
    maker.send(&[op::READ, 13, 1, 101]);
    maker.send(&[op::IDLE, 1, 1]);
    maker.send(&[op::READ, 1, 1, 101]);
    maker.program(1, 102, 0x1234);
    maker.send(&[op::IDLE, 14, 1]);
    maker.send(&[op::READ, 1, 1, 102]);

    maker.send(&[op::MARK, 4]);
    maker.program(1, 103, 0);
    maker.send(&[op::READ, 0, 1, 103]);
    maker.send(&[op::READ, 0, 1, 103]);
    maker.send(&[op::IDLE, 14, 1]);
    maker.erase(1, 103, 0x30);
    maker.send(&[op::READ, 0, 1, 103]);
    maker.send(&[op::READ, 0, 1, 103]);
    maker.send(&[op::IDLE, 18_000, 1]);
    maker.send(&[op::IDLE, 1, 1]);

    maker.send(&[op::MARK, 5]);
    maker.writes(
        1,
        &[
            (0x5555, 0xAA),
            (0x5555, 0xAA),
            (0x2AAA, 0x55),
            (0x5555, 0xA0),
            (104, 0),
        ],
    );
    maker.send(&[op::READ, 0, 1, 104]);

    maker.send(&[op::MARK, 8]);
    maker.send(&[op::PATCH, 100, 0x1234]);
    maker.erase(1, 100, 0x30);
    maker.send(&[op::CUT, 0, 1, 0x00FF]);
    maker.send(&[op::CELL, 100]);
    maker.program(1, 5_000, 0x1234);
    maker.send(&[op::CUT, 0, 1, 0x00FF]);
    maker.send(&[op::CELL, 5_000]);

    maker.send(&[op::MARK, 9]);
    maker.even_chip(3, 0xFF);
    maker.third(1, 0x90);
    maker.send(&[op::READ, 0, 1, 0]);
    maker.send(&[op::READ, 0, 1, 1]);

    maker.send(&[op::MARK, 7]);
    maker.even_chip(0, 0xFFFF);
    maker.program(0, 4_095, 0);
    maker.program(0, 4_096, 0);

    maker.send(&[op::MARK, 10]);
    maker.even_chip(0, 0xFFFF);
    maker.send(&[op::IMAGE, 2_048, 0xFFFF, 0, 0xFFFF]);
    maker.send(&[op::IMAGE_PATCH, 5, 0x1234]);
    maker.send(&[op::LOAD, 0, 1, 10]);
    maker.send(&[op::HASH, 0, 8_192]);

    maker.send(&[op::MARK, 11]);
    maker.send(&[op::IMAGE_PATCH, 5, 0x1235]);
    maker.send(&[op::LOAD, 0, 1, 10]);
    maker.send(&[op::HASH, 0, 8_192]);

    maker.send(&[op::MARK, 12]);
    maker.read_at_the_end(5, 0x1234);
    maker.send(&[op::MARK, 13]);
    maker.read_at_the_end(3, 0x34);

    maker.send(&[op::MARK, 14]);
    maker.held_to_fetch(7);
    maker.send(&[op::MARK, 15]);
    maker.cut_while_suspended(7);
}

/// The cases of part 9.
pub fn make_large(maker: &mut Maker, _: u64) {
    maker.send(&[op::MARK, 1]);
    maker.case_1(9);

    maker.send(&[op::MARK, 6]);
    maker.writes(1, &[(0x5555, 0xAA), (0x2AAA, 0x55), (0x5555, 0x90)]);
    maker.send(&[op::READ, 0, 1, 0]);
    maker.send(&[op::READ, 0, 1, 1]);

    maker.send(&[op::MARK, 14]);
    maker.held_to_fetch(9);
    maker.send(&[op::MARK, 15]);
    maker.cut_while_suspended(9);
}
