//! Erases that are suspended: at times that matter, with reads, programs,
//! erases and stray writes meanwhile, resumes, cuts, given states and refusals.

use super::Maker;
use crate::cycle::{Device, Mode, Operation};
use crate::part::{Kind, Part};
use crate::station::op;

/// Makes so many cases on these parts in turn.
pub fn make(maker: &mut Maker, parts: &[u64], cases: u64) {
    let per_part = cases.div_ceil(parts.len() as u64);
    for case in 0..cases {
        if case % per_part == 0 {
            maker.new_chip(parts[(case / per_part) as usize]);
        }
        maker.send(&[op::MARK, case]);
        match maker.random.below(20) {
            0..=11 => maker.suspension(),
            12 => maker.nothing_to_suspend(),
            13..=14 => maker.given_suspension(),
            15..=16 => maker.given_program_beside(),
            _ => maker.bad_suspensions(),
        }
        maker.settle();
    }
}

impl Maker {
    /// The erase that is suspended, if one is.
    fn suspended(&self) -> Option<Operation> {
        let erase = self.station.device.suspended;
        (erase.left > 0).then_some(erase)
    }

    /// The first and the last cell of an operation's range.
    fn ends(&self, operation: &Operation) -> (u64, u64) {
        let kind = operation.known().expect("an operation under way");
        let range = self.part().range(kind, operation.address);
        (range.start.into(), u64::from(range.end) - 1)
    }

    /// An address in an operation's range, often at its edges.
    fn inside(&mut self, operation: &Operation) -> u64 {
        let (first, last) = self.ends(operation);
        let any = self.random.between(first, last);
        self.random
            .pick(&[first, last, any, any, operation.address.into()])
    }

    /// An address outside an operation's range, often just beside it or in the
    /// protected block.
    fn outside(&mut self, operation: &Operation) -> u64 {
        let (first, last) = self.ends(operation);
        let cells = self.cells();
        loop {
            let address = match self.random.below(5) {
                0 => (first + cells - 1) % cells,
                1 => (last + 1) % cells,
                2 => self.random.below(cells),
                _ => self.address(),
            };
            if !(first..=last).contains(&address) {
                return address;
            }
        }
    }

    /// An address for a read or a stray write: mostly around what is suspended
    /// or runs.
    fn around(&mut self) -> u64 {
        let device = self.station.device;
        let both = [device.suspended, device.running];
        let known: Vec<Operation> = both.into_iter().filter(|one| one.left > 0).collect();
        if known.is_empty() || self.random.percent(10) {
            return self.address();
        }
        let operation = self.random.pick(&known);
        if self.random.percent(70) || operation.known() == Some(Kind::Chip) {
            self.inside(&operation)
        } else {
            self.outside(&operation)
        }
    }

    /// Some reads in a row.
    fn reads(&mut self, most: u64) {
        for _ in 0..self.random.between(1, most) {
            let elapsed = self.random.weigh(&[(8, 0), (1, 1), (1, 3)]);
            let (wp, address) = (self.random.bit(), self.around());
            self.cycle(&[op::READ, elapsed, wp, address]);
        }
    }

    /// A write of a code, sometimes with a high byte.
    fn write_code(&mut self, elapsed: u64, wp: u64, address: u64, code: u64) {
        let data = self.code(code);
        self.cycle(&[op::WRITE, elapsed, wp, address, data]);
    }

    /// Brings the sequence to this stage by right writes, all at 0 µs.
    fn reach(&mut self, stage: u32, wp: u64) {
        let u1 = self.part().unlock.u1;
        let third = if stage == 3 { 0xA0 } else { 0x80 };
        for _ in 0..7 {
            let at = self.station.device.stage;
            if at == stage {
                return;
            }
            if at == 2 {
                let address = self.alias(u1);
                self.write_code(0, wp, address, third);
            } else {
                let (address, data) = self.right_write(at);
                self.cycle(&[op::WRITE, 0, wp, address, data]);
            }
        }
    }

    /// The six writes of a sector or block erase, mostly with WP# high.
    fn begin_erase(&mut self) {
        let part = self.part();
        let wp = u64::from(self.random.percent(85));
        let code = self.random.pick(&[part.sector_code, part.block_code]);
        self.reach(6, wp);
        let address = self.address();
        self.write_code(0, wp, address, code.into());
    }

    /// A given state with a sector or block erase running, and stray fields
    /// where nothing is suspended.
    fn given_erase(&mut self) {
        let state = Device {
            running: self.held(),
            turned: self.random.bit() as u32,
            suspended: self.stray(),
            ..Device::default()
        };
        self.send_state(&state);
    }

    /// B0H, mostly while the erase still runs, at any address and level.
    fn suspend(&mut self) {
        let left = u64::from(self.station.device.running.left);
        let elapsed = if left == 0 {
            self.elapsed()
        } else {
            let within = self.random.below(left);
            self.random.weigh(&[
                (8, 0),
                (3, 1.min(left - 1)),
                (10, within),
                (6, left - 1),
                (3, left),
                (2, left + 1),
            ])
        };
        let (wp, address) = (self.random.bit(), self.around());
        self.write_code(elapsed, wp, address, 0xB0);
    }

    /// An erase begun, read and suspended; what comes of it; and its end.
    fn suspension(&mut self) {
        for _ in 0..2 {
            if self.suspended().is_none() {
                if self.random.percent(80) {
                    self.begin_erase();
                } else {
                    self.given_erase();
                }
                self.reads(3);
                self.suspend();
            }
        }
        for _ in 0..self.random.between(2, 5) {
            self.meanwhile();
        }
        if self.random.percent(60) {
            self.resume();
        }
    }

    /// Something that is done while an erase is suspended.
    fn meanwhile(&mut self) {
        let Some(erase) = self.suspended() else {
            return self.walk(5);
        };
        match self.random.below(20) {
            0..=1 => self.reads(5),
            2..=3 => self.identification_meanwhile(),
            4..=7 => self.program_outside(&erase),
            8..=9 => self.program_inside(&erase),
            10..=11 => self.erase_meanwhile(&erase),
            12..=15 => self.resume_code_in_a_sequence(),
            16 => self.stray_write(),
            17 => {
                let stage = self.random.between(1, 6) as u32;
                self.reach(stage, 1);
                self.reads(3);
                let (elapsed, wp) = (self.random.long(), self.random.bit());
                if self.random.percent(70) {
                    self.cycle(&[op::IDLE, elapsed, wp]);
                } else {
                    let scar = self.random.word();
                    self.cycle(&[op::CUT, elapsed, wp, scar]);
                }
            }
            18 => self.refused_meanwhile(),
            _ => self.walk(6),
        }
    }

    /// A read or a write past the cells.
    fn refused_meanwhile(&mut self) {
        let (elapsed, wp) = (self.elapsed(), self.random.bit());
        let address = self.cells() + self.random.below(3);
        if self.random.percent(50) {
            self.cycle(&[op::READ, elapsed, wp, address]);
        } else {
            self.write_code(elapsed, wp, address, 0x30);
        }
        self.reads(2);
    }

    /// Identification entered, read in the suspended range too, and left.
    fn identification_meanwhile(&mut self) {
        let u1 = self.part().unlock.u1;
        let wp = self.random.bit();
        self.reach(2, wp);
        let address = self.alias(u1);
        self.write_code(0, wp, address, 0x90);
        for address in [0, 1] {
            self.cycle(&[op::READ, 0, wp, address]);
        }
        self.reads(4);
        let address = self.address();
        match self.random.below(6) {
            0..=1 => self.write_code(0, wp, address, 0x30),
            2 => self.write_code(0, wp, address, 0xF0),
            3 => self.reach(3, wp),
            4 => {
                let scar = self.random.word();
                self.cycle(&[op::CUT, 0, wp, scar]);
            }
            _ => {}
        }
        self.reads(3);
    }

    /// A program of any data at an address, over any cell.
    fn program_at(&mut self, address: u64, wp: u64) {
        self.reach(3, wp);
        if self.random.percent(70) {
            let old = self.random.word();
            self.send(&[op::PATCH, address, old]);
        }
        let data = self.data();
        self.cycle(&[op::WRITE, 0, wp, address, data]);
    }

    /// A program outside the suspended range, what is done while it runs, and
    /// its end.
    fn program_outside(&mut self, erase: &Operation) {
        let wp = u64::from(self.random.percent(60));
        if self.random.percent(50) {
            // So that bit 2 has turned before it begins anew.
            let address = self.inside(erase);
            self.cycle(&[op::READ, 0, wp, address]);
        }
        let address = self.outside(erase);
        self.program_at(address, wp);
        self.beside(erase);
    }

    /// What is done while a program runs beside a suspended erase, and its end.
    fn beside(&mut self, erase: &Operation) {
        for _ in 0..self.random.below(4) {
            let wp = self.random.bit();
            let left = u64::from(self.station.device.running.left);
            let elapsed = self.random.pick(&[0, 0, left / 2]);
            let address = self.around();
            match self.random.below(4) {
                0..=1 => self.cycle(&[op::READ, elapsed, wp, address]),
                2 => self.write_code(elapsed, wp, address, 0xB0),
                _ => self.write_code(elapsed, wp, address, 0x30),
            }
        }
        let left = u64::from(self.station.device.running.left);
        let wp = self.random.bit();
        let (inside, any) = (self.inside(erase), self.around());
        match self.random.below(9) {
            0..=1 => self.cycle(&[op::READ, left, wp, inside]),
            2 => self.cycle(&[op::IDLE, left, wp]),
            3 => self.write_code(left, wp, any, 0x30),
            4..=5 => {
                let within = self.elapsed();
                let elapsed = self.random.pick(&[0, left, left + 1, within]);
                let scar = self.random.word();
                self.cycle(&[op::CUT, elapsed, wp, scar]);
            }
            6 => self.cycle(&[op::READ, left + 1, wp, inside]),
            7 => self.cycle(&[op::READ, left, wp, any]),
            _ => {}
        }
        for _ in 0..self.random.below(4) {
            let address = self.inside(erase);
            self.cycle(&[op::READ, 0, wp, address]);
        }
        if self.random.percent(20) {
            self.write_code(0, wp, any, 0x30);
        }
    }

    /// A program into the suspended range.
    fn program_inside(&mut self, erase: &Operation) {
        let address = self.inside(erase);
        let wp = u64::from(self.random.percent(80));
        self.program_at(address, wp);
        self.cycle(&[op::READ, 0, wp, address]);
        let (first, last) = self.ends(erase);
        self.send(&[op::HASH, first, last + 1]);
    }

    /// An erase of any kind, inside the suspended range or outside.
    fn erase_meanwhile(&mut self, erase: &Operation) {
        let part = self.part();
        let wp = self.random.bit();
        self.reach(6, wp);
        let address = if self.random.percent(50) {
            self.inside(erase)
        } else {
            self.outside(erase)
        };
        let (address, code) = match self.random.below(3) {
            0 => (address, part.sector_code),
            1 => (address, part.block_code),
            _ => (self.alias(part.unlock.u1), 0x10),
        };
        self.write_code(0, wp, address, code.into());
        self.reads(2);
    }

    /// 30H with a sequence begun: broken, a program's data, or an erase's code.
    fn resume_code_in_a_sequence(&mut self) {
        let stage = self.random.between(1, 6) as u32;
        let wp = self.random.bit();
        self.reach(stage, wp);
        let address = self.around();
        self.write_code(0, wp, address, 0x30);
        self.reads(2);
    }

    /// B0H, F0H or another write that resumes nothing, at any stage.
    fn stray_write(&mut self) {
        let stage = self.random.pick(&[0, 0, 1, 2, 4, 5, 6]);
        let wp = self.random.bit();
        self.reach(stage, wp);
        let address = self.around();
        let code = self
            .random
            .pick(&[0xB0, 0xB0, 0xF0, 0xF0, 0x00, 0x31, 0x20]);
        self.write_code(0, wp, address, code);
        self.reads(2);
    }

    /// 30H with no sequence begun, and what comes of it: reads, the erase held
    /// once more, its end, a cut.
    fn resume(&mut self) {
        if self.station.device.stage > 0 {
            let address = self.address();
            self.write_code(0, 1, address, 0xF0);
            self.cycle(&[op::IDLE, 100, 1]);
        }
        let elapsed = self.elapsed();
        let (wp, address) = (self.random.bit(), self.around());
        self.write_code(elapsed, wp, address, 0x30);
        self.reads(4);
        let left = u64::from(self.station.device.running.left);
        let address = self.around();
        match self.random.below(6) {
            0..=1 => {
                self.suspend();
                self.meanwhile();
            }
            2 => self.cycle(&[op::READ, left, wp, address]),
            3 => self.cycle(&[op::READ, left.saturating_sub(1), wp, address]),
            4 => {
                let (elapsed, scar) = (self.elapsed(), self.random.word());
                self.cycle(&[op::CUT, elapsed, wp, scar]);
            }
            _ => {}
        }
    }

    /// B0H where no sector or block erase runs, and 30H where nothing is
    /// suspended.
    fn nothing_to_suspend(&mut self) {
        let u1 = self.part().unlock.u1;
        match self.random.below(4) {
            0..=1 => {
                self.reach(6, 1);
                let address = self.alias(u1);
                self.write_code(0, 1, address, 0x10);
            }
            2 => {
                let address = self.address();
                self.program_at(address, 1);
            }
            _ => {}
        }
        for _ in 0..3 {
            self.reads(2);
            let (wp, address) = (self.random.bit(), self.around());
            let code = self.random.pick(&[0xB0, 0xB0, 0x30]);
            self.write_code(0, wp, address, code);
        }
        if self.station.device.running.left == 0 {
            let stage = self.random.between(1, 6) as u32;
            self.reach(stage, 1);
            let (wp, address) = (self.random.bit(), self.address());
            self.write_code(0, wp, address, 0xB0);
        }
    }

    /// A sector or block erase that may be suspended.
    fn held(&mut self) -> Operation {
        let kind = self.random.pick(&[Kind::Sector, Kind::Block]);
        self.under_way(kind)
    }

    /// A given state with an erase suspended and nothing running, and what
    /// follows from it.
    fn given_suspension(&mut self) {
        let erase = self.held();
        let mut state = self.resting_state();
        state.suspended = erase;
        if self.random.percent(40) {
            state.stage = 0;
        }
        self.send_state(&state);
        self.reads(3);
        match self.random.below(4) {
            0 => self.meanwhile(),
            1 => {
                let (elapsed, scar) = (self.elapsed(), self.random.word());
                self.cycle(&[op::CUT, elapsed, 0, scar]);
            }
            _ => self.resume(),
        }
    }

    /// A program that could run beside this erase.
    fn program_beside(&mut self, erase: &Operation) -> Operation {
        Operation {
            address: self.outside(erase) as u32,
            ..self.under_way(Kind::Program)
        }
    }

    /// A given state with a program running beside a suspended erase, and what
    /// follows from it.
    fn given_program_beside(&mut self) {
        let erase = self.held();
        let running = self.program_beside(&erase);
        let state = Device {
            running,
            turned: self.random.bit() as u32,
            suspended: erase,
            ..Device::default()
        };
        self.send_state(&state);
        self.beside(&erase);
    }

    /// Cycles in which only the state is at fault, by what is suspended.
    fn bad_suspensions(&mut self) {
        for _ in 0..6 {
            let state = self.bad_suspension(self.part());
            self.send_state(&state);
            self.any_cycle();
        }
        self.send_state(&Device::default());
    }

    /// A state with an erase suspended that is out of range, mostly by one
    /// ground alone.
    fn bad_suspension(&mut self, part: &Part) -> Device {
        let erase = self.held();
        let mut state = Device {
            turned: self.random.bit() as u32,
            suspended: erase,
            ..Device::default()
        };
        if self.random.percent(50) {
            state.running = self.program_beside(&erase);
        }
        let far = self.random.long() as u32;
        let suspended = &mut state.suspended;
        match self.random.below(10) {
            0 => state.turned = self.random.pick(&[2, 3, 255]),
            1 => suspended.kind = self.random.pick(&[0, 3, 4, 255]),
            2 => suspended.left = self.random.pick(&[part.erase_time + 1, u32::MAX, far]),
            3 => suspended.address = self.random.pick(&[part.cells, part.cells + 1, u32::MAX]),
            4 => {
                let kind = self.random.pick(&[Kind::Sector, Kind::Block, Kind::Chip]);
                state.running = self.under_way(kind);
            }
            5..=6 => {
                state.running = self.under_way(Kind::Program);
                state.running.address = self.inside(&erase) as u32;
            }
            7 => {
                state.running = self.program_beside(&erase);
                match self.random.below(3) {
                    0 => state.mode = Mode::Identification,
                    1 => state.stage = self.random.between(1, 6) as u32,
                    _ => state.recent = 1,
                }
            }
            8 => state.stage = self.random.pick(&[7, 255]),
            _ => state.recent = self.random.pick(&[2, 255]),
        }
        state
    }
}
