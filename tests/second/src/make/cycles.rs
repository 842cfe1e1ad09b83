//! Bus cycles: right and broken sequences, times at the edges, the moment of
//! a completion, B0H and 30H where they suspend and resume and where they do
//! not, cuts, given states and refusals.

use super::Maker;
use crate::cycle::{Device, Mode, Operation};
use crate::part::{Kind, Part};
use crate::station::op;

/// Bus cycles in one case of a walk.
const WALK: u64 = 24;

/// Makes so many cases on these parts in turn.
pub fn make(maker: &mut Maker, parts: &[u64], cases: u64) {
    let per_part = cases.div_ceil(parts.len() as u64);
    for case in 0..cases {
        if case % per_part == 0 {
            maker.new_chip(parts[(case / per_part) as usize]);
        }
        maker.send(&[op::MARK, case]);
        match maker.random.below(20) {
            0..=8 => maker.walk(WALK),
            9..=12 => maker.operation(),
            13..=14 => maker.identification(),
            15 => maker.given_rest(),
            16 => maker.given_operation(),
            17 => maker.bad_states(),
            _ => maker.refusals(),
        }
        if maker.random.percent(25) {
            maker.completion();
        }
        maker.settle();
    }
}

impl Maker {
    /// Leaves the chip idle for the next case: by a cut, or by letting all that
    /// is under way complete.
    pub(super) fn settle(&mut self) {
        if self.random.percent(70) {
            let scar = self.random.word();
            self.cycle(&[op::CUT, 0, 1, scar]);
            return;
        }
        self.cycle(&[op::IDLE, 4_294_967_295, 0]);
        if self.station.device.suspended.left > 0 {
            let address = self.address();
            for code in [0xF0, 0x30] {
                self.cycle(&[op::WRITE, 0, 1, address, code]);
                self.cycle(&[op::IDLE, 4_294_967_295, 0]);
            }
        }
    }

    /// Sends a bus cycle, and shows the cells of what it completes or cuts.
    pub(super) fn cycle(&mut self, command: &[u64]) {
        let before = self.station.device;
        if self.send(command)[1] != 0 {
            return;
        }
        let cut = command[0] == op::CUT;
        let left = u64::from(before.running.left);
        if left > 0 && (cut || command[1] >= left) {
            self.show_ended(&before.running);
        }
        if cut && before.suspended.left > 0 {
            self.show_ended(&before.suspended);
        }
    }

    /// Shows the cells of an operation that is over, and after an erase mostly
    /// fills them anew.
    fn show_ended(&mut self, operation: &Operation) {
        let kind = operation.known().expect("an operation under way");
        let range = self.part().range(kind, operation.address);
        self.show(range.start.into(), range.end.into());
        if kind != Kind::Program && self.random.percent(90) {
            let (a, b, mask) = self.random_pattern(self.station.part.into());
            self.send(&[op::FILL, range.start.into(), range.end.into(), a, b, mask]);
        }
    }

    /// Shows a range of cells and the cells beside it.
    fn show(&mut self, start: u64, end: u64) {
        self.send(&[op::CELL, start]);
        if end - start > 1 {
            self.send(&[op::CELL, end - 1]);
        }
        let (from, to) = (start.saturating_sub(3), (end + 3).min(self.cells()));
        self.send(&[op::HASH, from, to]);
    }

    /// An address that the unlock compare takes as this one: it may differ
    /// above the bits that are compared.
    pub(super) fn alias(&mut self, address: u32) -> u64 {
        let step = u64::from(self.part().unlock.mask) + 1;
        let above = self.random.below(self.cells() / step);
        if self.random.percent(50) {
            u64::from(address)
        } else {
            u64::from(address) + step * above
        }
    }

    /// A code as data: on sixteen-bit parts sometimes with a high byte.
    pub(super) fn code(&mut self, code: u64) -> u64 {
        if self.part().width == 16 && self.random.percent(40) {
            code | self.random.below(256) << 8
        } else {
            code
        }
    }

    /// Data that the part takes.
    pub(super) fn data(&mut self) -> u64 {
        let data = self.random.word();
        self.part().value(data as u16).into()
    }

    /// An elapsed time that matters: around the time left of an operation, or
    /// none after its end.
    pub(super) fn elapsed(&mut self) -> u64 {
        let left = u64::from(self.station.device.running.left);
        if self.station.device.recent == 1 {
            return self
                .random
                .weigh(&[(16, 0), (3, 1), (1, 2), (1, 4_294_967_295)]);
        }
        if left == 0 {
            return self
                .random
                .weigh(&[(6, 0), (2, 1), (1, 50), (1, 4_294_967_295)]);
        }
        let within = self.random.below(left);
        self.random.weigh(&[
            (30, 0),
            (10, 1),
            (14, left - 1),
            (12, left),
            (8, (left + 1).min(4_294_967_295)),
            (20, within),
            (1, 4_294_967_295),
        ])
    }

    /// The write that continues the sequence at this stage, as address and
    /// data.
    pub(super) fn right_write(&mut self, stage: u32) -> (u64, u64) {
        let part = self.part();
        let (address, code) = match stage {
            0 | 4 => (self.alias(part.unlock.u1), 0xAA),
            1 | 5 => (self.alias(part.unlock.u2), 0x55),
            2 => {
                let choices = [(40, 0xA0), (48, 0x80), (8, 0x90), (4, 0xF0)];
                let code = self.random.weigh(&choices);
                (self.alias(part.unlock.u1), code)
            }
            3 => return (self.address(), self.data()),
            _ => {
                let chip = if part.cells < 10_000 { 30 } else { 10 };
                match self.random.below(100) {
                    n if n < chip => (self.alias(part.unlock.u1), 0x10),
                    n if n % 2 == 0 => (self.address(), 0x30),
                    _ => (self.address(), 0x50),
                }
            }
        };
        (address, self.code(code))
    }

    /// A write that just misses the one that continues the sequence.
    fn near_miss(&mut self, stage: u32) -> (u64, u64) {
        let part = self.part();
        let (u1, u2) = (part.unlock.u1, part.unlock.u2);
        let (address, data) = self.right_write(stage);
        let compared = u64::from(part.unlock.mask.count_ones());
        if stage == 6 && self.random.percent(30) {
            return (self.address(), self.code(0x10));
        }
        match self.random.below(7) {
            0 => (address ^ 1 << self.random.below(compared), data),
            1 => (address, data ^ 1 << self.random.below(8)),
            2 => (self.alias(u1), self.code(0xAA)),
            3 => (self.alias(u2), data),
            4 => (self.address(), self.code(0xF0)),
            5 => {
                let codes = [0x10, 0x30, 0x50, 0x88, 0x98, 0xA5, 0xB0, 0x00];
                let code = self.random.pick(&codes);
                (self.alias(u1), self.code(code))
            }
            _ => (self.address(), self.data()),
        }
    }

    /// B0H or 30H at any address, which suspends or resumes, or does not.
    fn hold_write(&mut self) -> (u64, u64) {
        let running = self.station.device.running.left > 0;
        let code = if running {
            self.random.weigh(&[(9, 0xB0), (1, 0x30)])
        } else {
            self.random.pick(&[0xB0, 0x30])
        };
        (self.address(), self.code(code))
    }

    /// The next write of a walk: mostly the right one, and while something runs
    /// or is suspended often B0H or 30H.
    fn walking_write(&mut self) -> (u64, u64) {
        let device = self.station.device;
        let held = device.running.left > 0 || device.suspended.left > 0;
        let hold = if held { 30 } else { 4 };
        if self.random.percent(hold) {
            self.hold_write()
        } else if self.random.percent(85) {
            self.right_write(device.stage)
        } else {
            self.near_miss(device.stage)
        }
    }

    /// A walk from wherever the device is: mostly continuing the sequence,
    /// sometimes missing it, reading, idling, cutting the power.
    pub(super) fn walk(&mut self, cycles: u64) {
        let mut wp = self.random.bit();
        for _ in 0..cycles {
            let device = self.station.device;
            let last = matches!(device.stage, 3 | 6);
            if self.random.percent(if last { 25 } else { 6 }) {
                wp = 1 - wp;
            }
            let elapsed = self.elapsed();
            let busy = u64::from(device.running.left) > elapsed;
            let choice = if busy {
                self.random
                    .weigh(&[(50, 'r'), (20, 'w'), (16, 'i'), (14, 'c')])
            } else {
                self.random
                    .weigh(&[(12, 'r'), (82, 'w'), (4, 'i'), (2, 'c')])
            };
            match choice {
                'r' => {
                    let address = self.read_address();
                    self.cycle(&[op::READ, elapsed, wp, address]);
                }
                'w' => {
                    let (address, data) = self.walking_write();
                    if device.stage == 3 && self.random.percent(60) {
                        let old = self.random.word();
                        let old = if self.random.percent(80) {
                            self.part().value(old as u16).into()
                        } else {
                            old
                        };
                        self.send(&[op::PATCH, address, old]);
                    }
                    self.cycle(&[op::WRITE, elapsed, wp, address, data]);
                }
                'i' => self.cycle(&[op::IDLE, elapsed, wp]),
                _ => {
                    let scar = self.random.word();
                    self.cycle(&[op::CUT, elapsed, wp, scar]);
                }
            }
        }
    }

    /// An address to read: often one that identification answers, or of an
    /// operation that runs or is suspended.
    fn read_address(&mut self) -> u64 {
        let device = self.station.device;
        let shown = device.mode == Mode::Identification;
        match self.random.below(4) {
            0 | 1 if shown => self.random.bit(),
            2 if shown => self.random.pick(&[2, 2_048, 4_096]),
            _ if device.running.left > 0 && self.random.percent(50) => {
                device.running.address.into()
            }
            _ if device.suspended.left > 0 && self.random.percent(50) => {
                device.suspended.address.into()
            }
            _ => self.address(),
        }
    }

    /// One whole operation by its right writes, and its time and end.
    fn operation(&mut self) {
        let wp = u64::from(self.random.percent(60));
        let goal = self.random.weigh(&[(4, 0xA0), (6, 0x80)]);
        self.sequence(goal, wp);
        for _ in 0..self.random.between(1, 6) {
            let elapsed = self.elapsed();
            let address = self.read_address();
            self.cycle(&[op::READ, elapsed, wp, address]);
        }
        let elapsed = self.elapsed();
        if self.random.percent(50) {
            let scar = self.random.word();
            self.cycle(&[op::CUT, elapsed, wp, scar]);
        } else {
            let address = self.read_address();
            self.cycle(&[op::READ, elapsed, wp, address]);
        }
    }

    /// An operation ends in a cycle that carries just its time left, and more
    /// cycles come before any time has passed, and after 1 µs.
    fn completion(&mut self) {
        let wp = u64::from(self.random.percent(85));
        if self.random.percent(30) {
            let state = self.running_state();
            self.send_state(&state);
        } else {
            let goal = self.random.weigh(&[(4, 0xA0), (6, 0x80)]);
            self.sequence(goal, wp);
        }
        let left = u64::from(self.station.device.running.left);
        let address = u64::from(self.station.device.running.address);
        match self.random.below(8) {
            0..=2 => self.cycle(&[op::READ, left, wp, address]),
            3..=4 => {
                let (address, data) = self.right_write(0);
                self.cycle(&[op::WRITE, left, wp, address, data]);
            }
            5..=6 => self.cycle(&[op::IDLE, left, wp]),
            _ => {
                let scar = self.random.word();
                self.cycle(&[op::CUT, left, wp, scar]);
            }
        }
        for _ in 0..self.random.between(1, 3) {
            self.at_once(wp, address);
        }
        let elapsed = self.random.weigh(&[(6, 1), (2, 0), (1, 2)]);
        self.cycle(&[op::READ, elapsed, wp, address]);
        self.cycle(&[op::READ, 0, wp, address]);
    }

    /// Cycles that carry 0 µs, which a completion 0 µs old outlives but for a
    /// start and a cut; `address` is the completed operation's.
    fn at_once(&mut self, wp: u64, address: u64) {
        match self.random.below(11) {
            0 => {
                for near in [address, address ^ 1, 0, 1] {
                    self.cycle(&[op::READ, 0, wp, near]);
                }
            }
            1 => {
                let other = self.address();
                self.cycle(&[op::READ, 0, wp, other]);
            }
            2 => self.cycle(&[op::IDLE, 0, wp]),
            3 => {
                let (address, data) = self.right_write(self.station.device.stage);
                self.cycle(&[op::WRITE, 0, wp, address, data]);
            }
            4 => {
                let (address, data) = self.near_miss(self.station.device.stage);
                self.cycle(&[op::WRITE, 0, wp, address, data]);
            }
            5 | 6 => {
                self.sequence(0x90, wp);
                for shown in [0, 1, address] {
                    self.cycle(&[op::READ, 0, wp, shown]);
                }
            }
            7..=9 => {
                let goal = self.random.pick(&[0xA0, 0x80]);
                let level = self.random.bit();
                self.sequence(goal, level);
            }
            _ => {
                let scar = self.random.word();
                self.cycle(&[op::CUT, 0, wp, scar]);
            }
        }
    }

    /// A right sequence with this third code, up to a program's or an erase's
    /// last write.
    fn sequence(&mut self, third: u64, wp: u64) {
        let u1 = self.part().unlock.u1;
        loop {
            let stage = self.station.device.stage;
            let (mut address, mut data) = self.right_write(stage);
            if stage == 2 {
                address = self.alias(u1);
                data = self.code(third);
            }
            self.cycle(&[op::WRITE, 0, wp, address, data]);
            if self.station.device.stage == 0 {
                return;
            }
        }
    }

    /// Identification: entering, reading, and one of the ways to leave it.
    fn identification(&mut self) {
        let wp = self.random.bit();
        self.sequence(0x90, wp);
        for address in [0, 1, 2] {
            self.cycle(&[op::READ, 0, wp, address]);
        }
        let other = self.address();
        self.cycle(&[op::READ, 0, wp, other]);
        match self.random.below(6) {
            0 | 5 => self.sequence(0xF0, wp),
            1 => self.sequence(0xA0, wp),
            2 => self.sequence(0x80, wp),
            3 => {
                let (address, data) = self.near_miss(0);
                self.cycle(&[op::WRITE, 0, wp, address, data]);
            }
            _ => self.walk(10),
        }
        for address in [0, 1] {
            self.cycle(&[op::READ, 0, wp, address]);
        }
    }

    /// What may stand in the fields of an operation while there is none.
    pub(super) fn stray(&mut self) -> Operation {
        Operation {
            kind: self.random.pick(&[0, 1, 2, 3, 4, 255]),
            address: self.random.long() as u32,
            data: self.random.word() as u16,
            left: 0,
            toggle: self.random.percent(50),
        }
    }

    /// A valid state at rest, with stray fields.
    pub(super) fn resting_state(&mut self) -> Device {
        Device {
            mode: self.random.pick(&[Mode::Read, Mode::Identification]),
            stage: self.random.below(7) as u32,
            running: self.stray(),
            recent: self.random.bit() as u32,
            turned: self.random.bit() as u32,
            suspended: self.stray(),
        }
    }

    /// A given state at rest, and what follows from it.
    fn given_rest(&mut self) {
        let state = self.resting_state();
        self.send_state(&state);
        self.walk(8);
    }

    /// An operation of this kind under way, with a time left that matters.
    pub(super) fn under_way(&mut self, kind: Kind) -> Operation {
        let time = u64::from(self.part().time(kind));
        let left = match self.random.below(4) {
            0 => 1,
            1 => time,
            2 => 1.max(time - 1),
            _ => self.random.between(1, time),
        };
        Operation {
            kind: kind.number(),
            address: self.address() as u32,
            data: self.data() as u16,
            left: left as u32,
            toggle: self.random.percent(50),
        }
    }

    /// A valid state with an operation running.
    fn running_state(&mut self) -> Device {
        let part = self.part();
        let kind = loop {
            let chip = if part.cells < 10_000 { 3 } else { 1 };
            let choices = [(6, 0), (4, 1), (4, 2), (chip, 3)];
            let kind = Kind::ALL[self.random.weigh(&choices)];
            if part.knows(kind) {
                break kind;
            }
        };
        Device {
            running: self.under_way(kind),
            turned: self.random.bit() as u32,
            suspended: self.stray(),
            ..Device::default()
        }
    }

    /// A given state with an operation running, and what follows from it.
    fn given_operation(&mut self) {
        let state = self.running_state();
        if state.running.kind == 0 && self.random.percent(70) {
            let old = self.random.word();
            self.send(&[op::PATCH, state.running.address.into(), old]);
        }
        self.send_state(&state);
        self.walk(8);
    }

    /// A cycle of any kind that is itself without fault.
    pub(super) fn any_cycle(&mut self) {
        let (elapsed, wp) = (self.elapsed(), self.random.bit());
        let (address, data) = (self.address(), self.data());
        match self.random.below(4) {
            0 => self.cycle(&[op::READ, elapsed, wp, address]),
            1 => self.cycle(&[op::WRITE, elapsed, wp, address, data]),
            2 => self.cycle(&[op::IDLE, elapsed, wp]),
            _ => self.cycle(&[op::CUT, elapsed, wp, data]),
        }
    }

    /// Cycles in which only the state is at fault.
    fn bad_states(&mut self) {
        let (part, cells) = (self.part(), self.cells());
        for _ in 0..6 {
            let state = self.bad_state(part, cells);
            self.send_state(&state);
            self.any_cycle();
        }
        self.send_state(&Device::default());
    }

    /// Refused cycles: one fault or several at once.
    fn refusals(&mut self) {
        for _ in 0..8 {
            let number = u64::from(self.station.part);
            let cells = self.cells();
            let before = self.station.device;
            // Bits of the faults: part, lent, state, address, data.
            let eight = self.part().width == 8;
            let faults = match self.random.below(4) {
                0 if eight => 16,
                0 | 3 => 1 << self.random.below(5),
                1 => 1 << self.random.below(5) | 1 << self.random.below(5),
                _ => self.random.between(1, 31),
            };
            let part = if faults & 1 != 0 && self.random.percent(60) {
                self.random.pick(&[11, 12, 255, 256, 65_536, 4_294_967_295])
            } else {
                number
            };
            let lent = if faults & 2 != 0 && self.random.percent(60) {
                self.wrong_lent(cells)
            } else {
                cells
            };
            self.send(&[op::LENT, part, lent]);
            if faults & 4 != 0 {
                let state = self.bad_state(Part::get(number as u32).expect("a known part"), cells);
                self.send_state(&state);
            }
            let address = if faults & 8 != 0 {
                let beyond = self.random.below(100_000);
                let far = self
                    .random
                    .pick(&[cells, cells + 1, cells + beyond, 4_294_967_295]);
                far.min(4_294_967_295)
            } else {
                self.random.below(cells)
            };
            let data = if faults & 16 != 0 {
                self.random.between(256, 65_535)
            } else {
                self.random.below(256)
            };
            let elapsed = self.elapsed();
            let wp = self.random.bit();
            let command = match self.random.below(10) {
                0..=4 => vec![op::WRITE, elapsed, wp, address, data],
                5..=7 => vec![op::READ, elapsed, wp, address],
                8 => vec![op::IDLE, elapsed, wp],
                _ => vec![op::CUT, elapsed, wp, data],
            };
            // The part may be unknown here, so the cells are shown only below.
            let left = self.station.device.running.left;
            let accepted = self.send(&command)[1] == 0;
            self.send(&[op::LENT, number, cells]);
            if accepted && left > 0 && self.station.device.running.left == 0 {
                self.send(&[op::HASH, 0, cells.min(8_192)]);
            }
            if !accepted && self.random.percent(30) {
                self.send(&[op::HASH, 0, 2_048]);
            }
            let state = match self.random.below(4) {
                0 => before,
                1 => self.running_state(),
                2 => self.resting_state(),
                _ => Device::default(),
            };
            self.send_state(&state);
        }
    }

    /// A number of lent cells that is not the part's.
    fn wrong_lent(&mut self, cells: u64) -> u64 {
        let most = self.station.cells.len() as u64;
        loop {
            let lent = match self.random.below(4) {
                0 => cells - 1,
                1 => cells + 1,
                2 => self
                    .random
                    .pick(&[0, 1, 8_192, 131_072, 262_144, 524_288, 1_048_576]),
                _ => self.random.below(most),
            };
            if lent != cells && lent <= most {
                return lent;
            }
        }
    }

    /// A state out of range: mostly by one ground alone.
    fn bad_state(&mut self, part: &Part, cells: u64) -> Device {
        let mut state = Device {
            running: loop {
                // The station's own part may be unknown while this is made, so
                // the state is made here for the part that the chip really has.
                let kind = self.random.pick(&Kind::ALL);
                if part.knows(kind) {
                    break self.sound(part, kind);
                }
            },
            turned: self.random.bit() as u32,
            suspended: self.stray(),
            ..Device::default()
        };
        for _ in 0..self.random.weigh(&[(8, 1), (2, 2)]) {
            self.spoil(part, cells, &mut state);
        }
        state
    }

    /// An operation that this part could have under way.
    fn sound(&mut self, part: &Part, kind: Kind) -> Operation {
        Operation {
            kind: kind.number(),
            address: self.random.below(part.cells.into()) as u32,
            data: self.random.below(256) as u16,
            left: self.random.between(1, part.time(kind).into()) as u32,
            toggle: self.random.percent(50),
        }
    }

    /// Gives a state with something running a ground for refusal 5.
    fn spoil(&mut self, part: &Part, cells: u64, state: &mut Device) {
        let ground = if part.width == 8 {
            self.random
                .pick(&[0, 1, 2, 3, 4, 5, 6, 6, 6, 7, 7, 7, 8, 9, 10, 11])
        } else {
            self.random.pick(&[0, 1, 2, 3, 4, 5, 6, 8, 9, 10, 11])
        };
        let running = &mut state.running;
        match ground {
            0 => state.mode = Mode::Identification,
            1 => state.stage = self.random.between(1, 7) as u32,
            2 => {
                state.stage = self.random.pick(&[7, 8, 255]);
                running.left = 0;
            }
            3 => running.kind = self.random.pick(&[4, 5, 7, 255]),
            4 => {
                let kind = Kind::from_number(running.kind).unwrap_or(Kind::Chip);
                let far = self.random.long() as u32;
                let left = self.random.pick(&[part.time(kind) + 1, u32::MAX, far]);
                running.left = left;
            }
            5 => {
                let far = self.random.pick(&[cells, cells + 1, 4_294_967_295]);
                running.address = far as u32;
            }
            // The parts without blocks are those of eight bits.
            6 if part.width == 8 => running.data = self.random.between(256, 65_535) as u16,
            7 if part.width == 8 => {
                running.kind = 2;
                running.left = self.random.between(1, 18_000) as u32;
            }
            8 => state.recent = 1,
            9 => {
                state.recent = self.random.pick(&[2, 3, 255]);
                running.left *= self.random.bit() as u32;
            }
            10 => {
                state.turned = self.random.pick(&[2, 3, 255]);
                running.left *= self.random.bit() as u32;
            }
            // On parts 0 to 6 nothing can be suspended; on the others this may
            // be no ground.
            11 if !part.suspends => {
                running.left = 0;
                state.suspended = self.sound(part, Kind::Sector);
            }
            _ => state.stage = self.random.pick(&[7, 255]),
        }
    }
}
