//! The driver: its calls, its steps under hostile replies and in given states,
//! and its runs against the model.

use super::Maker;
use crate::cycle::{Device, Mode, Operation};
use crate::driver;
use crate::part::{Kind, Part};
use crate::station::op;

/// Intervals of which some divide each table time.
const INTERVALS: [u64; 7] = [1, 2, 7, 14, 28, 500, 1_000];

/// The most polls to an operation's end at such an interval.
const FEW_POLLS: u64 = 200;

/// Writes, k-th writes and starts: all commands of all parts, then random
/// ones aimed at the refusals.
pub fn make_calls(maker: &mut Maker, cases: u64) {
    for part in 0..=11 {
        for command in 0..=4 {
            maker.send(&[op::WRITES, part, command, 8_191, 0x5A]);
            for k in 0..=6 {
                maker.send(&[op::KTH, part, command, 4_097, 0xF0, k]);
            }
        }
    }
    for case in 0..cases {
        maker.send(&[op::MARK, case]);
        let (part, command, address, data) = maker.any_command();
        let p = maker.interval();
        let k = match maker.random.below(4) {
            0 => maker.random.long(),
            _ => maker.random.below(8),
        };
        match maker.random.below(4) {
            0 => maker.send(&[op::WRITES, part, command, address, data]),
            1 => maker.send(&[op::KTH, part, command, address, data, k]),
            _ => maker.send(&[op::START, part, command, address, data, p]),
        };
        if maker.random.percent(30) {
            let read = maker.random.word();
            maker.send(&[op::STEP, read]);
        }
    }
}

/// Steps: whole commands under chosen replies, and given states.
pub fn make_steps(maker: &mut Maker, cases: u64) {
    for case in 0..cases {
        maker.send(&[op::MARK, case]);
        match maker.random.below(10) {
            0..=3 => maker.whole_command(),
            4..=6 => maker.given_driver(),
            _ => maker.bad_driver(),
        }
    }
}

/// Runs of the driver against the model, on chips of these parts.
pub fn make_runs(maker: &mut Maker, parts: &[u64], cases: u64) {
    let per_part = cases.div_ceil(parts.len() as u64);
    for case in 0..cases {
        if case % per_part == 0 {
            maker.new_chip(parts[(case / per_part) as usize]);
        }
        maker.send(&[op::MARK, case]);
        maker.run_case();
    }
}

/// The numbers of a command that is accepted.
struct Command {
    part: u64,
    kind: Kind,
    address: u64,
    data: u64,
    p: u64,
}

impl Command {
    fn row(&self) -> &'static Part {
        Part::get(self.part as u32).expect("a known part")
    }

    /// The value that the driver wants to read at the end.
    fn wanted(&self) -> u64 {
        match self.kind {
            Kind::Program => self.data,
            _ => self.row().blank().into(),
        }
    }

    /// The most polls it makes.
    fn most(&self) -> u64 {
        2 * u64::from(self.row().polls(self.kind, self.p as u32))
    }

    /// An interval at which few polls end just with the operation.
    fn fits(&self, p: u64) -> bool {
        let time = u64::from(self.row().time(self.kind));
        time.is_multiple_of(p) && time / p <= FEW_POLLS
    }

    fn writes(&self) -> u64 {
        match self.kind {
            Kind::Program => 4,
            _ => 6,
        }
    }

    /// The driver state with this phase and count.
    fn state(&self, phase: u32, count: u64) -> [u64; 7] {
        [
            self.part,
            self.kind.number().into(),
            self.address,
            self.data,
            self.p,
            phase.into(),
            count,
        ]
    }
}

impl Maker {
    /// A polling interval: mostly allowed, at the edges and beside them.
    fn interval(&mut self) -> u64 {
        let any = self.random.between(1, 1_000);
        let far = self.random.long();
        self.random
            .weigh(&[(20, any), (4, 1), (4, 1_000), (4, 0), (4, 1_001), (2, far)])
    }

    /// Part, command, address and data of any command: often accepted, often
    /// with one fault or several.
    fn any_command(&mut self) -> (u64, u64, u64, u64) {
        let part = match self.random.below(10) {
            0 => self.random.pick(&[11, 12, 256, 65_536, 4_294_967_295]),
            _ => self.random.below(11),
        };
        let command = match self.random.below(10) {
            0 => self.random.pick(&[4, 5, 255, 256, 4_294_967_295]),
            _ => self.random.below(4),
        };
        let cells = Part::get(part as u32).map_or(8_192, |part| part.cells.into());
        let address = match self.random.below(6) {
            0 => self
                .random
                .pick(&[cells, cells + 1, 4_194_304, 4_294_967_295]),
            1 => cells - 1,
            2 => self.random.long(),
            _ => self.random.below(cells),
        };
        let data = match self.random.below(3) {
            0 => self.random.pick(&[0, 255, 256, 65_535]),
            1 => self.random.below(256),
            _ => self.random.below(65_536),
        };
        if self.random.percent(16) {
            // A program on an eight-bit part, which looks at the data.
            return (self.random.between(1, 3), 0, address, data);
        }
        (part, command, address, data)
    }

    /// A command of a part that is accepted, with few polls if `short`.
    fn good_command(&mut self, part: u64, short: bool) -> Command {
        let row = Part::get(part as u32).expect("a known part");
        let kind = loop {
            let kind = self.random.pick(&Kind::ALL);
            if row.knows(kind) {
                break kind;
            }
        };
        let edges = [1, 999, 1_000, u64::from(row.program_time)];
        let p = match self.random.below(3) {
            _ if short && kind != Kind::Program => self.random.between(900, 1_000),
            0 if !short || kind == Kind::Program => self.random.pick(&edges),
            1 => self.random.between(1, 30),
            _ => self.random.between(1, 1_000),
        };
        let data = self.random.word();
        Command {
            part,
            kind,
            address: self.random.below(row.cells.into()),
            data: row.value(data as u16).into(),
            p,
        }
    }

    /// A start of this command.
    fn start(&mut self, command: &Command) {
        let kind = u64::from(command.kind.number());
        let mut address = command.address;
        let mut data = command.data;
        // What the command ignores may be anything.
        if command.kind == Kind::Chip && self.random.percent(60) {
            address = self.random.long();
        }
        if command.kind != Kind::Program && self.random.percent(60) {
            data = self.random.word();
        }
        self.send(&[op::START, command.part, kind, address, data, command.p]);
    }

    /// A reply to the driver: right, nearly right, or anything.
    fn reply(&mut self, wanted: u64, right: u64) -> u64 {
        if self.random.percent(right) {
            return match self.random.below(4) {
                // On eight-bit parts the high byte must not matter.
                0 => wanted ^ self.random.below(256) << 8,
                _ => wanted,
            };
        }
        match self.random.below(5) {
            0 => wanted ^ 0x80,
            1 => wanted ^ 1 << self.random.below(16),
            2 => wanted ^ 0x80 ^ 1 << self.random.below(16),
            3 => (wanted ^ 0x80) & 0x80 | self.random.pick(&[0, 0x40]),
            _ => self.random.below(65_536),
        }
    }

    /// A whole command under chosen replies, to its end and beyond.
    fn whole_command(&mut self) {
        let part = self.random.below(11);
        let command = self.good_command(part, true);
        self.start(&command);
        for _ in 0..command.writes() {
            let read = self.random.word();
            self.send(&[op::STEP, read]);
        }
        // The first poll, and then some replies that do not match.
        let long = command.most() > 20 && self.random.percent(90);
        let wait = match self.random.below(3) {
            _ if long => self.random.below(8),
            0 => command.most(),
            1 => command.most() - 1,
            _ => self.random.below(command.most()),
        };
        let first = self.random.word();
        self.send(&[op::STEP, first]);
        for _ in 0..wait {
            let bit = self.random.pick(&[0, 0x40, 0x3F]);
            self.send(&[op::STEP, (command.wanted() ^ 0x80) & 0x80 | bit]);
        }
        for _ in 0..4 {
            let read = self.reply(command.wanted(), 70);
            self.send(&[op::STEP, read]);
        }
    }

    /// Gives the driver a state.
    fn send_driver(&mut self, state: &[u64; 7]) {
        let mut command = vec![op::DRIVER];
        command.extend(state);
        self.send(&command);
    }

    /// A given state in range, often at the edge of its counts, with fields
    /// that the command ignores, and some steps from it.
    fn given_driver(&mut self) {
        let part = self.random.below(11);
        let mut command = self.good_command(part, false);
        let phase = self.random.weigh(&[
            (3, driver::WRITING),
            (8, driver::POLLING),
            (4, driver::CONFIRMING),
            (2, driver::DONE),
            (2, driver::GAVE_UP),
            (2, driver::DIFFERS),
        ]);
        let most = command.most();
        let count = match phase {
            driver::WRITING => self.random.below(command.writes()),
            driver::GAVE_UP => most,
            _ => {
                let low = u64::from(phase != driver::POLLING);
                let any = self.random.between(low, most);
                self.random.pick(&[low, most, most - 1, any]).max(low)
            }
        };
        let wanted = command.wanted();
        if command.kind == Kind::Chip && self.random.percent(50) {
            command.address = self.random.long();
        }
        if command.kind != Kind::Program && self.random.percent(50) {
            command.data = self.random.word();
        }
        self.send_driver(&command.state(phase, count));
        for _ in 0..self.random.between(1, 4) {
            let read = self.reply(wanted, 50);
            self.send(&[op::STEP, read]);
        }
    }

    /// A given state out of range: by its start, its phase or its count.
    fn bad_driver(&mut self) {
        let part = self.random.below(11);
        let command = self.good_command(part, false);
        let most = command.most();
        let mut state = match self.random.below(3) {
            0 => {
                let (part, number, address, data) = self.any_command();
                let p = self.interval();
                let phase = self.random.below(6);
                [part, number, address, data, p, phase, self.random.below(3)]
            }
            1 => {
                let phase = self.random.pick(&[6, 7, 255]);
                let mut state = command.state(driver::WRITING, self.random.below(4));
                state[5] = phase;
                state
            }
            _ => {
                let phase = self.random.below(6) as u32;
                let count = match phase {
                    driver::WRITING => command.writes() + self.random.below(3),
                    driver::GAVE_UP => self.random.pick(&[0, most - 1, most + 1]),
                    driver::POLLING => most + 1 + self.random.below(3),
                    _ => self.random.pick(&[0, most + 1, 4_294_967_295]),
                };
                command.state(phase, count)
            }
        };
        // One field of a good start made bad.
        if self.random.percent(30) {
            match self.random.below(5) {
                0 => state[0] = self.random.pick(&[11, 4_294_967_295]),
                1 => state[1] = self.random.pick(&[2, 4, 4_294_967_295]),
                2 => state[2] = self.random.pick(&[4_194_304, 4_294_967_295]),
                3 => state[3] = self.random.pick(&[256, 65_535]),
                _ => state[4] = self.random.pick(&[0, 1_001, 4_294_967_295]),
            }
        }
        self.send_driver(&state);
        for _ in 0..self.random.between(1, 2) {
            let read = self.random.word();
            self.send(&[op::STEP, read]);
        }
    }

    /// One run against the model, sometimes disturbed.
    fn run_case(&mut self) {
        let chip = u64::from(self.station.part);
        let part = if self.random.percent(85) {
            chip
        } else {
            self.random.below(11)
        };
        let mut command = self.good_command(part, false);
        if part == chip {
            command.address = self.address();
        }
        if self.random.percent(40) {
            let fitting = INTERVALS.into_iter().filter(|p| command.fits(*p));
            command.p = self.random.pick(&fitting.collect::<Vec<u64>>());
        }
        let wp = u64::from(self.random.percent(65));
        if self.random.percent(50) {
            let old = self.random.word();
            let address = command.address.min(self.cells() - 1);
            self.send(&[op::PATCH, address, old]);
        }
        self.prepare_device();
        self.start(&command);
        let done = if self.random.percent(45) {
            self.disturbed_run(&command, wp)
        } else {
            false
        };
        if !done {
            self.send(&[op::RUN, wp, 1_000_000]);
        }
        let address = command.address.min(self.cells() - 1);
        self.send(&[op::CELL, address]);
        let sector = u64::from(self.part().sector());
        let start = address / sector * sector;
        self.send(&[op::HASH, start, start + sector]);
        // Leave nothing running, and something to erase next time.
        self.send(&[op::LENT, chip, self.cells()]);
        self.send_state(&Device::default());
        if command.kind != Kind::Program {
            let (a, b, mask) = self.random_pattern(chip);
            self.send(&[op::FILL, start, start + sector, a, b, mask]);
        }
    }

    /// The device before a run: mostly fresh.
    fn prepare_device(&mut self) {
        let cells = self.cells();
        let mut state = Device::default();
        match self.random.below(11) {
            0 => {
                state.mode = self.random.pick(&[Mode::Read, Mode::Identification]);
                state.stage = self.random.below(7) as u32;
                state.recent = self.random.bit() as u32;
            }
            1 => {
                state.running = Operation {
                    kind: 0,
                    address: self.random.below(cells) as u32,
                    data: 0x55,
                    left: self.random.between(1, 14).min(7) as u32,
                    toggle: true,
                };
                state.recent = u32::from(self.random.percent(10));
            }
            2 => state.stage = self.random.pick(&[7, 255]),
            3 => state.recent = 1,
            // Out of range on parts 0 to 6.
            4 => state.suspended = self.under_way(Kind::Sector),
            _ => return,
        }
        self.send_state(&state);
    }

    /// Runs a part of the way, does something to the chip, and tells whether
    /// the run is over.
    fn disturbed_run(&mut self, command: &Command, wp: u64) -> bool {
        let limit = match self.random.below(4) {
            0 => self.random.between(1, command.writes()),
            1 => command.writes() + self.random.between(1, command.most()),
            2 => command.writes() + command.most() / 2,
            _ => command.writes() + command.most() / 2 + self.random.below(3),
        };
        let printed = self.send(&[op::RUN, wp, limit]);
        let (kind, refused) = (printed[2], printed[5]);
        if kind == 0 || refused != 0 {
            return true;
        }
        let cells = self.cells();
        match self.random.below(5) {
            0 => {
                let scar = self.random.word();
                self.send(&[op::CUT, 0, wp, scar]);
            }
            1 => {
                let address = self.random.below(cells);
                let code = self.random.pick(&[0xF0, 0xB0, 0xB0, 0x30]);
                self.send(&[op::WRITE, 0, wp, address, code]);
            }
            2 => {
                self.send(&[op::IDLE, 200_000, wp]);
            }
            3 => {
                let address = command.address.min(cells - 1);
                let value = self.random.word();
                self.send(&[op::PATCH, address, value]);
            }
            _ => {
                let read = self.random.word();
                self.send(&[op::STEP, read]);
            }
        }
        false
    }
}
