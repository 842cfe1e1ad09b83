//! The interpreter of recorded cases. FORMAT.md tells the commands.

use crate::bill::{self, BENCH_CELLS};
use crate::cycle::{cycle, Action, Cycle, Device, Mode, Operation};
use crate::driver::{self, Driver, Named};
use crate::file;
use crate::job::{self, Bill, Job, Prefix};
use crate::part;

/// The first number of each command.
pub mod op {
    pub const MARK: u64 = 0;

    pub const CHIP: u64 = 10;
    pub const FILL: u64 = 11;
    pub const PATCH: u64 = 12;
    pub const CELL: u64 = 13;
    pub const HASH: u64 = 14;
    pub const LENT: u64 = 15;

    pub const DEVICE: u64 = 20;
    pub const READ: u64 = 21;
    pub const WRITE: u64 = 22;
    pub const IDLE: u64 = 23;
    pub const CUT: u64 = 24;

    pub const WRITES: u64 = 30;
    pub const KTH: u64 = 31;
    pub const START: u64 = 32;
    pub const DRIVER: u64 = 33;
    pub const STEP: u64 = 34;
    pub const RUN: u64 = 35;

    pub const FIGURE: u64 = 40;

    pub const IMAGE: u64 = 50;
    pub const IMAGE_FILL: u64 = 51;
    pub const IMAGE_PATCH: u64 = 52;
    pub const IMAGE_COPY: u64 = 53;
    pub const LOAD: u64 = 54;
    pub const FIRST: u64 = 55;

    pub const FILE: u64 = 60;
    pub const BYTES: u64 = 61;
    pub const PARSE: u64 = 62;
    pub const BILL: u64 = 63;
}

/// The cells that most recorded files need (parts 0 to 8).
pub const SMALL: usize = 1_048_576;

/// The cells of parts 9 and 10.
pub const LARGE: usize = 4_194_304;

/// The longest image.
pub const IMAGE: usize = 16_384;

/// The longest job file.
pub const FILE: usize = 20_500;

/// What the commands work on.
pub struct Station {
    /// The one array of cells; the first `lent` of them are the chip's.
    pub cells: Vec<u16>,
    pub part: u32,
    pub lent: usize,
    pub device: Device,
    /// The value of the last bus cycle.
    pub reply: u16,
    pub driver: Driver,
    pub image: Vec<u16>,
    pub file: Vec<u8>,
}

/// A pattern's value at an index.
pub fn pattern(index: usize, a: u64, b: u64, mask: u64) -> u16 {
    ((a + b * index as u64) & mask) as u16
}

/// The hash of a run of values.
pub fn hash(values: &[u16]) -> u32 {
    values.iter().fold(0, |hash: u32, value| {
        hash.wrapping_mul(31).wrapping_add(u32::from(*value))
    })
}

/// A number of a command that does not fit its place.
type Misfit = String;

fn word(number: u64) -> Result<u16, Misfit> {
    u16::try_from(number).map_err(|_| format!("{number} is above 65535"))
}

fn long(number: u64) -> Result<u32, Misfit> {
    u32::try_from(number).map_err(|_| format!("{number} is above 4294967295"))
}

fn level(number: u64) -> Result<bool, Misfit> {
    match number {
        0 => Ok(false),
        1 => Ok(true),
        _ => Err(format!("{number} is neither 0 nor 1")),
    }
}

/// How many numbers a device state has.
pub const DEVICE_NUMBERS: usize = 14;

/// An operation from its five numbers.
fn operation_from(numbers: &[u64]) -> Result<Operation, Misfit> {
    Ok(Operation {
        kind: long(numbers[0])?,
        address: long(numbers[1])?,
        data: word(numbers[2])?,
        left: long(numbers[3])?,
        toggle: level(numbers[4])?,
    })
}

/// A device state from its fourteen numbers.
fn device_from(numbers: &[u64]) -> Result<Device, Misfit> {
    Ok(Device {
        mode: if level(numbers[0])? {
            Mode::Identification
        } else {
            Mode::Read
        },
        stage: long(numbers[1])?,
        running: operation_from(&numbers[2..7])?,
        recent: long(numbers[7])?,
        turned: long(numbers[8])?,
        suspended: operation_from(&numbers[9..14])?,
    })
}

/// The fourteen numbers of a device state.
pub fn device_numbers(device: &Device) -> [u64; DEVICE_NUMBERS] {
    let (running, suspended) = (&device.running, &device.suspended);
    [
        u64::from(device.mode == Mode::Identification),
        device.stage.into(),
        running.kind.into(),
        running.address.into(),
        running.data.into(),
        running.left.into(),
        running.toggle.into(),
        device.recent.into(),
        device.turned.into(),
        suspended.kind.into(),
        suspended.address.into(),
        suspended.data.into(),
        suspended.left.into(),
        suspended.toggle.into(),
    ]
}

/// A driver state from its seven numbers.
fn driver_from(numbers: &[u64]) -> Result<Driver, Misfit> {
    Ok(Driver {
        part: long(numbers[0])?,
        command: long(numbers[1])?,
        address: long(numbers[2])?,
        data: word(numbers[3])?,
        p: long(numbers[4])?,
        phase: long(numbers[5])?,
        count: long(numbers[6])?,
    })
}

/// The seven numbers of a driver state.
pub fn driver_numbers(driver: &Driver) -> [u64; 7] {
    [
        driver.part.into(),
        driver.command.into(),
        driver.address.into(),
        driver.data.into(),
        driver.p.into(),
        driver.phase.into(),
        driver.count.into(),
    ]
}

/// Kind, elapsed, address and data of the cycle that a step names.
fn named_numbers(named: &Named) -> [u64; 4] {
    match *named {
        Named::Nothing => [0; 4],
        Named::Read { elapsed, address } => [1, elapsed.into(), address.into(), 0],
        Named::Write { address, data } => [2, 0, address.into(), data.into()],
    }
}

/// The cycle that a step names, with the caller's WP# level.
fn named_cycle(named: &Named, wp_high: bool) -> Option<Cycle> {
    let (elapsed, action) = match *named {
        Named::Nothing => return None,
        Named::Read { elapsed, address } => (elapsed, Action::Read { address }),
        Named::Write { address, data } => (0, Action::Write { address, data }),
    };
    Some(Cycle {
        elapsed,
        wp_high,
        action,
    })
}

/// The nine numbers of a bill.
fn bill_numbers(bill: &Bill) -> [u64; 9] {
    [
        bill.saved,
        bill.spent,
        bill.erases,
        bill.programs,
        bill.polls,
        bill.scans,
        bill.confirms,
        bill.sum.into(),
        bill.answer.into(),
    ]
}

/// Kind, elapsed, WP#, address and data of a last cycle, zeros for none.
fn last_numbers(last: &Option<Cycle>) -> [u64; 5] {
    let Some(cycle) = last else {
        return [0; 5];
    };
    let (kind, address, data) = match cycle.action {
        Action::Read { address } => (1, address, 0),
        Action::Write { address, data } => (2, address, data),
        Action::Idle | Action::Cut { .. } => unreachable!("a job only reads and writes"),
    };
    [
        kind,
        cycle.elapsed.into(),
        cycle.wp_high.into(),
        address.into(),
        data.into(),
    ]
}

/// The fourteen numbers of a second call.
fn prefix_numbers(prefix: &Prefix) -> Vec<u64> {
    let counts = &prefix.counts;
    let mut numbers = vec![prefix.answer.into(), prefix.sent];
    numbers.extend(last_numbers(&prefix.last));
    numbers.extend([
        prefix.reply.into(),
        counts.erases,
        counts.programs,
        counts.polls,
        counts.scans,
        counts.confirms,
        counts.time,
    ]);
    numbers
}

impl Station {
    /// A station with this many cells.
    pub fn new(cells: usize) -> Station {
        Station {
            cells: vec![0; cells],
            part: 0,
            lent: 0,
            device: Device::default(),
            reply: 0,
            driver: Driver::default(),
            image: Vec::new(),
            file: Vec::new(),
        }
    }

    /// Runs one command: the numbers of the line it prints, which begin with
    /// its own first number, or none for a command that prints nothing.
    pub fn run(&mut self, command: &[u64]) -> Result<Option<Vec<u64>>, Misfit> {
        let first = *command.first().ok_or("an empty line")?;
        let result = match first {
            op::CHIP..=op::LENT => self.run_cells(command)?,
            op::DEVICE..=op::CUT => self.run_cycle(command)?,
            op::WRITES..=op::RUN => self.run_driver(command)?,
            op::IMAGE..=op::FIRST => self.run_job(command)?,
            op::FILE..=op::BILL => self.run_file(command)?,
            _ => match *command {
                [op::MARK, case] => Some(vec![case]),
                [op::FIGURE, part, figure] => {
                    let (answer, value) = part::figure(long(part)?, long(figure)?);
                    Some(vec![answer.into(), value.into()])
                }
                _ => return Err(format!("no such command: {command:?}")),
            },
        };
        Ok(result.map(|mut numbers| {
            numbers.insert(0, first);
            numbers
        }))
    }

    /// A range of the array of cells.
    fn cells_of(&mut self, from: u64, to: u64) -> Result<&mut [u16], Misfit> {
        self.cells
            .get_mut(from as usize..to as usize)
            .ok_or(format!("cells {from} to {to} are not there"))
    }

    /// A range of the image.
    fn image_of(&mut self, from: u64, to: u64) -> Result<&mut [u16], Misfit> {
        self.image
            .get_mut(from as usize..to as usize)
            .ok_or(format!("image values {from} to {to} are not there"))
    }

    /// Commands 10 to 15: part, lent cells and their contents.
    fn run_cells(&mut self, command: &[u64]) -> Result<Option<Vec<u64>>, Misfit> {
        match *command {
            [op::CHIP, part, lent, a, b, mask] => {
                fill(self.cells_of(0, lent)?, 0, a, b, mask);
                self.part = long(part)?;
                self.lent = lent as usize;
                self.device = Device::default();
                self.reply = 0;
            }
            [op::FILL, from, to, a, b, mask] => {
                fill(self.cells_of(from, to)?, from, a, b, mask);
            }
            [op::PATCH, index, value] => self.cells_of(index, index + 1)?[0] = word(value)?,
            [op::CELL, index] => {
                return Ok(Some(vec![self.cells_of(index, index + 1)?[0].into()]));
            }
            [op::HASH, from, to] => {
                return Ok(Some(vec![hash(self.cells_of(from, to)?).into()]));
            }
            [op::LENT, part, lent] => {
                self.cells_of(0, lent)?;
                self.part = long(part)?;
                self.lent = lent as usize;
            }
            _ => return Err(format!("no such command: {command:?}")),
        }
        Ok(None)
    }

    /// Sends one bus cycle to the chip and keeps the state handed back.
    fn send(&mut self, next: Cycle) -> (u32, u16) {
        let lent = &mut self.cells[..self.lent];
        let reply = cycle(self.part, lent, self.device, next);
        self.device = reply.device;
        self.reply = reply.value;
        (reply.answer, reply.value)
    }

    /// Commands 20 to 24: the device's state and bus cycles.
    fn run_cycle(&mut self, command: &[u64]) -> Result<Option<Vec<u64>>, Misfit> {
        let (elapsed, wp, action) = match *command {
            [op::DEVICE, ref state @ ..] if state.len() == DEVICE_NUMBERS => {
                self.device = device_from(state)?;
                return Ok(None);
            }
            [op::READ, elapsed, wp, address] => {
                let address = long(address)?;
                (elapsed, wp, Action::Read { address })
            }
            [op::WRITE, elapsed, wp, address, data] => {
                let (address, data) = (long(address)?, word(data)?);
                (elapsed, wp, Action::Write { address, data })
            }
            [op::IDLE, elapsed, wp] => (elapsed, wp, Action::Idle),
            [op::CUT, elapsed, wp, scar] => {
                let scar = word(scar)?;
                (elapsed, wp, Action::Cut { scar })
            }
            _ => return Err(format!("no such command: {command:?}")),
        };
        let (answer, value) = self.send(Cycle {
            elapsed: long(elapsed)?,
            wp_high: level(wp)?,
            action,
        });
        let mut numbers = vec![answer.into(), value.into()];
        numbers.extend(device_numbers(&self.device));
        Ok(Some(numbers))
    }

    /// Commands 30 to 35: writes of a command, and the driver.
    fn run_driver(&mut self, command: &[u64]) -> Result<Option<Vec<u64>>, Misfit> {
        match *command {
            [op::WRITES, part, command, address, data] => {
                let writes =
                    driver::writes(long(part)?, long(command)?, long(address)?, word(data)?);
                let mut numbers = vec![writes.answer.into(), writes.count.into()];
                for (address, data) in writes.list {
                    numbers.extend([u64::from(address), u64::from(data)]);
                }
                Ok(Some(numbers))
            }
            [op::KTH, part, command, address, data, k] => {
                let (answer, address, data) = driver::kth_write(
                    long(part)?,
                    long(command)?,
                    long(address)?,
                    word(data)?,
                    long(k)?,
                );
                Ok(Some(vec![answer.into(), address.into(), data.into()]))
            }
            [op::START, part, command, address, data, p] => {
                let (answer, driver) = driver::start(
                    long(part)?,
                    long(command)?,
                    long(address)?,
                    word(data)?,
                    long(p)?,
                );
                self.driver = driver;
                self.reply = 0;
                let mut numbers = vec![answer.into()];
                numbers.extend(driver_numbers(&driver));
                Ok(Some(numbers))
            }
            [op::DRIVER, _, _, _, _, _, _, _] => {
                self.driver = driver_from(&command[1..])?;
                self.reply = 0;
                Ok(None)
            }
            [op::STEP, read] => {
                let step = driver::step(self.driver, word(read)?);
                self.driver = step.driver;
                let mut numbers = vec![step.answer.into()];
                numbers.extend(named_numbers(&step.named));
                numbers.push(step.polls.into());
                numbers.extend(driver_numbers(&step.driver));
                Ok(Some(numbers))
            }
            [op::RUN, wp, limit] => Ok(Some(self.run_on_model(level(wp)?, limit))),
            _ => Err(format!("no such command: {command:?}")),
        }
    }

    /// Command 35: the driver against the model, at most `limit` steps.
    fn run_on_model(&mut self, wp_high: bool, limit: u64) -> Vec<u64> {
        let mut steps = 0;
        let mut refused = 0;
        loop {
            let step = driver::step(self.driver, self.reply);
            self.driver = step.driver;
            steps += 1;
            if let Some(next) = named_cycle(&step.named, wp_high) {
                refused = self.send(next).0;
                if refused == 0 && steps < limit {
                    continue;
                }
            }
            let mut numbers = vec![
                step.answer.into(),
                named_numbers(&step.named)[0],
                steps,
                step.polls.into(),
                refused.into(),
                self.reply.into(),
            ];
            numbers.extend(driver_numbers(&self.driver));
            numbers.extend(device_numbers(&self.device));
            return numbers;
        }
    }

    /// Commands 50 to 55: the image, the job and its second call.
    fn run_job(&mut self, command: &[u64]) -> Result<Option<Vec<u64>>, Misfit> {
        match *command {
            [op::IMAGE, count, a, b, mask] if count as usize <= IMAGE => {
                self.image = vec![0; count as usize];
                fill(&mut self.image, 0, a, b, mask);
                Ok(None)
            }
            [op::IMAGE_FILL, from, to, a, b, mask] => {
                fill(self.image_of(from, to)?, from, a, b, mask);
                Ok(None)
            }
            [op::IMAGE_PATCH, index, value] => {
                self.image_of(index, index + 1)?[0] = word(value)?;
                Ok(None)
            }
            [op::IMAGE_COPY, index, from, count, mask] => {
                let mask = word(mask)?;
                let cells = self.cells_of(from, from + count)?.to_vec();
                let image = self.image_of(index, index + count)?;
                for (value, cell) in image.iter_mut().zip(cells) {
                    *value = cell & mask;
                }
                Ok(None)
            }
            [op::LOAD, first, wp, p] => {
                let bill = job::load(
                    &Job {
                        part: self.part,
                        first: long(first)?,
                        image: &self.image,
                        wp_high: level(wp)?,
                        p: long(p)?,
                    },
                    &mut self.cells[..self.lent],
                );
                Ok(Some(bill_numbers(&bill).to_vec()))
            }
            [op::FIRST, first, wp, p, k] => {
                let prefix = job::send_first(
                    &Job {
                        part: self.part,
                        first: long(first)?,
                        image: &self.image,
                        wp_high: level(wp)?,
                        p: long(p)?,
                    },
                    &mut self.cells[..self.lent],
                    k,
                );
                Ok(Some(prefix_numbers(&prefix)))
            }
            _ => Err(format!("no such command: {command:?}")),
        }
    }

    /// Commands 60 to 63: job files and `bill`.
    fn run_file(&mut self, command: &[u64]) -> Result<Option<Vec<u64>>, Misfit> {
        match *command {
            [op::FILE, length, a, b] if length as usize <= FILE => {
                self.file = (0..length as usize)
                    .map(|index| pattern(index, a, b, 255) as u8)
                    .collect();
                Ok(None)
            }
            [op::BYTES, offset, count, ref bytes @ ..] if count == bytes.len() as u64 => {
                let place = self
                    .file
                    .get_mut(offset as usize..(offset + count) as usize)
                    .ok_or("bytes past the file's end")?;
                for (byte, &number) in place.iter_mut().zip(bytes) {
                    *byte = u8::try_from(number).map_err(|_| format!("{number} is no byte"))?;
                }
                Ok(None)
            }
            [op::PARSE] => Ok(Some(match file::parse(&self.file) {
                None => vec![13, 0, 0, 0, 0, 0, 0],
                Some(file) => vec![
                    0,
                    file.part.into(),
                    file.wp_high.into(),
                    file.first.into(),
                    file.p.into(),
                    file.image.len() as u64,
                    hash(&file.image).into(),
                ],
            })),
            [op::BILL] => {
                self.part = 0;
                self.lent = BENCH_CELLS;
                self.device = Device::default();
                let cells = &mut self.cells[..BENCH_CELLS];
                cells.fill(0xFFFF);
                let bill = bill::bill(&self.file, cells);
                if bill.answer == 0 {
                    Ok(Some(bill_numbers(&bill).to_vec()))
                } else {
                    Ok(Some(vec![bill.answer.into()]))
                }
            }
            _ => Err(format!("no such command: {command:?}")),
        }
    }
}

/// Fills a run of values, the first of which has this index, by a pattern.
fn fill(values: &mut [u16], from: u64, a: u64, b: u64, mask: u64) {
    for (index, value) in (from as usize..).zip(values) {
        *value = pattern(index, a, b, mask);
    }
}

/// Runs a whole recorded input and gives what it prints.
pub fn replay(input: &str, cells: usize) -> Result<String, String> {
    let mut station = Station::new(cells);
    let mut printed = String::new();
    for (line, text) in (1..).zip(input.lines()) {
        let command: Result<Vec<u64>, _> = text.split_whitespace().map(str::parse).collect();
        let command = command.map_err(|error| format!("line {line}: {error}"))?;
        let numbers = station
            .run(&command)
            .map_err(|misfit| format!("line {line}: {misfit}"))?;
        if let Some(numbers) = numbers {
            printed.push_str(&line_of(&numbers));
        }
    }
    Ok(printed)
}

/// Numbers as a line of text.
pub fn line_of(numbers: &[u64]) -> String {
    let words: Vec<String> = numbers.iter().map(u64::to_string).collect();
    words.join(" ") + "\n"
}
