//! "One bus cycle" and "Writes in sequence": the model of the chip, with the
//! word that comes 1 µs after bit 7, and an erase that is held to fetch code.

use crate::part::{Kind, Part, MAKER};

/// The bit that Data# Polling goes by.
const BIT_7: u16 = 0x80;

/// The bit that alternates at every read while busy.
const BIT_6: u16 = 0x40;

/// The bit that alternates at the reads in an erase's range.
const BIT_2: u16 = 0x04;

/// The code that suspends an erase, at any address.
const SUSPEND: u16 = 0xB0;

/// The code that resumes it, at any address.
const RESUME: u16 = 0x30;

#[derive(Clone, Copy, Debug, Default, PartialEq, Eq)]
pub enum Mode {
    #[default]
    Read,
    Identification,
}

/// An operation that runs or is suspended. The default is none.
#[derive(Clone, Copy, Debug, Default, PartialEq, Eq)]
pub struct Operation {
    /// Its command number.
    pub kind: u32,
    /// Address and data of its last write, as written.
    pub address: u32,
    pub data: u16,
    /// µs of its time that are left; 0: there is no operation.
    pub left: u32,
    /// What bit 6 shows at the next busy read.
    pub toggle: bool,
}

impl Operation {
    /// What it is, if there is one.
    pub fn known(&self) -> Option<Kind> {
        if self.left > 0 {
            Kind::from_number(self.kind)
        } else {
            None
        }
    }

    /// Is there one, with this address in its range?
    pub fn holds(&self, part: &Part, address: u32) -> bool {
        self.known()
            .is_some_and(|kind| part.range(kind, self.address).contains(&address))
    }
}

/// The device beside its cells. The default is the fresh device.
#[derive(Clone, Copy, Debug, Default, PartialEq, Eq)]
pub struct Device {
    pub mode: Mode,
    /// Where the sequence stands: 0 none, 1 AAH, 2 55H, 3 armed by A0H,
    /// 4 after 80H, 5 second AAH, 6 second 55H.
    pub stage: u32,
    pub running: Operation,
    /// 1 while a completion is 0 µs old, else 0.
    pub recent: u32,
    /// 0 where the next read that shows bit 2 shows it as 1, 1 where it shows
    /// it as 0.
    pub turned: u32,
    /// The erase that is held. Its time stands still.
    pub suspended: Operation,
}

#[derive(Clone, Copy, Debug, PartialEq, Eq)]
pub enum Action {
    Read { address: u32 },
    Write { address: u32, data: u16 },
    Idle,
    Cut { scar: u16 },
}

#[derive(Clone, Copy, Debug, PartialEq, Eq)]
pub struct Cycle {
    /// µs since the last cycle.
    pub elapsed: u32,
    /// The WP# level.
    pub wp_high: bool,
    pub action: Action,
}

#[derive(Clone, Copy, Debug, PartialEq, Eq)]
pub struct Reply {
    pub answer: u32,
    pub value: u16,
    pub device: Device,
}

/// One bus cycle: refusals first, then time passes, then the cycle acts.
pub fn cycle(number: u32, cells: &mut [u16], device: Device, cycle: Cycle) -> Reply {
    let part = match accept(number, cells.len(), &device, &cycle) {
        Ok(part) => part,
        Err(answer) => {
            return Reply {
                answer,
                value: 0,
                device,
            }
        }
    };
    let device = pass_time(part, cells, device, cycle.elapsed);
    let (value, device) = match cycle.action {
        Action::Read { address } => read(part, cells, device, address),
        Action::Write { address, data } => (0, write(part, device, address, data, cycle.wp_high)),
        Action::Idle => (0, device),
        Action::Cut { scar } => {
            cut(part, cells, &device, scar);
            (0, Device::default())
        }
    };
    Reply {
        answer: 0,
        value,
        device,
    }
}

/// The refusals of a bus cycle in their order: 1, 2, 5, 3, 4.
fn accept(number: u32, lent: usize, device: &Device, cycle: &Cycle) -> Result<&'static Part, u32> {
    let part = Part::get(number).ok_or(1u32)?;
    if lent != part.cells as usize {
        return Err(2);
    }
    if !in_range(part, device) {
        return Err(5);
    }
    match cycle.action {
        Action::Read { address } if address >= part.cells => Err(3),
        Action::Write { address, .. } if address >= part.cells => Err(3),
        Action::Write { data, .. } if data > part.blank() => Err(4),
        _ => Ok(part),
    }
}

/// Is the given state in range for its part? (Refusal 5 if not.)
pub fn in_range(part: &Part, device: &Device) -> bool {
    device.stage <= 6
        && device.recent <= 1
        && device.turned <= 1
        && (device.suspended.left == 0 || may_be_suspended(part, &device.suspended))
        && (device.running.left == 0 || may_run(part, device))
}

/// Could the part have this operation under way at all?
fn is_sound(part: &Part, operation: &Operation) -> bool {
    let Some(kind) = Kind::from_number(operation.kind) else {
        return false;
    };
    part.knows(kind)
        && operation.left <= part.time(kind)
        && operation.address < part.cells
        && operation.data <= part.blank()
}

/// What is suspended is a sector or block erase, on parts 7 to 10.
fn may_be_suspended(part: &Part, erase: &Operation) -> bool {
    is_sound(part, erase) && erase.known().is_some_and(|kind| part.can_suspend(kind))
}

/// What runs does so in read mode, with no sequence begun and no completion
/// 0 µs old, and it is nothing that is ignored beside what is suspended.
fn may_run(part: &Part, device: &Device) -> bool {
    let running = &device.running;
    is_sound(part, running)
        && device.mode == Mode::Read
        && device.stage == 0
        && device.recent == 0
        && running
            .known()
            .is_some_and(|kind| !held_back(part, device, kind, running.address))
}

/// A program into the suspended range, and any erase, is ignored while
/// suspended.
pub fn held_back(part: &Part, device: &Device, kind: Kind, address: u32) -> bool {
    let suspended = &device.suspended;
    suspended.left > 0 && (kind != Kind::Program || suspended.holds(part, address))
}

/// Time passes: with less than the time left the operation goes on, otherwise
/// it completes on the cells. What passes beyond that only makes it older. The
/// time left of a suspended erase stands still.
fn pass_time(part: &Part, cells: &mut [u16], device: Device, elapsed: u32) -> Device {
    let running = device.running;
    let Some(kind) = running.known() else {
        return Device {
            recent: if elapsed == 0 { device.recent } else { 0 },
            ..device
        };
    };
    if elapsed < running.left {
        let left = running.left - elapsed;
        return Device {
            running: Operation { left, ..running },
            ..device
        };
    }
    let range = part.range(kind, running.address);
    let touched = &mut cells[range.start as usize..range.end as usize];
    match kind {
        Kind::Program => touched[0] &= running.data,
        Kind::Sector | Kind::Block | Kind::Chip => touched.fill(part.blank()),
    }
    Device {
        running: Operation::default(),
        recent: u32::from(elapsed == running.left),
        turned: 0,
        ..device
    }
}

/// A read, busy or at rest. It never disturbs a sequence.
fn read(part: &Part, cells: &[u16], device: Device, address: u32) -> (u16, Device) {
    match device.running.known() {
        Some(kind) => read_busy(part, device, kind, address),
        None => read_at_rest(part, cells, device, address),
    }
}

/// Bits 7 and 6 of the running operation, and bit 2 in the range of an erase
/// on the parts that suspend.
fn read_busy(part: &Part, device: Device, kind: Kind, address: u32) -> (u16, Device) {
    let running = device.running;
    let bit_7 = match kind {
        Kind::Program => !running.data & BIT_7,
        Kind::Sector | Kind::Block | Kind::Chip => 0,
    };
    let bit_6 = if running.toggle { BIT_6 } else { 0 };
    let toggle = !running.toggle;
    let after = Device {
        running: Operation { toggle, ..running },
        ..device
    };
    if part.suspends && kind != Kind::Program && running.holds(part, address) {
        let (bit_2, after) = show_bit_2(after);
        (bit_7 | bit_6 | bit_2, after)
    } else {
        (bit_7 | bit_6, after)
    }
}

/// The value at rest, with all the part's bits but 7 inverted while a
/// completion is 0 µs old.
fn read_at_rest(part: &Part, cells: &[u16], device: Device, address: u32) -> (u16, Device) {
    let (value, after) = match (device.mode, address) {
        (Mode::Read, _) if device.suspended.holds(part, address) => {
            let (bit_2, after) = show_bit_2(device);
            (BIT_7 | BIT_6 | bit_2, after)
        }
        (Mode::Read, _) => (part.value(cells[address as usize]), device),
        (Mode::Identification, 0) => (MAKER, device),
        (Mode::Identification, 1) => (part.device, device),
        (Mode::Identification, _) => (0, device),
    };
    let inverted = match device.recent {
        0 => 0,
        _ => part.value(!BIT_7),
    };
    (value ^ inverted, after)
}

/// Bit 2 as a read shows it, and the device that shows it the other way round
/// at the next.
fn show_bit_2(device: Device) -> (u16, Device) {
    let bit_2 = if device.turned == 0 { BIT_2 } else { 0 };
    let turned = 1 - device.turned;
    (bit_2, Device { turned, ..device })
}

/// A write: while busy it suspends or does nothing; at rest it resumes, or
/// continues or breaks the sequence.
fn write(part: &Part, device: Device, address: u32, data: u16, wp_high: bool) -> Device {
    let code = data & 0xFF;
    if let Some(kind) = device.running.known() {
        let suspends = part.can_suspend(kind) && code == SUSPEND;
        return if suspends { suspend(device) } else { device };
    }
    if device.suspended.left > 0 && device.stage == 0 && code == RESUME {
        return resume(device);
    }
    let at_u1 = part.is_u1(address);
    let at_u2 = part.is_u2(address);
    let stage = |stage: u32| Device { stage, ..device };
    let rest = |mode: Mode| Device {
        mode,
        stage: 0,
        ..device
    };
    let broken = rest(Mode::Read);
    let start = |kind: Kind| {
        if part.protects(kind, address, wp_high) || held_back(part, &device, kind, address) {
            return rest(Mode::Read);
        }
        Device {
            mode: Mode::Read,
            stage: 0,
            running: Operation {
                kind: kind.number(),
                address,
                data,
                left: part.time(kind),
                toggle: true,
            },
            recent: 0,
            turned: 0,
            ..device
        }
    };
    match device.stage {
        0 if code == 0xAA && at_u1 => stage(1),
        1 if code == 0x55 && at_u2 => stage(2),
        2 if code == 0xA0 && at_u1 => stage(3),
        2 if code == 0x90 && at_u1 => rest(Mode::Identification),
        2 if code == 0xF0 && at_u1 => rest(Mode::Read),
        2 if code == 0x80 && at_u1 => stage(4),
        3 => start(Kind::Program),
        4 if code == 0xAA && at_u1 => stage(5),
        5 if code == 0x55 && at_u2 => stage(6),
        6 => part.erase(address, data).map_or(broken, start),
        _ => broken,
    }
}

/// The running erase is held with the time that it has left; bits 6 and 2
/// begin anew. What runs does so in read mode with no sequence begun, and so it
/// stays.
fn suspend(device: Device) -> Device {
    Device {
        running: Operation::default(),
        turned: 0,
        suspended: Operation {
            toggle: true,
            ..device.running
        },
        ..device
    }
}

/// The suspended erase runs on with the time that it has left; bits 6 and 2
/// begin anew. That ends identification mode, and a completion is no longer
/// 0 µs old.
fn resume(device: Device) -> Device {
    Device {
        running: Operation {
            toggle: true,
            ..device.suspended
        },
        ..Device::default()
    }
}

/// What a power cut leaves on the cells of a running operation, and on those of
/// a suspended erase.
fn cut(part: &Part, cells: &mut [u16], device: &Device, scar: u16) {
    let scar = part.value(scar);
    for operation in [&device.running, &device.suspended] {
        let Some(kind) = operation.known() else {
            continue;
        };
        let range = part.range(kind, operation.address);
        for cell in &mut cells[range.start as usize..range.end as usize] {
            *cell = match kind {
                Kind::Program => *cell & (operation.data | scar),
                Kind::Sector | Kind::Block | Kind::Chip => part.value(*cell) | scar,
            };
        }
    }
}
