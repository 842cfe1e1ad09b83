//! "The driver": one program or erase as a machine that hands its state back.

use crate::part::{Kind, Part};

/// The writes of one command: their number, and six places, unused ones zero.
#[derive(Clone, Copy, Debug, Default, PartialEq, Eq)]
pub struct Writes {
    pub answer: u32,
    pub count: u32,
    /// Address and data of each write.
    pub list: [(u32, u16); 6],
}

/// µs that the confirming read carries.
pub const CONFIRMING_TIME: u32 = 1;

pub const WRITING: u32 = 0;
pub const POLLING: u32 = 1;
pub const CONFIRMING: u32 = 2;
pub const DONE: u32 = 3;
pub const GAVE_UP: u32 = 4;
pub const DIFFERS: u32 = 5;

/// The driver's whole state, which the caller keeps between the steps.
#[derive(Clone, Copy, Debug, Default, PartialEq, Eq)]
pub struct Driver {
    pub part: u32,
    pub command: u32,
    pub address: u32,
    pub data: u16,
    pub p: u32,
    /// One of the six phases above.
    pub phase: u32,
    /// While writing the writes named so far, later the polls named so far.
    pub count: u32,
}

/// The cycle that a step names. The caller adds the WP# level.
#[derive(Clone, Copy, Debug, Default, PartialEq, Eq)]
pub enum Named {
    #[default]
    Nothing,
    Read {
        elapsed: u32,
        address: u32,
    },
    /// Writes always carry 0 µs.
    Write {
        address: u32,
        data: u16,
    },
}

#[derive(Clone, Copy, Debug, PartialEq, Eq)]
pub struct Step {
    /// 0 with a cycle; 0, 11 or 12 at the end; 5 refused.
    pub answer: u32,
    pub named: Named,
    /// Polls named so far.
    pub polls: u32,
    pub driver: Driver,
}

/// The refusals of a command in their order: 1, 10 (where there is a p), 14,
/// 3 (not for chip), 4 (program only). A command that passes is returned with
/// its part.
fn accept(
    number: u32,
    command: u32,
    address: u32,
    data: u16,
    p: Option<u32>,
) -> Result<(&'static Part, Kind), u32> {
    let part = Part::get(number).ok_or(1u32)?;
    if p.is_some_and(|p| p == 0 || p > 1_000) {
        return Err(10);
    }
    let kind = Kind::from_number(command)
        .filter(|kind| part.knows(*kind))
        .ok_or(14u32)?;
    if kind != Kind::Chip && address >= part.cells {
        return Err(3);
    }
    if kind == Kind::Program && data > part.blank() {
        return Err(4);
    }
    Ok((part, kind))
}

/// The writes of an accepted command: their number and the list.
fn list(part: &Part, kind: Kind, address: u32, data: u16) -> (u32, [(u32, u16); 6]) {
    let (u1, u2) = (part.unlock.u1, part.unlock.u2);
    let (first, second) = ((u1, 0xAA), (u2, 0x55));
    let erase = |last| [first, second, (u1, 0x80), first, second, last];
    match kind {
        Kind::Program => {
            let (arm, last, unused) = ((u1, 0xA0), (address, data), (0, 0));
            (4, [first, second, arm, last, unused, unused])
        }
        Kind::Sector => (6, erase((address, part.sector_code))),
        Kind::Block => (6, erase((address, part.block_code))),
        Kind::Chip => (6, erase((u1, 0x10))),
    }
}

/// One command's writes together.
pub fn writes(part: u32, command: u32, address: u32, data: u16) -> Writes {
    match accept(part, command, address, data, None) {
        Ok((part, kind)) => {
            let (count, list) = list(part, kind, address, data);
            Writes {
                answer: 0,
                count,
                list,
            }
        }
        Err(answer) => Writes {
            answer,
            ..Writes::default()
        },
    }
}

/// The k-th write of a command, from 0: answer, address, data.
pub fn kth_write(part: u32, command: u32, address: u32, data: u16, k: u32) -> (u32, u32, u16) {
    let writes = writes(part, command, address, data);
    if writes.answer != 0 {
        return (writes.answer, 0, 0);
    }
    if k >= writes.count {
        return (15, 0, 0);
    }
    let (address, data) = writes.list[k as usize];
    (0, address, data)
}

/// A start: the answer and the state from which the steps go on.
pub fn start(part: u32, command: u32, address: u32, data: u16, p: u32) -> (u32, Driver) {
    match accept(part, command, address, data, Some(p)) {
        Ok((_, kind)) => {
            let driver = Driver {
                part,
                command,
                address: if kind == Kind::Chip { 0 } else { address },
                data: if kind == Kind::Program { data } else { 0 },
                p,
                phase: WRITING,
                count: 0,
            };
            (0, driver)
        }
        Err(answer) => (answer, Driver::default()),
    }
}

/// The part and kind of a state that is in range, none otherwise (refusal 5).
fn in_range(driver: &Driver) -> Option<(&'static Part, Kind)> {
    let (part, kind) = accept(
        driver.part,
        driver.command,
        driver.address,
        driver.data,
        Some(driver.p),
    )
    .ok()?;
    let writes = if kind == Kind::Program { 4 } else { 6 };
    let most = 2 * part.polls(kind, driver.p);
    let fits = match driver.phase {
        WRITING => driver.count < writes,
        POLLING => driver.count <= most,
        CONFIRMING | DONE | DIFFERS => 1 <= driver.count && driver.count <= most,
        GAVE_UP => driver.count == most,
        _ => false,
    };
    fits.then_some((part, kind))
}

/// One step: given the value last read, the next cycle or the end.
pub fn step(driver: Driver, read: u16) -> Step {
    let Some((part, kind)) = in_range(&driver) else {
        return Step {
            answer: 5,
            named: Named::Nothing,
            polls: 0,
            driver,
        };
    };
    let address = if kind == Kind::Chip {
        0
    } else {
        driver.address
    };
    let wanted = if kind == Kind::Program {
        driver.data
    } else {
        part.blank()
    };
    let read = part.value(read);
    let go_on = |phase: u32, count: u32, named: Named| Step {
        answer: 0,
        named,
        polls: if phase == WRITING { 0 } else { count },
        driver: Driver {
            phase,
            count,
            ..driver
        },
    };
    let end = |phase: u32| Step {
        answer: match phase {
            GAVE_UP => 11,
            DIFFERS => 12,
            _ => 0,
        },
        named: Named::Nothing,
        polls: driver.count,
        driver: Driver { phase, ..driver },
    };
    let poll = || {
        let elapsed = driver.p;
        go_on(POLLING, driver.count + 1, Named::Read { elapsed, address })
    };
    match driver.phase {
        WRITING => {
            let (number, list) = list(part, kind, driver.address, driver.data);
            let (address, data) = list[driver.count as usize];
            let named = Named::Write { address, data };
            if driver.count + 1 < number {
                go_on(WRITING, driver.count + 1, named)
            } else {
                go_on(POLLING, 0, named)
            }
        }
        // The last cycle was the last write: its value is ignored.
        POLLING if driver.count == 0 => poll(),
        POLLING if (read ^ wanted) & 0x80 == 0 => {
            let elapsed = CONFIRMING_TIME;
            go_on(CONFIRMING, driver.count, Named::Read { elapsed, address })
        }
        POLLING if driver.count == 2 * part.polls(kind, driver.p) => end(GAVE_UP),
        POLLING => poll(),
        CONFIRMING if read == wanted => end(DONE),
        CONFIRMING => end(DIFFERS),
        // A finished driver repeats its ending.
        ended => end(ended),
    }
}
