//! The events of erases that are suspended, or could be.

use super::{is_stray, Ground, Watch, KINDS};
use crate::cycle::{Device, Mode, Operation};
use crate::part::{Kind, Part};
use crate::station::op;

/// The device at rest once the cycle's time has passed, of one that was busy
/// before or not.
pub fn rested(before: &Device) -> Device {
    if before.running.left == 0 {
        return *before;
    }
    Device {
        running: Operation::default(),
        turned: 0,
        ..*before
    }
}

/// The operation that a last write asks for at this stage, if it asks for one.
pub fn asked(device: &Device, part: &Part, address: u32, data: u16) -> Option<Kind> {
    match device.stage {
        3 => Some(Kind::Program),
        6 => part.erase(address, data),
        _ => None,
    }
}

/// The grounds of refusal 5 that a suspended erase gives.
pub fn grounds(part: &Part, device: &Device) -> Vec<Ground> {
    let (erase, running) = (&device.suspended, &device.running);
    if erase.left == 0 {
        return Vec::new();
    }
    let kind = Kind::from_number(erase.kind);
    let held = matches!(kind, Some(Kind::Sector | Kind::Block));
    let sound = part.suspends && held && erase.address < part.cells;
    let beside = if running.left > 0 {
        Kind::from_number(running.kind)
    } else {
        None
    };
    vec![
        (
            !part.suspends,
            "cycle: refusal 5 by an erase suspended on parts 0 to 6 only",
        ),
        (!held, "cycle: refusal 5 by the suspended kind only"),
        (
            erase.left > part.erase_time,
            "cycle: refusal 5 by the suspended time left only",
        ),
        (
            erase.address >= part.cells,
            "cycle: refusal 5 by the suspended address only",
        ),
        (
            beside.is_some_and(|kind| kind != Kind::Program),
            "cycle: refusal 5 by an erase beside the suspended one only",
        ),
        (
            beside == Some(Kind::Program) && sound && erase.holds(part, running.address),
            "cycle: refusal 5 by a program in the suspended range only",
        ),
    ]
}

/// The first and last cell of a valid operation's range.
fn ends(part: &Part, operation: &Operation) -> (u32, u32) {
    let kind = operation.known().expect("an operation under way");
    let range = part.range(kind, operation.address);
    (range.start, range.end - 1)
}

/// Is this address just outside the range of a valid operation?
fn just_outside(part: &Part, operation: &Operation, address: u32) -> bool {
    let (first, last) = ends(part, operation);
    address + 1 == first || address == last + 1
}

impl Watch {
    /// What a taken cycle does to an erase that is suspended or could be.
    pub(super) fn see_suspends(
        &mut self,
        before: &Device,
        after: &Device,
        part: &Part,
        command: &[u64],
        printed: &[u64],
    ) {
        let busy = u64::from(before.running.left) > command[1];
        self.see_stray(before, after, command[0]);
        self.see_end(before, command);
        match command[0] {
            op::READ if busy => self.see_busy_bit_2(before, part, command[3] as u32, printed[2]),
            op::READ if before.suspended.left > 0 => {
                self.see_suspended_read(before, after, part, command[3] as u32);
            }
            op::WRITE if busy => self.see_busy_write(before, after, part, command),
            op::WRITE if before.suspended.left > 0 => {
                self.see_suspended_write(before, after, part, command);
            }
            op::WRITE => self.see_code_at_rest(before, part, command),
            op::IDLE => self.counts.add_if(
                before.suspended.left > 0 && command[1] > 0,
                "cycle: idle for some time, an erase suspended",
            ),
            op::CUT if before.suspended.left > 0 => self.see_suspended_cut(before, busy),
            _ => {}
        }
    }

    /// Stray fields where no erase is suspended.
    fn see_stray(&mut self, before: &Device, after: &Device, cycle: u64) {
        if !is_stray(&before.suspended) {
            return;
        }
        self.counts.add(if cycle == op::CUT {
            "cycle: stray suspended fields cut"
        } else if after.suspended.left > 0 {
            "cycle: suspended over stray fields"
        } else {
            "cycle: stray suspended fields passed through"
        });
    }

    /// An operation that completes.
    fn see_end(&mut self, before: &Device, command: &[u64]) {
        let left = u64::from(before.running.left);
        if left == 0 || command[1] < left {
            return;
        }
        let counts = &mut self.counts;
        let beside = before.suspended.left > 0;
        counts.add_if(beside, "cycle: program completed, an erase suspended");
        counts.add_if(
            beside && command[1] == left,
            "cycle: program completed just then, an erase suspended",
        );
        counts.add_if(
            before.running.kind != 0 && before.turned == 1,
            "cycle: erase completed, bit 2 had turned",
        );
    }

    /// Bit 2 of a read while busy.
    fn see_busy_bit_2(&mut self, before: &Device, part: &Part, address: u32, value: u64) {
        let counts = &mut self.counts;
        let running = &before.running;
        if running.kind == 0 {
            counts.add_if(
                before.suspended.holds(part, address),
                "cycle: read busy in the suspended range, a program running",
            );
            return;
        }
        if !part.suspends {
            counts.add("cycle: read busy of an erase, parts 0 to 6");
            return;
        }
        counts.add_if(
            running.kind == 3,
            "cycle: read busy of a chip erase, parts 7 to 10",
        );
        if !running.holds(part, address) {
            counts.add("cycle: read busy outside an erase's range, parts 7 to 10");
            return;
        }
        let (bit_6, bit_2) = (value & 0x40 != 0, value & 4 != 0);
        counts.add("cycle: read busy in an erase's range, parts 7 to 10");
        counts.add_if(
            !bit_2,
            "cycle: read busy in an erase's range, parts 7 to 10, bit 2 shows 0",
        );
        counts.add_if(
            bit_6 != bit_2,
            "cycle: read busy in an erase's range, parts 7 to 10, bits 6 and 2 differ",
        );
    }

    /// A read at rest while an erase is suspended.
    fn see_suspended_read(&mut self, before: &Device, after: &Device, part: &Part, address: u32) {
        let counts = &mut self.counts;
        let (erase, device) = (&before.suspended, rested(before));
        if !erase.holds(part, address) {
            if device.mode == Mode::Read {
                counts.add("cycle: read outside the suspended range");
                counts.add_if(
                    just_outside(part, erase, address),
                    "cycle: read just outside the suspended range",
                );
            }
            return;
        }
        if device.mode == Mode::Identification {
            counts.add("cycle: read of the suspended range in identification");
            return;
        }
        let (first, last) = ends(part, erase);
        let (turned, recent) = (device.turned == 1, after.recent == 1);
        let kinds = [
            (true, ""),
            (turned && !recent, ", bit 2 shows 0"),
            (address == first, ", its first cell"),
            (address == last, ", its last cell"),
            (device.stage > 0, ", inside a sequence"),
            (recent, ", completion 0 µs old"),
            (
                recent && turned,
                ", completion 0 µs old, bit 2 would show 0",
            ),
        ];
        for (holds, what) in kinds {
            counts.add_if(holds, &format!("cycle: read of the suspended range{what}"));
        }
    }

    /// B0H or 30H while something runs.
    fn see_busy_write(&mut self, before: &Device, after: &Device, part: &Part, command: &[u64]) {
        let counts = &mut self.counts;
        let beside = before.suspended.left > 0;
        let kind = before.running.kind;
        match command[4] & 0xFF {
            0xB0 if after.running.left == 0 => self.see_suspend(before, after, part, command),
            0xB0 if beside => counts.add("cycle: B0H while a program runs, an erase suspended"),
            0xB0 if kind != 0 && !part.suspends => {
                counts.add("cycle: B0H while an erase runs, parts 0 to 6");
            }
            0xB0 if kind == 0 && part.suspends => {
                counts.add("cycle: B0H while a program runs, parts 7 to 10");
            }
            0xB0 if kind == 3 => counts.add("cycle: B0H while a chip erase runs, parts 7 to 10"),
            0x30 if beside => counts.add("cycle: 30H while a program runs, an erase suspended"),
            _ => {}
        }
    }

    /// A write that suspends.
    fn see_suspend(&mut self, before: &Device, after: &Device, part: &Part, command: &[u64]) {
        let counts = &mut self.counts;
        let name = KINDS[before.running.kind as usize];
        let left = after.suspended.left;
        counts.add(&format!("cycle: {name} suspended"));
        counts.add_if(
            left == part.erase_time,
            "cycle: suspended with its whole time left",
        );
        counts.add_if(left == 1, "cycle: suspended with 1 µs left");
        counts.add_if(command[4] > 255, "cycle: suspended by B0H with a high byte");
        counts.add_if(command[2] == 0, "cycle: suspended, WP# low");
        counts.add_if(before.turned == 1, "cycle: suspended, bit 2 had turned");
    }

    /// B0H or 30H at rest with nothing suspended.
    fn see_code_at_rest(&mut self, before: &Device, part: &Part, command: &[u64]) {
        let counts = &mut self.counts;
        let ended = before.running.left > 0 && matches!(before.running.kind, 1 | 2);
        let code = command[4] & 0xFF;
        counts.add_if(
            code == 0xB0 && ended && part.suspends,
            "cycle: B0H at the time left of an erase or later",
        );
        if before.stage > 0 {
            return;
        }
        match (code, part.suspends) {
            (0xB0, false) => counts.add("cycle: B0H at rest, parts 0 to 6"),
            (0xB0, true) => counts.add("cycle: B0H at rest, nothing suspended"),
            (0x30, false) => counts.add("cycle: 30H at rest, parts 0 to 6"),
            (0x30, true) => counts.add("cycle: 30H at rest, nothing suspended"),
            _ => {}
        }
    }

    /// A write at rest while an erase is suspended.
    fn see_suspended_write(
        &mut self,
        before: &Device,
        after: &Device,
        part: &Part,
        command: &[u64],
    ) {
        let (address, data) = (command[3] as u32, command[4] as u16);
        let device = rested(before);
        if after.suspended.left == 0 {
            return self.see_resume(before, command);
        }
        let counts = &mut self.counts;
        match (data & 0xFF, device.stage) {
            (0x30, stage) => {
                counts.add(&format!("cycle: 30H at stage {stage}, an erase suspended"));
            }
            (0xB0, 0) => counts.add("cycle: B0H at rest, an erase suspended"),
            (0xB0, _) => counts.add("cycle: B0H with a sequence begun, an erase suspended"),
            (0xF0, 0) => counts.add("cycle: F0H at rest, an erase suspended"),
            (0x90, 2) => counts.add_if(
                after.mode == Mode::Identification,
                "cycle: identification entered, an erase suspended",
            ),
            _ => {}
        }
        match asked(&device, part, address, data) {
            Some(Kind::Program) => self.see_program(&device, after, part, address),
            Some(kind) => {
                let name = KINDS[kind.number() as usize];
                counts.add(&format!("cycle: {name} ignored, an erase suspended"));
            }
            None => {}
        }
    }

    /// A program's last write while an erase is suspended.
    fn see_program(&mut self, device: &Device, after: &Device, part: &Part, address: u32) {
        let counts = &mut self.counts;
        let erase = &device.suspended;
        if erase.holds(part, address) {
            let (first, last) = ends(part, erase);
            counts.add("cycle: program into the suspended range ignored");
            counts.add_if(
                address == first || address == last,
                "cycle: program at an edge of the suspended range ignored",
            );
        } else if after.running.left > 0 {
            counts.add("cycle: program started, an erase suspended");
            counts.add_if(
                device.turned == 1,
                "cycle: program started, an erase suspended, bit 2 had turned",
            );
            counts.add_if(
                just_outside(part, erase, address),
                "cycle: program started just outside the suspended range",
            );
        } else {
            counts.add("cycle: program ignored by protection, an erase suspended");
        }
    }

    /// A write that resumes.
    fn see_resume(&mut self, before: &Device, command: &[u64]) {
        let counts = &mut self.counts;
        let name = KINDS[before.suspended.kind as usize];
        let device = rested(before);
        counts.add(&format!("cycle: {name} resumed"));
        counts.add_if(command[4] > 255, "cycle: resumed by 30H with a high byte");
        counts.add_if(command[1] > 0, "cycle: resumed after some time");
        counts.add_if(
            device.mode == Mode::Identification,
            "cycle: resumed in identification",
        );
        counts.add_if(command[2] == 0, "cycle: resumed, WP# low");
        counts.add_if(device.turned == 1, "cycle: resumed, bit 2 had turned");
        counts.add_if(
            before.running.left > 0,
            "cycle: resumed as a program completes",
        );
        counts.add_if(
            device.recent == 1 && command[1] == 0,
            "cycle: resumed, completion 0 µs old",
        );
    }

    /// A cut while an erase is suspended; `busy` with a program running.
    fn see_suspended_cut(&mut self, before: &Device, busy: bool) {
        let completed = before.running.left > 0 && !busy;
        let kinds = [
            (true, ""),
            (busy, ", a program running"),
            (completed, ", a program completed"),
            (before.mode == Mode::Identification, ", in identification"),
            (before.stage > 0, ", inside a sequence"),
        ];
        for (holds, what) in kinds {
            self.counts
                .add_if(holds, &format!("cycle: cut, an erase suspended{what}"));
        }
    }
}
