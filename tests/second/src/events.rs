//! Counts what happens in the recorded cases, to show that they reach the
//! interesting places.

mod suspends;

use std::collections::BTreeMap;

use crate::cycle::{held_back, in_range, Device, Mode, Operation};
use crate::driver::{self, Driver};
use crate::part::{Kind, Part};
use crate::station::{op, Station};

/// Every event that is counted. Each has to occur often.
const NAMES: &[&str] = &[
    "cycle: read at rest",
    "cycle: read busy",
    "cycle: read busy, bit 6 shows 0",
    "cycle: read busy, bit 7 shows 1",
    "cycle: read in identification, maker",
    "cycle: read in identification, device",
    "cycle: read in identification, other",
    "cycle: read inside a sequence",
    "cycle: read of a cell above 255, eight-bit part",
    "cycle: write busy",
    "cycle: idle",
    "cycle: idle inside a sequence",
    "cycle: continued stage 0",
    "cycle: continued stage 1",
    "cycle: continued stage 2",
    "cycle: continued stage 4",
    "cycle: continued stage 5",
    "cycle: broken stage 0",
    "cycle: broken stage 1",
    "cycle: broken stage 2",
    "cycle: broken stage 4",
    "cycle: broken stage 5",
    "cycle: broken stage 6",
    "cycle: broken by AAH at U1",
    "cycle: broken by 50H, parts 1 to 3",
    "cycle: broken by 10H off U1",
    "cycle: broken in identification",
    "cycle: unlock at an alias address",
    "cycle: code with a high byte",
    "cycle: entered identification",
    "cycle: left identification by the command F0H",
    "cycle: left identification by a start",
    "cycle: WP# switched inside a sequence",
    "cycle: WP# switched at the last write",
    "cycle: program started",
    "cycle: sector started",
    "cycle: block started",
    "cycle: chip started",
    "cycle: program completed",
    "cycle: sector completed",
    "cycle: block completed",
    "cycle: chip completed",
    "cycle: program cut",
    "cycle: sector cut",
    "cycle: block cut",
    "cycle: chip cut",
    "cycle: program ignored by protection",
    "cycle: sector ignored by protection",
    "cycle: block ignored by protection",
    "cycle: chip ignored by protection",
    "cycle: program in the protected block started, WP# high",
    "cycle: erase in the protected block started, WP# high",
    "cycle: started outside the protected block, WP# low",
    "cycle: time one below the time left",
    "cycle: time equal to the time left",
    "cycle: time one above the time left",
    "cycle: cut at the time left or later",
    "cycle: program completed just then",
    "cycle: sector completed just then",
    "cycle: block completed just then",
    "cycle: chip completed just then",
    "cycle: read as an operation completes",
    "cycle: write as an operation completes",
    "cycle: idle as an operation completes",
    "cycle: cut as an operation completes",
    "cycle: read one µs past the time left",
    "cycle: read, completion 0 µs old",
    "cycle: read, completion 0 µs old, eight-bit part",
    "cycle: read, completion 0 µs old, in identification",
    "cycle: read, completion 0 µs old, inside a sequence",
    "cycle: read, completion 1 µs old",
    "cycle: idle, completion 0 µs old",
    "cycle: cut, completion 0 µs old",
    "cycle: sequence continued, completion 0 µs old",
    "cycle: sequence broken, completion 0 µs old",
    "cycle: identification entered, completion 0 µs old",
    "cycle: command ignored, completion 0 µs old",
    "cycle: program started, completion 0 µs old",
    "cycle: erase started, completion 0 µs old",
    "cycle: refused, completion 0 µs old",
    "cycle: cut at rest",
    "cycle: cut in identification",
    "cycle: cut inside a sequence",
    "cycle: program over a cell above 255, eight-bit part",
    "cycle: erase over cells above 255, eight-bit part",
    "cycle: program cut over a cell above 255, eight-bit part",
    "cycle: erase cut over cells above 255, eight-bit part",
    "cycle: stray fields passed through",
    "cycle: started from stray fields",
    "cycle: refusal 1",
    "cycle: refusal 2",
    "cycle: refusal 5",
    "cycle: refusal 3",
    "cycle: refusal 4",
    "cycle: refused while busy",
    "cycle: several faults at once",
    "cycle: refusal 5 by stage above 6, nothing running",
    "cycle: refusal 5 by kind only",
    "cycle: refusal 5 by block on parts 1 to 3 only",
    "cycle: refusal 5 by time left only",
    "cycle: refusal 5 by address only",
    "cycle: refusal 5 by data only",
    "cycle: refusal 5 by identification only",
    "cycle: refusal 5 by a sequence only",
    "cycle: refusal 5 by a completion 0 µs old only",
    "cycle: refusal 5 by recent above 1, something running",
    "cycle: refusal 5 by recent above 1, nothing running",
    "cycle: refusal 5 by turned above 1, something running",
    "cycle: refusal 5 by turned above 1, nothing running",
    "cycle: refusal 5 by an erase suspended on parts 0 to 6 only",
    "cycle: refusal 5 by the suspended kind only",
    "cycle: refusal 5 by the suspended time left only",
    "cycle: refusal 5 by the suspended address only",
    "cycle: refusal 5 by an erase beside the suspended one only",
    "cycle: refusal 5 by a program in the suspended range only",
    "cycle: sector suspended",
    "cycle: block suspended",
    "cycle: suspended with its whole time left",
    "cycle: suspended with 1 µs left",
    "cycle: suspended by B0H with a high byte",
    "cycle: suspended, WP# low",
    "cycle: suspended, bit 2 had turned",
    "cycle: suspended over stray fields",
    "cycle: B0H at the time left of an erase or later",
    "cycle: B0H while a chip erase runs, parts 7 to 10",
    "cycle: B0H while a program runs, parts 7 to 10",
    "cycle: B0H while a program runs, an erase suspended",
    "cycle: B0H while an erase runs, parts 0 to 6",
    "cycle: B0H at rest, parts 0 to 6",
    "cycle: B0H at rest, nothing suspended",
    "cycle: B0H at rest, an erase suspended",
    "cycle: B0H with a sequence begun, an erase suspended",
    "cycle: F0H at rest, an erase suspended",
    "cycle: sector resumed",
    "cycle: block resumed",
    "cycle: resumed by 30H with a high byte",
    "cycle: resumed after some time",
    "cycle: resumed in identification",
    "cycle: resumed, WP# low",
    "cycle: resumed, bit 2 had turned",
    "cycle: resumed as a program completes",
    "cycle: resumed, completion 0 µs old",
    "cycle: 30H while a program runs, an erase suspended",
    "cycle: 30H at rest, parts 0 to 6",
    "cycle: 30H at rest, nothing suspended",
    "cycle: 30H at stage 1, an erase suspended",
    "cycle: 30H at stage 2, an erase suspended",
    "cycle: 30H at stage 3, an erase suspended",
    "cycle: 30H at stage 4, an erase suspended",
    "cycle: 30H at stage 5, an erase suspended",
    "cycle: 30H at stage 6, an erase suspended",
    "cycle: read of the suspended range",
    "cycle: read of the suspended range, bit 2 shows 0",
    "cycle: read of the suspended range, its first cell",
    "cycle: read of the suspended range, its last cell",
    "cycle: read of the suspended range, inside a sequence",
    "cycle: read of the suspended range, completion 0 µs old",
    "cycle: read of the suspended range, completion 0 µs old, bit 2 would show 0",
    "cycle: read outside the suspended range",
    "cycle: read just outside the suspended range",
    "cycle: read of the suspended range in identification",
    "cycle: read busy in the suspended range, a program running",
    "cycle: read busy in an erase's range, parts 7 to 10",
    "cycle: read busy in an erase's range, parts 7 to 10, bit 2 shows 0",
    "cycle: read busy in an erase's range, parts 7 to 10, bits 6 and 2 differ",
    "cycle: read busy outside an erase's range, parts 7 to 10",
    "cycle: read busy of a chip erase, parts 7 to 10",
    "cycle: read busy of an erase, parts 0 to 6",
    "cycle: erase completed, bit 2 had turned",
    "cycle: program started, an erase suspended",
    "cycle: program started, an erase suspended, bit 2 had turned",
    "cycle: program started just outside the suspended range",
    "cycle: program ignored by protection, an erase suspended",
    "cycle: program into the suspended range ignored",
    "cycle: program at an edge of the suspended range ignored",
    "cycle: sector ignored, an erase suspended",
    "cycle: block ignored, an erase suspended",
    "cycle: chip ignored, an erase suspended",
    "cycle: program completed, an erase suspended",
    "cycle: program completed just then, an erase suspended",
    "cycle: identification entered, an erase suspended",
    "cycle: idle for some time, an erase suspended",
    "cycle: cut, an erase suspended",
    "cycle: cut, an erase suspended, a program running",
    "cycle: cut, an erase suspended, a program completed",
    "cycle: cut, an erase suspended, in identification",
    "cycle: cut, an erase suspended, inside a sequence",
    "cycle: refused, an erase suspended",
    "cycle: stray suspended fields passed through",
    "cycle: stray suspended fields cut",
    "figure: answer 0",
    "figure: refusal 1",
    "figure: refusal 15",
    "writes: answer 0",
    "writes: refusal 1",
    "writes: refusal 14",
    "writes: refusal 3",
    "writes: refusal 4",
    "k-th: answer 0",
    "k-th: refusal 1",
    "k-th: refusal 14",
    "k-th: refusal 3",
    "k-th: refusal 4",
    "k-th: refusal 15",
    "start: program",
    "start: sector",
    "start: block",
    "start: chip",
    "start: refusal 1",
    "start: refusal 10",
    "start: refusal 14",
    "start: refusal 3",
    "start: refusal 4",
    "step: names a write",
    "step: names the last write",
    "step: names the first poll",
    "step: names a later poll",
    "step: names the confirming read",
    "step: ends with 0",
    "step: ends with 11",
    "step: ends with 12",
    "step: match at the last poll allowed",
    "step: repeats the ending 0",
    "step: repeats the ending 11",
    "step: repeats the ending 12",
    "step: refusal 5 by the start",
    "step: refusal 5 by the phase",
    "step: refusal 5 by the count",
    "run: ends with 0",
    "run: ends with 11",
    "run: ends with 12",
    "run: stopped by its limit",
    "run: stopped by a refused cycle",
    "run: stopped as its operation completes",
    "run: taken up, completion 0 µs old",
    "run: over with an erase suspended",
    "job: accepted",
    "job: count 0",
    "job: sector erased",
    "job: sector not erased",
    "job: nothing to program",
    "job: refusal 1",
    "job: refusal 2",
    "job: refusal 10",
    "job: refusal 6",
    "job: refusal 7",
    "job: refusal 8",
    "job: refusal 9",
    "second call: none sent",
    "second call: ends with a scan",
    "second call: ends with a poll or confirming read",
    "second call: ends with a poll as its operation completes",
    "second call: ends with a confirming read",
    "second call: ends with a write",
    "second call: ends with an operation running",
    "second call: k past the list",
    "second call: refused",
    "file: sound",
    "file: refusal 13",
    "bill: answer 0",
    "bill: answer 1",
    "bill: answer 2",
    "bill: answer 6",
    "bill: answer 7",
    "bill: answer 9",
    "bill: answer 10",
    "bill: answer 13",
];

/// The counts of all events.
pub struct Counts {
    numbers: BTreeMap<&'static str, u64>,
}

impl Default for Counts {
    fn default() -> Self {
        Counts {
            numbers: NAMES.iter().map(|name| (*name, 0)).collect(),
        }
    }
}

impl Counts {
    /// Counts one event, which has to be of the list.
    pub fn add(&mut self, name: &str) {
        self.add_many(name, 1);
    }

    fn add_many(&mut self, name: &str, number: u64) {
        *self
            .numbers
            .get_mut(name)
            .unwrap_or_else(|| panic!("no event {name:?}")) += number;
    }

    /// Counts an event of the list where it holds.
    pub fn add_if(&mut self, holds: bool, name: &str) {
        if holds {
            self.add(name);
        }
    }

    /// Adds the counts of another run.
    pub fn merge(&mut self, other: &Counts) {
        for (name, number) in &other.numbers {
            self.add_many(name, *number);
        }
    }

    /// The counts in the order of the list.
    pub fn list(&self) -> Vec<(&'static str, u64)> {
        NAMES
            .iter()
            .map(|name| (*name, self.numbers[name]))
            .collect()
    }
}

/// The names of the kinds in the events.
const KINDS: [&str; 4] = ["program", "sector", "block", "chip"];

/// The names of the bus cycles in the events, in the order of their commands.
const CYCLES: [&str; 4] = ["read", "write", "idle", "cut"];

/// Watches the commands given to a station.
#[derive(Default)]
pub struct Watch {
    pub counts: Counts,
    /// The WP# level of the last write.
    last_wp: u64,
}

/// What is kept of a station before a command.
pub struct Before {
    part: u32,
    device: Device,
    driver: Driver,
    lent: usize,
    /// Does the running operation's range hold a cell above 255?
    high_cells: bool,
}

impl Before {
    pub fn of(station: &Station) -> Before {
        Before {
            part: station.part,
            device: station.device,
            driver: station.driver,
            lent: station.lent,
            high_cells: high_cells(station),
        }
    }
}

/// The part and kind of the operation that runs in a valid state.
fn running(number: u32, device: &Device) -> Option<(&'static Part, Kind)> {
    let part = Part::get(number)?;
    let kind = device.running.known()?;
    in_range(part, device).then_some((part, kind))
}

/// Do the fields of no operation hold something?
fn is_stray(operation: &Operation) -> bool {
    operation.left == 0 && *operation != Operation::default()
}

/// Does the running operation's range hold a cell above 255, on an eight-bit
/// part?
fn high_cells(station: &Station) -> bool {
    match running(station.part, &station.device) {
        Some((part, kind)) if part.width == 8 => {
            let range = part.range(kind, station.device.running.address);
            station.cells[range.start as usize..range.end as usize]
                .iter()
                .any(|cell| *cell > 255)
        }
        _ => false,
    }
}

/// A ground of refusal 5: whether it holds, and the event of it alone.
type Ground = (bool, &'static str);

/// The grounds of refusal 5 with nothing running.
fn resting_grounds(device: &Device) -> Vec<Ground> {
    vec![
        (
            device.stage > 6,
            "cycle: refusal 5 by stage above 6, nothing running",
        ),
        (
            device.recent > 1,
            "cycle: refusal 5 by recent above 1, nothing running",
        ),
        (
            device.turned > 1,
            "cycle: refusal 5 by turned above 1, nothing running",
        ),
    ]
}

/// The grounds of refusal 5 with something running.
fn running_grounds(part: &Part, device: &Device) -> Vec<Ground> {
    let running = &device.running;
    let kind = Kind::from_number(running.kind);
    let time = kind.map(|kind| part.time(kind));
    vec![
        (kind.is_none(), "cycle: refusal 5 by kind only"),
        (
            kind.is_some_and(|kind| !part.knows(kind)),
            "cycle: refusal 5 by block on parts 1 to 3 only",
        ),
        (
            time.is_some_and(|time| running.left > time),
            "cycle: refusal 5 by time left only",
        ),
        (
            running.address >= part.cells,
            "cycle: refusal 5 by address only",
        ),
        (running.data > part.blank(), "cycle: refusal 5 by data only"),
        (
            device.mode == Mode::Identification,
            "cycle: refusal 5 by identification only",
        ),
        (device.stage > 0, "cycle: refusal 5 by a sequence only"),
        (
            device.recent == 1,
            "cycle: refusal 5 by a completion 0 µs old only",
        ),
        (
            device.recent > 1,
            "cycle: refusal 5 by recent above 1, something running",
        ),
        (
            device.turned > 1,
            "cycle: refusal 5 by turned above 1, something running",
        ),
    ]
}

impl Watch {
    /// Counts the events of one command; `printed` is the line it printed.
    pub fn see(&mut self, before: &Before, station: &Station, command: &[u64], printed: &[u64]) {
        match command[0] {
            op::READ..=op::CUT => self.see_cycle(before, station, command, printed),
            op::FIGURE => self.see_answer("figure", printed[1]),
            op::WRITES => self.see_answer("writes", printed[1]),
            op::KTH => self.see_answer("k-th", printed[1]),
            op::START if printed[1] == 0 => {
                let kind = KINDS[command[2] as usize];
                self.counts.add(&format!("start: {kind}"));
            }
            op::START => self.see_answer("start", printed[1]),
            op::STEP => self.see_step(&before.driver, &station.driver, printed),
            op::RUN => self.see_run(before, station, printed),
            op::LOAD => self.see_load(station, printed),
            op::FIRST => self.see_first(command, printed),
            op::PARSE if printed[1] == 0 => self.counts.add("file: sound"),
            op::PARSE => self.counts.add("file: refusal 13"),
            op::BILL => {
                let answer = printed[printed.len() - 1];
                self.counts.add(&format!("bill: answer {answer}"));
            }
            _ => {}
        }
    }

    /// An answer that is 0 or a refusal.
    fn see_answer(&mut self, place: &str, answer: u64) {
        let what = if answer == 0 { "answer" } else { "refusal" };
        self.counts.add(&format!("{place}: {what} {answer}"));
    }

    fn see_cycle(&mut self, before: &Before, station: &Station, command: &[u64], printed: &[u64]) {
        if printed[1] != 0 {
            self.see_refused_cycle(before, command, printed[1]);
            return;
        }
        let part = Part::get(before.part).expect("an accepted part");
        let left = before.device.running.left;
        let elapsed = command[1];
        if left > 0 {
            let left = u64::from(left);
            let edges = [
                (left - 1, "cycle: time one below the time left"),
                (left, "cycle: time equal to the time left"),
                (left + 1, "cycle: time one above the time left"),
            ];
            for (edge, name) in edges {
                self.counts.add_if(elapsed == edge, name);
            }
            self.see_operation(before, part, elapsed >= left, command);
        }
        self.see_completion(before, &station.device, part, command);
        self.see_suspends(&before.device, &station.device, part, command, printed);
        let busy = u64::from(left) > elapsed;
        match command[0] {
            op::READ if busy => self.see_busy_read(printed[2]),
            op::READ => self.see_read(before, station, part, command[3]),
            op::WRITE if busy => self.counts.add("cycle: write busy"),
            op::WRITE => self.see_write(before, &station.device, part, command),
            op::IDLE => {
                self.counts.add("cycle: idle");
                self.counts
                    .add_if(before.device.stage > 0, "cycle: idle inside a sequence");
            }
            _ if left == 0 => {
                let device = &before.device;
                self.counts.add("cycle: cut at rest");
                self.counts.add_if(
                    device.mode == Mode::Identification,
                    "cycle: cut in identification",
                );
                self.counts
                    .add_if(device.stage > 0, "cycle: cut inside a sequence");
            }
            _ => {}
        }
    }

    /// A cycle in which an operation completes, or that comes 0 µs or 1 µs
    /// after that.
    fn see_completion(&mut self, before: &Before, after: &Device, part: &Part, command: &[u64]) {
        let (elapsed, left) = (command[1], u64::from(before.device.running.left));
        let just = left > 0 && elapsed == left;
        let old = before.device.recent == 1 && elapsed == 0;
        let young = before.device.recent == 1 && elapsed == 1;
        let past = left > 0 && elapsed == left + 1;
        if just {
            let kind = KINDS[before.device.running.kind as usize];
            self.counts
                .add(&format!("cycle: {kind} completed just then"));
            let name = CYCLES[(command[0] - op::READ) as usize];
            self.counts
                .add(&format!("cycle: {name} as an operation completes"));
        }
        let counts = &mut self.counts;
        match command[0] {
            op::READ => {
                counts.add_if(past, "cycle: read one µs past the time left");
                counts.add_if(young, "cycle: read, completion 1 µs old");
                if just || old {
                    self.see_inverted_read(&before.device, part);
                }
            }
            op::IDLE => counts.add_if(old, "cycle: idle, completion 0 µs old"),
            op::CUT => counts.add_if(old, "cycle: cut, completion 0 µs old"),
            _ if old => self.see_early_write(&before.device, after, part, command),
            _ => {}
        }
    }

    /// A read at rest that shows all bits but 7 inverted.
    fn see_inverted_read(&mut self, device: &Device, part: &Part) {
        let counts = &mut self.counts;
        let identified = device.mode == Mode::Identification;
        counts.add("cycle: read, completion 0 µs old");
        counts.add_if(
            part.width == 8,
            "cycle: read, completion 0 µs old, eight-bit part",
        );
        counts.add_if(
            identified,
            "cycle: read, completion 0 µs old, in identification",
        );
        counts.add_if(
            device.stage > 0,
            "cycle: read, completion 0 µs old, inside a sequence",
        );
    }

    /// A write with a completion 0 µs old, by what it does.
    fn see_early_write(&mut self, before: &Device, after: &Device, part: &Part, command: &[u64]) {
        let (address, data) = (command[3] as u32, command[4] as u16);
        let erase = before.stage == 6 && part.erase(address, data).is_some();
        let left_by_command = before.stage == 2 && part.is_u1(address) && data & 0xFF == 0xF0;
        let started = after.running.left > 0;
        let what = if started && before.stage == 0 {
            // It was resumed, which is counted with the suspends.
            return;
        } else if started && before.stage == 3 {
            "program started"
        } else if started {
            "erase started"
        } else if after.stage > 0 {
            "sequence continued"
        } else if after.mode == Mode::Identification {
            "identification entered"
        } else if before.stage == 3 || erase {
            "command ignored"
        } else if left_by_command {
            return;
        } else {
            "sequence broken"
        };
        self.counts
            .add(&format!("cycle: {what}, completion 0 µs old"));
    }

    /// A refused bus cycle, its grounds and their number.
    fn see_refused_cycle(&mut self, before: &Before, command: &[u64], answer: u64) {
        self.counts.add(&format!("cycle: refusal {answer}"));
        let Some(part) = Part::get(before.part) else {
            return;
        };
        self.counts.add_if(
            running(before.part, &before.device).is_some(),
            "cycle: refused while busy",
        );
        self.counts.add_if(
            before.device.recent == 1 && in_range(part, &before.device),
            "cycle: refused, completion 0 µs old",
        );
        self.counts.add_if(
            before.device.suspended.left > 0 && in_range(part, &before.device),
            "cycle: refused, an erase suspended",
        );
        let addressed = matches!(command[0], op::READ | op::WRITE);
        let faults = [
            before.lent != part.cells as usize,
            !in_range(part, &before.device),
            addressed && command[3] >= u64::from(part.cells),
            command[0] == op::WRITE && command[4] > u64::from(part.blank()),
        ];
        self.counts.add_if(
            faults.iter().filter(|fault| **fault).count() > 1,
            "cycle: several faults at once",
        );
        if answer == 5 {
            self.see_grounds(part, &before.device);
        }
    }

    /// The grounds of a refusal 5 that stand alone.
    fn see_grounds(&mut self, part: &Part, device: &Device) {
        let mut grounds = if device.running.left > 0 {
            running_grounds(part, device)
        } else {
            resting_grounds(device)
        };
        grounds.extend(suspends::grounds(part, device));
        let holding: Vec<&str> = grounds
            .iter()
            .filter(|ground| ground.0)
            .map(|ground| ground.1)
            .collect();
        if let [name] = holding[..] {
            self.counts.add(name);
        }
    }

    /// An operation that completes or is cut in this cycle.
    fn see_operation(&mut self, before: &Before, part: &Part, over: bool, command: &[u64]) {
        let Some((_, kind)) = running(before.part, &before.device) else {
            return;
        };
        let cut = command[0] == op::CUT;
        self.counts
            .add_if(cut && over, "cycle: cut at the time left or later");
        let name = KINDS[kind.number() as usize];
        if over {
            self.counts.add(&format!("cycle: {name} completed"));
        } else if cut {
            self.counts.add(&format!("cycle: {name} cut"));
        } else {
            return;
        }
        if before.high_cells && part.width == 8 {
            self.counts.add(match (kind, over) {
                (Kind::Program, true) => "cycle: program over a cell above 255, eight-bit part",
                (Kind::Program, false) => {
                    "cycle: program cut over a cell above 255, eight-bit part"
                }
                (_, true) => "cycle: erase over cells above 255, eight-bit part",
                (_, false) => "cycle: erase cut over cells above 255, eight-bit part",
            });
        }
    }

    fn see_busy_read(&mut self, value: u64) {
        self.counts.add("cycle: read busy");
        self.counts
            .add_if(value & 0x40 == 0, "cycle: read busy, bit 6 shows 0");
        self.counts
            .add_if(value & 0x80 != 0, "cycle: read busy, bit 7 shows 1");
    }

    fn see_read(&mut self, before: &Before, station: &Station, part: &Part, address: u64) {
        let device = &before.device;
        self.counts
            .add_if(device.stage > 0, "cycle: read inside a sequence");
        if device.mode == Mode::Identification {
            self.counts.add(match address {
                0 => "cycle: read in identification, maker",
                1 => "cycle: read in identification, device",
                _ => "cycle: read in identification, other",
            });
            return;
        }
        self.counts.add("cycle: read at rest");
        self.counts.add_if(
            part.width == 8 && station.cells[address as usize] > 255,
            "cycle: read of a cell above 255, eight-bit part",
        );
    }

    /// A write at rest.
    fn see_write(&mut self, before: &Before, after: &Device, part: &Part, command: &[u64]) {
        let (wp, address, data) = (command[2], command[3] as u32, command[4] as u16);
        let device = suspends::rested(&before.device);
        let stray = is_stray(&device.running);
        let switched = device.stage > 0 && wp != self.last_wp;
        self.last_wp = wp;
        self.counts
            .add_if(switched, "cycle: WP# switched inside a sequence");
        if device.suspended.left > 0 && after.suspended.left == 0 {
            // It resumes, which is counted with the suspends.
            return;
        }
        if let Some(kind) = suspends::asked(&device, part, address, data) {
            self.counts
                .add_if(switched, "cycle: WP# switched at the last write");
            self.see_last_write(&device, part, kind, address, wp == 1);
            self.counts.add_if(
                stray && after.running.left > 0,
                "cycle: started from stray fields",
            );
            return;
        }
        self.counts
            .add_if(stray, "cycle: stray fields passed through");
        let command = device.stage == 2 && part.is_u1(address);
        let identified = device.mode == Mode::Identification;
        let entered = command && data & 0xFF == 0x90;
        let left = command && data & 0xFF == 0xF0;
        self.counts.add_if(entered, "cycle: entered identification");
        self.counts.add_if(
            left && identified,
            "cycle: left identification by the command F0H",
        );
        if after.stage > 0 || entered || left {
            self.counts
                .add(&format!("cycle: continued stage {}", device.stage));
            self.counts
                .add_if(data > 255, "cycle: code with a high byte");
            self.counts.add_if(
                address > part.unlock.mask,
                "cycle: unlock at an alias address",
            );
            return;
        }
        self.counts
            .add(&format!("cycle: broken stage {}", device.stage));
        self.counts
            .add_if(identified, "cycle: broken in identification");
        let code = data & 0xFF;
        self.counts.add_if(
            code == 0xAA && part.is_u1(address),
            "cycle: broken by AAH at U1",
        );
        self.counts.add_if(
            device.stage == 6 && code == 0x50,
            "cycle: broken by 50H, parts 1 to 3",
        );
        self.counts.add_if(
            device.stage == 6 && code == 0x10,
            "cycle: broken by 10H off U1",
        );
    }

    /// A last write: it starts its operation or is ignored.
    fn see_last_write(
        &mut self,
        device: &Device,
        part: &Part,
        kind: Kind,
        address: u32,
        wp_high: bool,
    ) {
        let name = KINDS[kind.number() as usize];
        if part.protects(kind, address, wp_high) {
            self.counts
                .add(&format!("cycle: {name} ignored by protection"));
            return;
        }
        if held_back(part, device, kind, address) {
            return;
        }
        self.counts.add(&format!("cycle: {name} started"));
        self.counts.add_if(
            device.mode == Mode::Identification,
            "cycle: left identification by a start",
        );
        let Some(block) = part.protected_block() else {
            return;
        };
        match (kind, wp_high, block.contains(&address)) {
            (Kind::Program, true, true) => self
                .counts
                .add("cycle: program in the protected block started, WP# high"),
            (Kind::Sector | Kind::Block, true, true) => self
                .counts
                .add("cycle: erase in the protected block started, WP# high"),
            (_, false, _) => self
                .counts
                .add("cycle: started outside the protected block, WP# low"),
            _ => {}
        }
    }

    fn see_step(&mut self, before: &Driver, after: &Driver, printed: &[u64]) {
        let (answer, kind) = (printed[1], printed[2]);
        if answer == 5 {
            let start = driver::start(
                before.part,
                before.command,
                before.address,
                before.data,
                before.p,
            );
            self.counts.add(if start.0 != 0 {
                "step: refusal 5 by the start"
            } else if before.phase > driver::DIFFERS {
                "step: refusal 5 by the phase"
            } else {
                "step: refusal 5 by the count"
            });
            return;
        }
        match (kind, after.phase) {
            (0, _) if before.phase > driver::CONFIRMING => {
                self.counts
                    .add(&format!("step: repeats the ending {answer}"));
            }
            (0, _) => self.counts.add(&format!("step: ends with {answer}")),
            (2, driver::WRITING) => self.counts.add("step: names a write"),
            (2, _) => self.counts.add("step: names the last write"),
            (_, driver::CONFIRMING) => {
                self.counts.add("step: names the confirming read");
                let again = Driver {
                    phase: driver::GAVE_UP,
                    ..*after
                };
                self.counts.add_if(
                    driver::step(again, 0).answer == 11,
                    "step: match at the last poll allowed",
                );
            }
            _ if after.count == 1 => self.counts.add("step: names the first poll"),
            _ => self.counts.add("step: names a later poll"),
        }
    }

    fn see_run(&mut self, before: &Before, station: &Station, printed: &[u64]) {
        let (answer, kind, refused) = (printed[1], printed[2], printed[5]);
        let counts = &mut self.counts;
        counts.add_if(
            before.device.recent == 1,
            "run: taken up, completion 0 µs old",
        );
        counts.add_if(
            kind == 1 && station.device.recent == 1 && refused == 0,
            "run: stopped as its operation completes",
        );
        counts.add_if(
            kind == 0 && station.device.suspended.left > 0,
            "run: over with an erase suspended",
        );
        if refused != 0 {
            self.counts.add("run: stopped by a refused cycle");
        } else if kind != 0 {
            self.counts.add("run: stopped by its limit");
        } else {
            self.counts.add(&format!("run: ends with {answer}"));
        }
    }

    fn see_load(&mut self, station: &Station, printed: &[u64]) {
        let answer = printed[9];
        if answer != 0 {
            self.counts.add(&format!("job: refusal {answer}"));
            return;
        }
        let part = Part::get(station.part).expect("an accepted part");
        let sectors = station.image.len() as u64 / u64::from(part.sector());
        let (erases, programs) = (printed[3], printed[4]);
        self.counts.add("job: accepted");
        self.counts.add_if(sectors == 0, "job: count 0");
        self.counts
            .add_if(sectors > 0 && programs == 0, "job: nothing to program");
        self.counts.add_many("job: sector erased", erases);
        self.counts
            .add_many("job: sector not erased", sectors - erases);
    }

    fn see_first(&mut self, command: &[u64], printed: &[u64]) {
        let (answer, sent, kind, elapsed) = (printed[1], printed[2], printed[3], printed[4]);
        if answer != 0 {
            self.counts.add("second call: refused");
            return;
        }
        self.counts
            .add_if(command[4] > sent, "second call: k past the list");
        let (begun, confirms) = (printed[9] + printed[10], printed[13]);
        self.counts.add(match kind {
            0 => "second call: none sent",
            2 => "second call: ends with a write",
            _ if elapsed > 0 => "second call: ends with a poll or confirming read",
            _ => "second call: ends with a scan",
        });
        self.counts.add_if(
            begun > confirms,
            "second call: ends with an operation running",
        );
    }
}
