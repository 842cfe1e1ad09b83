//! "The job" and its second call.

use crate::cycle::{cycle, Action, Cycle, Device};
use crate::driver::{self, Driver, Named};
use crate::part::{Kind, Part};

/// What a job is asked to do, beside the lent cells.
#[derive(Clone, Copy, Debug)]
pub struct Job<'a> {
    pub part: u32,
    pub first: u32,
    pub image: &'a [u16],
    pub wp_high: bool,
    pub p: u32,
}

/// The nine numbers of a bill.
#[derive(Clone, Copy, Debug, Default, PartialEq, Eq)]
pub struct Bill {
    pub saved: u64,
    pub spent: u64,
    pub erases: u64,
    pub programs: u64,
    pub polls: u64,
    pub scans: u64,
    pub confirms: u64,
    pub sum: u16,
    pub answer: u32,
}

/// What was counted over the cycles sent.
#[derive(Clone, Copy, Debug, Default, PartialEq, Eq)]
pub struct Counts {
    /// Erases and programs whose last write was sent.
    pub erases: u64,
    pub programs: u64,
    pub polls: u64,
    pub scans: u64,
    pub confirms: u64,
    /// µs of the cycles sent.
    pub time: u64,
}

/// What the second call hands back, beside the cells.
#[derive(Clone, Copy, Debug, Default, PartialEq, Eq)]
pub struct Prefix {
    pub answer: u32,
    /// How many cycles were sent.
    pub sent: u64,
    /// The last of them, none if none was sent.
    pub last: Option<Cycle>,
    /// Its reply.
    pub reply: u16,
    pub counts: Counts,
}

/// The refusals of a job in their order: 1, 2, 10, 6, 7, 8, 9.
fn accept(job: &Job, lent: usize) -> Result<&'static Part, u32> {
    let part = Part::get(job.part).ok_or(1u32)?;
    if lent != part.cells as usize {
        return Err(2);
    }
    if job.p == 0 || job.p > 1_000 {
        return Err(10);
    }
    let (first, count) = (u64::from(job.first), job.image.len() as u64);
    let sector = u64::from(part.sector());
    if !first.is_multiple_of(sector) || !count.is_multiple_of(sector) {
        return Err(6);
    }
    if first + count > u64::from(part.cells) {
        return Err(7);
    }
    if job.image.iter().any(|value| *value > part.blank()) {
        return Err(8);
    }
    if let Some(block) = part.protected_block() {
        let starts_before_its_end = first < u64::from(block.end);
        let ends_after_its_start = first + count > u64::from(block.start);
        if !job.wp_high && count > 0 && starts_before_its_end && ends_after_its_start {
            return Err(9);
        }
    }
    Ok(part)
}

/// The job's way to the chip: sends cycles through the bus cycle, counts them,
/// and stops after `limit` of them.
struct Sender<'a> {
    job: Job<'a>,
    part: &'static Part,
    cells: &'a mut [u16],
    device: Device,
    limit: u64,
    sent: u64,
    last: Option<Cycle>,
    reply: u16,
    counts: Counts,
}

impl<'a> Sender<'a> {
    fn new(job: &Job<'a>, part: &'static Part, cells: &'a mut [u16], limit: u64) -> Self {
        Sender {
            job: *job,
            part,
            cells,
            device: Device::default(),
            limit,
            sent: 0,
            last: None,
            reply: 0,
            counts: Counts::default(),
        }
    }

    /// Sends one cycle and gives its reply, or none if the limit is reached.
    fn send(&mut self, elapsed: u32, action: Action) -> Option<u16> {
        if self.sent == self.limit {
            return None;
        }
        let next = Cycle {
            elapsed,
            wp_high: self.job.wp_high,
            action,
        };
        let reply = cycle(self.job.part, self.cells, self.device, next);
        assert_eq!(reply.answer, 0, "an accepted job sends accepted cycles");
        self.device = reply.device;
        self.sent += 1;
        self.last = Some(next);
        self.reply = reply.value;
        self.counts.time += u64::from(elapsed);
        Some(reply.value)
    }

    /// One scanning read.
    fn scan(&mut self, address: u32) -> Option<u16> {
        let value = self.send(0, Action::Read { address })?;
        self.counts.scans += 1;
        Some(value)
    }

    /// One whole command by the driver.
    fn operate(&mut self, kind: Kind, address: u32, data: u16) -> Option<()> {
        let (answer, mut driver) =
            driver::start(self.job.part, kind.number(), address, data, self.job.p);
        assert_eq!(answer, 0, "an accepted job starts accepted commands");
        let mut read = 0;
        loop {
            let step = driver::step(driver, read);
            assert_eq!(step.answer, 0, "the model lets every command succeed");
            driver = step.driver;
            read = match step.named {
                Named::Nothing => return Some(()),
                Named::Read { elapsed, address } => self.send(elapsed, Action::Read { address })?,
                Named::Write { address, data } => self.send(0, Action::Write { address, data })?,
            };
            self.count(kind, step.named, &driver);
        }
    }

    /// Counts a command's cycle that was sent; `after` is the driver's state
    /// after naming it.
    fn count(&mut self, kind: Kind, named: Named, after: &Driver) {
        match named {
            Named::Read { .. } if after.phase == driver::CONFIRMING => self.counts.confirms += 1,
            Named::Read { .. } => self.counts.polls += 1,
            Named::Write { .. } if after.phase == driver::POLLING => match kind {
                Kind::Program => self.counts.programs += 1,
                _ => self.counts.erases += 1,
            },
            _ => {}
        }
    }

    /// The whole list of cycles, or as much of it as the limit lets through.
    fn walk(&mut self) -> Option<()> {
        let image = self.job.image;
        let size = self.part.sector();
        let sectors = image.chunks_exact(size as usize);
        let starts = (self.job.first..).step_by(size as usize);
        for (start, wanted) in starts.zip(sectors) {
            if self.must_erase(start, wanted)? {
                self.operate(Kind::Sector, start, 0)?;
                for (address, &value) in (start..).zip(wanted) {
                    if value != self.part.blank() {
                        self.operate(Kind::Program, address, value)?;
                    }
                }
            } else {
                for (address, &value) in (start..).zip(wanted) {
                    if self.scan(address)? != value {
                        self.operate(Kind::Program, address, value)?;
                    }
                }
            }
        }
        Some(())
    }

    /// Reads every cell of a sector once: must a bit rise in one of them?
    fn must_erase(&mut self, start: u32, wanted: &[u16]) -> Option<bool> {
        let mut rising = false;
        for (address, &value) in (start..).zip(wanted) {
            rising |= value & !self.scan(address)? != 0;
        }
        Some(rising)
    }
}

/// The job: puts the image on the cells and makes out the bill.
pub fn load(job: &Job, cells: &mut [u16]) -> Bill {
    let part = match accept(job, cells.len()) {
        Ok(part) => part,
        Err(answer) => {
            return Bill {
                answer,
                ..Bill::default()
            }
        }
    };
    let mut sender = Sender::new(job, part, cells, u64::MAX);
    sender.walk();
    let counts = sender.counts;
    make_out(job, part, cells, &counts)
}

/// The bill of a finished job, from the counts and the cells it left.
fn make_out(job: &Job, part: &Part, cells: &[u16], counts: &Counts) -> Bill {
    let time = |polls: u64, confirms: u64| {
        polls * u64::from(job.p) + confirms * u64::from(driver::CONFIRMING_TIME)
    };
    let cost = |kind: Kind| time(part.polls(kind, job.p).into(), 1);
    let count = job.image.len() as u64;
    let sectors = count / u64::from(part.sector());
    let spent = time(counts.polls, counts.confirms);
    let first = job.first as usize;
    let range = &cells[first..first + job.image.len()];
    Bill {
        saved: sectors * cost(Kind::Sector) + count * cost(Kind::Program) - spent,
        spent,
        erases: counts.erases,
        programs: counts.programs,
        polls: counts.polls,
        scans: counts.scans,
        confirms: counts.confirms,
        sum: range
            .iter()
            .fold(0, |sum: u16, cell| sum.wrapping_add(part.value(*cell))),
        answer: 0,
    }
}

/// The second call: sends only the first `k` cycles of the job's list.
pub fn send_first(job: &Job, cells: &mut [u16], k: u64) -> Prefix {
    let part = match accept(job, cells.len()) {
        Ok(part) => part,
        Err(answer) => {
            return Prefix {
                answer,
                ..Prefix::default()
            }
        }
    };
    let mut sender = Sender::new(job, part, cells, k);
    sender.walk();
    Prefix {
        answer: 0,
        sent: sender.sent,
        last: sender.last,
        reply: sender.reply,
        counts: sender.counts,
    }
}
