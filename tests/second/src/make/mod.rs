//! Makers of recorded cases: seeded, aimed at the interesting places.

mod cycles;
mod drivers;
mod figures;
mod files;
mod jobs;
mod loads;
mod marked;
mod suspends;

pub use files::{job_file, marked_file};
pub use loads::{asked, words};

use crate::cycle::Device;
use crate::events::{Before, Counts, Watch};
use crate::part::Part;
use crate::random::Random;
use crate::station::{device_numbers, line_of, op, Station, LARGE, SMALL};

/// The longest line that a recorded file may have, with its line end.
const LONGEST_LINE: usize = 200;

/// The most numbers that a line may have.
const MOST_NUMBERS: usize = 28;

/// The text of a line, which is not too long.
fn text_of(numbers: &[u64]) -> String {
    let line = line_of(numbers);
    assert!(line.len() <= LONGEST_LINE, "too long: {line}");
    assert!(numbers.len() <= MOST_NUMBERS, "too many: {line}");
    line
}

/// A recorded file: what is read and what has to be printed.
pub struct Recorded {
    pub input: String,
    pub expected: String,
    pub counts: Counts,
    /// Cells that the file needs.
    pub cells: usize,
}

/// Gives commands to a station of its own and writes both sides down.
struct Maker {
    random: Random,
    station: Station,
    watch: Watch,
    input: String,
    expected: String,
}

impl Maker {
    fn new(seed: u64, cells: usize) -> Maker {
        Maker {
            random: Random::new(seed),
            station: Station::new(cells),
            watch: Watch::default(),
            input: String::new(),
            expected: String::new(),
        }
    }

    /// Gives one command, and hands back the numbers of the line it printed,
    /// none for a command that prints nothing.
    fn send(&mut self, command: &[u64]) -> Vec<u64> {
        let before = Before::of(&self.station);
        let printed = self
            .station
            .run(command)
            .unwrap_or_else(|misfit| panic!("{command:?}: {misfit}"));
        self.input.push_str(&text_of(command));
        let Some(numbers) = printed else {
            return Vec::new();
        };
        self.watch.see(&before, &self.station, command, &numbers);
        self.expected.push_str(&text_of(&numbers));
        numbers
    }

    /// Gives the device a state.
    fn send_state(&mut self, state: &Device) {
        let mut command = vec![op::DEVICE];
        command.extend(device_numbers(state));
        self.send(&command);
    }

    /// The part of the chip.
    fn part(&self) -> &'static Part {
        Part::get(self.station.part).expect("a chip of a known part")
    }

    /// Cells of the chip's part.
    fn cells(&self) -> u64 {
        self.part().cells.into()
    }

    /// A new chip of a part, filled with a random pattern.
    fn new_chip(&mut self, number: u64) {
        let cells = Part::get(number as u32).expect("a known part").cells;
        let (a, b, mask) = self.random_pattern(number);
        self.send(&[op::CHIP, number, cells.into(), a, b, mask]);
    }

    /// A random pattern for cells of a part: on eight-bit parts mostly of
    /// values below 256.
    fn random_pattern(&mut self, number: u64) -> (u64, u64, u64) {
        let eight = matches!(number, 1..=3);
        let mask = match eight {
            true if self.random.percent(60) => 255,
            _ => 65_535,
        };
        let b = self.random.pick(&[0, 1, 3, 257, 12_345, 40_503]);
        (self.random.word(), b, mask)
    }

    /// An address of the chip, mostly at an edge of a sector, a block, the
    /// protected block or the chip, or one that the unlock compares with.
    fn address(&mut self) -> u64 {
        let part = self.part();
        let cells = self.cells();
        let sector = u64::from(part.sector());
        let base = match self.random.below(7) {
            0 => sector * self.random.below(cells / sector),
            1 if part.has_blocks() => {
                let block = u64::from(part.block);
                block * self.random.below(cells / block)
            }
            2 | 6 => match part.protected_block() {
                Some(block) => {
                    let inside = block.start + self.random.below(part.block.into()) as u32;
                    self.random.pick(&[block.start, block.end, inside]).into()
                }
                None => cells,
            },
            3 => self.random.pick(&[part.unlock.u1, part.unlock.u2]).into(),
            4 => self.random.pick(&[0, 2, cells]),
            _ => self.random.below(cells),
        };
        let near = (base + cells + self.random.below(5) - 2) % cells;
        if self.random.percent(10) {
            near ^ (1 << self.random.below(12))
        } else {
            near
        }
    }

    fn finish(self) -> Recorded {
        Recorded {
            input: self.input,
            expected: self.expected,
            counts: self.watch.counts,
            cells: self.station.cells.len(),
        }
    }
}

/// A kind of recorded case.
type Make = fn(&mut Maker, u64);

/// The kinds: name, cells that they need, maker of so many cases.
const KINDS: &[(&str, usize, Make)] = &[
    ("marked", SMALL, marked::make),
    ("marked-large", LARGE, marked::make_large),
    ("cycles-bench", SMALL, |m, n| cycles::make(m, &[0], n)),
    ("cycles-sf", SMALL, |m, n| cycles::make(m, &[1, 2, 3], n)),
    ("cycles-vf", SMALL, |m, n| cycles::make(m, &[4, 5, 6], n)),
    ("cycles-wf", SMALL, |m, n| cycles::make(m, &[7, 8], n)),
    ("cycles-large", LARGE, |m, n| cycles::make(m, &[9, 10], n)),
    ("suspends-wf", SMALL, |m, n| suspends::make(m, &[7, 8], n)),
    ("suspends-large", LARGE, |m, n| {
        suspends::make(m, &[9, 10], n)
    }),
    ("driver-calls", SMALL, drivers::make_calls),
    ("driver-steps", SMALL, drivers::make_steps),
    ("driver-runs", SMALL, |m, n| {
        drivers::make_runs(m, &[0, 1, 3, 5, 7, 8], n)
    }),
    ("driver-runs-large", LARGE, |m, n| {
        drivers::make_runs(m, &[9, 10], n)
    }),
    ("jobs-bench", SMALL, |m, n| jobs::make(m, &[0], n)),
    ("jobs-sf", SMALL, |m, n| jobs::make(m, &[1, 3], n)),
    ("jobs-wf", SMALL, |m, n| jobs::make(m, &[8, 7], n)),
    ("jobs-large", LARGE, |m, n| jobs::make(m, &[10, 9], n)),
    ("files", SMALL, files::make),
    ("figures", SMALL, figures::make),
];

/// The recorded files: kind, seed, number of cases.
pub const RECORDED: &[(&str, u64, u64)] = &[
    ("marked", 0, 1),
    ("marked-large", 0, 1),
    ("cycles-bench", 1, 300),
    ("cycles-sf", 2, 500),
    ("cycles-vf", 3, 240),
    ("cycles-wf", 4, 300),
    ("cycles-large", 5, 240),
    ("driver-calls", 6, 1_500),
    ("driver-steps", 7, 800),
    ("driver-runs", 8, 420),
    ("driver-runs-large", 9, 160),
    ("jobs-bench", 10, 150),
    ("jobs-sf", 11, 120),
    ("jobs-wf", 12, 60),
    ("jobs-large", 13, 50),
    ("files", 14, 800),
    ("figures", 15, 200),
    ("suspends-wf", 16, 400),
    ("suspends-large", 17, 150),
];

/// The names of all kinds.
pub fn kinds() -> Vec<&'static str> {
    KINDS.iter().map(|kind| kind.0).collect()
}

/// Makes so many cases of a kind, none for an unknown kind.
pub fn make(name: &str, seed: u64, cases: u64) -> Option<Recorded> {
    let (_, cells, make) = KINDS.iter().find(|kind| kind.0 == name)?;
    let mut maker = Maker::new(seed, *cells);
    make(&mut maker, cases);
    Some(maker.finish())
}
