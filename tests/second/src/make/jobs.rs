//! Jobs and second calls: on few sectors of a chip, with images near the
//! cells, and their refusals.

use super::Maker;
use crate::job::{send_first, Job, Prefix};
use crate::part::Part;
use crate::station::{op, IMAGE};

/// Makes so many cases on these parts in turn.
pub fn make(maker: &mut Maker, parts: &[u64], cases: u64) {
    let per_part = cases.div_ceil(parts.len() as u64);
    for case in 0..cases {
        if case % per_part == 0 {
            maker.new_chip(parts[(case / per_part) as usize]);
        }
        maker.send(&[op::MARK, case]);
        match maker.random.below(10) {
            0..=4 => maker.whole_job(),
            5..=6 => maker.second_calls(),
            _ => maker.refused_jobs(),
        }
    }
}

/// A job on the maker's chip.
#[derive(Clone, Copy)]
struct Range {
    first: u64,
    count: u64,
}

impl Maker {
    fn sector(&self) -> u64 {
        self.part().sector().into()
    }

    /// A range of whole sectors: often at an edge of the chip or of the
    /// protected block.
    fn range(&mut self, most: u64) -> Range {
        let (sector, cells) = (self.sector(), self.cells());
        let room = most.min(IMAGE as u64 / sector).min(cells / sector);
        let sectors = self.random.between(1, room);
        let last = cells / sector - sectors;
        let edge = match self.part().protected_block() {
            Some(block) => u64::from(self.random.pick(&[block.start, block.end])) / sector,
            None => last,
        };
        let from = match self.random.below(6) {
            0 => 0,
            1 => last,
            2 => edge.saturating_sub(self.random.below(3)).min(last),
            3 => edge.min(last),
            4 => edge.saturating_sub(sectors).min(last),
            _ => self.random.between(0, last),
        };
        Range {
            first: from * sector,
            count: sectors * sector,
        }
    }

    /// A level that lets the range through, mostly low where it may be.
    /// Nothing is protected from a job of count 0.
    fn level_for(&mut self, range: Range) -> u64 {
        let met = self.part().protected_block().is_some_and(|block| {
            range.first < block.end.into() && range.first + range.count > block.start.into()
        });
        if met && range.count > 0 {
            1
        } else {
            u64::from(self.random.percent(30))
        }
    }

    /// A polling interval that is allowed.
    fn allowed_interval(&mut self) -> u64 {
        let part = self.part();
        let time = u64::from(part.program_time);
        let any = self.random.between(1, 1_000);
        self.random
            .pick(&[1, 10, time - 1, time, time + 1, 999, 1_000, any])
    }

    /// The commands that set the cells of a range up: each sector blank, by a
    /// pattern, or blank with some cells.
    fn cells_setup(&mut self, range: Range) -> Vec<Vec<u64>> {
        let (sector, number) = (self.sector(), u64::from(self.station.part));
        let blank = u64::from(self.part().blank());
        let mut setup = Vec::new();
        for start in (range.first..range.first + range.count).step_by(sector as usize) {
            let end = start + sector;
            let style = self.random.below(3);
            let (a, b, mask) = self.random_pattern(number);
            setup.push(if style == 0 {
                vec![op::FILL, start, end, a, b, mask]
            } else {
                vec![op::FILL, start, end, blank, 0, 65_535]
            });
            if style == 1 {
                for _ in 0..self.random.between(1, 4) {
                    let at = start + self.edge(sector);
                    let value = self.random.word();
                    setup.push(vec![op::PATCH, at, value]);
                }
            }
        }
        setup
    }

    /// An index below `end`, often its first or last.
    fn edge(&mut self, end: u64) -> u64 {
        let any = self.random.below(end);
        self.random.pick(&[0, end - 1, any, any])
    }

    /// Gives the setup's commands.
    fn set_up(&mut self, setup: &[Vec<u64>]) {
        for command in setup {
            self.send(command);
        }
    }

    /// An image for a range whose cells are set up: the cells' values with
    /// some changes, mostly such that only some sectors need an erase.
    fn near_image(&mut self, range: Range) {
        let (sector, mask) = (self.sector(), u64::from(self.part().blank()));
        self.send(&[op::IMAGE, range.count, mask, 0, mask]);
        self.send(&[op::IMAGE_COPY, 0, range.first, range.count, mask]);
        for start in (0..range.count).step_by(sector as usize) {
            match self.random.below(8) {
                // Nothing to do.
                0 => {}
                // Bits fall only.
                1..=4 => {
                    for _ in 0..self.random.between(1, 5) {
                        let at = start + self.edge(sector);
                        let value = u64::from(self.station.image[at as usize]);
                        let fallen = value & self.random.word();
                        self.send(&[op::IMAGE_PATCH, at, fallen]);
                    }
                }
                // One bit rises, in a value that may be the last of its sector.
                5..=6 => {
                    let at = start + self.edge(sector);
                    let value = u64::from(self.station.image[at as usize]);
                    let risen = (value | 1 << self.random.below(16)) & mask;
                    self.send(&[op::IMAGE_PATCH, at, risen]);
                }
                // Mostly blank.
                _ => {
                    self.send(&[op::IMAGE_FILL, start, start + sector, mask, 0, mask]);
                    let at = start + self.edge(sector);
                    let value = self.random.word() & mask;
                    self.send(&[op::IMAGE_PATCH, at, value]);
                }
            }
        }
    }

    /// Shows a range of cells and those beside it.
    fn show_range(&mut self, range: Range) {
        let from = range.first.saturating_sub(3);
        let to = (range.first + range.count + 3).min(self.cells());
        self.send(&[op::HASH, from, to]);
        if range.count > 0 {
            let at = range.first + self.edge(range.count);
            self.send(&[op::CELL, at]);
        }
    }

    /// A whole job, and often a second one on the cells it left.
    fn whole_job(&mut self) {
        let mut range = self.range(8);
        let setup = self.cells_setup(range);
        self.set_up(&setup);
        let mask = u64::from(self.part().blank());
        match self.random.below(10) {
            0 => {
                range.count = 0;
                self.send(&[op::IMAGE, 0, 0, 0, 0]);
            }
            1 => {
                let (a, b, _) = self.random_pattern(0);
                self.send(&[op::IMAGE, range.count, a, b, mask]);
            }
            _ => self.near_image(range),
        }
        for _ in 0..self.random.between(1, 2) {
            let (wp, p) = (self.level_for(range), self.allowed_interval());
            self.send(&[op::LOAD, range.first, wp, p]);
            self.show_range(range);
            if range.count > 0 {
                let at = self.edge(range.count);
                let value = self.random.word() & mask;
                self.send(&[op::IMAGE_PATCH, at, value]);
            }
        }
    }

    /// What the second call would hand back, without sending it.
    fn probe(&self, range: Range, wp: u64, p: u64, k: u64) -> Prefix {
        let job = Job {
            part: self.station.part,
            first: range.first as u32,
            image: &self.station.image,
            wp_high: wp == 1,
            p: p as u32,
        };
        let mut cells = self.station.cells[..self.station.lent].to_vec();
        send_first(&job, &mut cells, k)
    }

    /// The least k for which the second call's outcome satisfies a test that
    /// once satisfied stays so.
    fn least(
        &self,
        range: Range,
        wp: u64,
        p: u64,
        most: u64,
        test: impl Fn(&Prefix) -> bool,
    ) -> u64 {
        let (mut low, mut high) = (0, most);
        while low < high {
            let middle = (low + high) / 2;
            if test(&self.probe(range, wp, p, middle)) {
                high = middle;
            } else {
                low = middle + 1;
            }
        }
        low
    }

    /// Second calls of one job with many k, each on the same cells.
    fn second_calls(&mut self) {
        let range = self.range(3);
        let setup = self.cells_setup(range);
        self.set_up(&setup);
        self.near_image(range);
        let (wp, p) = (self.level_for(range), self.allowed_interval());
        let whole = self.probe(range, wp, p, u64::MAX);
        let begun = |prefix: &Prefix| prefix.counts.erases + prefix.counts.programs;
        let mut list = vec![0, 1, whole.sent, whole.sent + 1, u64::MAX];
        for _ in 0..4 {
            list.push(self.random.between(0, whole.sent));
        }
        if begun(&whole) > 0 {
            let nth = self.random.between(1, begun(&whole));
            let starts = self.least(range, wp, p, whole.sent, |k| begun(k) >= nth);
            let confirms = self.least(range, wp, p, whole.sent, |k| k.counts.confirms >= nth);
            let near = self.random.below(5);
            let within = self.random.between(starts, confirms);
            list.extend([starts - 1, starts, starts + 1, starts.saturating_sub(near)]);
            list.extend([within, confirms - 1, confirms, confirms + 1]);
        }
        for k in list {
            self.set_up(&setup);
            self.second_call(range, wp, p, k, whole.sent);
            self.show_range(range);
        }
    }

    /// One second call of a job that has `most` cycles: counts a confirming
    /// read at its end, and a last poll that does not show the whole value.
    fn second_call(&mut self, range: Range, wp: u64, p: u64, k: u64, most: u64) {
        let confirms = |k| self.probe(range, wp, p, k).counts.confirms;
        let confirming = k > 0 && k <= most && confirms(k) > confirms(k - 1);
        let last_poll = k < most && confirms(k + 1) > confirms(k);
        let printed = self.send(&[op::FIRST, range.first, wp, p, k]);
        let (address, reply) = (printed[6], printed[8]);
        let cell = self.send(&[op::CELL, address])[1];
        let whole_value = reply == u64::from(self.part().value(cell as u16));
        let counts = &mut self.watch.counts;
        counts.add_if(confirming, "second call: ends with a confirming read");
        counts.add_if(
            last_poll && !whole_value,
            "second call: ends with a poll as its operation completes",
        );
    }

    /// Jobs and second calls with one fault or several at once.
    fn refused_jobs(&mut self) {
        for _ in 0..5 {
            let number = u64::from(self.station.part);
            let part = Part::get(number as u32).expect("a known part");
            let (cells, sector) = (self.cells(), self.sector());
            // Bits of the faults: part, lent, p, first or count, past, image,
            // protection.
            let faults = match self.random.below(4) {
                0 if part.width == 8 => 32,
                0 | 3 => 1 << self.random.below(7),
                1 => 1 << self.random.below(7) | 1 << self.random.below(7),
                _ => self.random.between(1, 127),
            };
            let mut range = self.range(2);
            if faults & 64 != 0 {
                if let Some(block) = part.protected_block() {
                    range.first = u64::from(block.start);
                }
            }
            if faults & 16 != 0 {
                let far = [
                    cells,
                    cells - range.count + sector,
                    4_294_967_295 / sector * sector,
                ];
                range.first = self.random.pick(&far);
            }
            let mut wp = u64::from(faults & 64 == 0);
            if self.random.percent(5) {
                wp = 1 - wp;
            }
            let mut count = range.count;
            if faults & 8 != 0 {
                let off = self.random.pick(&[1, 2, sector / 2, sector - 1]);
                match self.random.below(3) {
                    0 => range.first = (range.first + off).min(4_294_967_295),
                    1 => count -= off,
                    _ => {
                        range.first = (range.first + off).min(4_294_967_295);
                        count -= sector - off;
                    }
                }
            }
            if faults == 8 && self.random.percent(20) {
                count = 0;
            }
            let mask = u64::from(part.blank());
            let a = self.random.word();
            self.send(&[op::IMAGE, count, a, 1, mask]);
            if faults & 32 != 0 && count > 0 {
                let at = self.edge(count);
                let value = self.random.between(256, 65_535);
                self.send(&[op::IMAGE_PATCH, at, value]);
            }
            let p = if faults & 4 != 0 {
                let far = self.random.long();
                self.random.pick(&[0, 1_001, 65_536, 4_294_967_295, far])
            } else {
                self.allowed_interval()
            };
            let unknown = faults & 1 != 0 && self.random.percent(40);
            let named = if unknown {
                self.random.pick(&[11, 12, 256, 4_294_967_295])
            } else {
                number
            };
            let lent = if faults & 2 != 0 && self.random.percent(50) {
                self.random.pick(&[0, cells - 1, cells / 2])
            } else {
                cells
            };
            self.send(&[op::LENT, named, lent]);
            if self.random.percent(75) {
                self.send(&[op::LOAD, range.first, wp, p]);
            } else {
                let k = self.random.pick(&[0, 1, 3_000, u64::MAX]);
                self.send(&[op::FIRST, range.first, wp, p, k]);
            }
            self.send(&[op::LENT, number, cells]);
            let from = range.first.min(cells - sector);
            self.send(&[op::HASH, from, from + sector]);
        }
    }
}
