//! A chip with its cells and device, for short tests.

use second::cycle::{cycle, Action, Cycle, Device, Mode, Operation, Reply};
use second::part::Part;

/// No operation: five zeros.
pub const NONE: Operation = Operation {
    kind: 0,
    address: 0,
    data: 0,
    left: 0,
    toggle: false,
};

/// The fresh device: fourteen zeros.
pub const FRESH: Device = Device {
    mode: Mode::Read,
    stage: 0,
    running: NONE,
    recent: 0,
    turned: 0,
    suspended: NONE,
};

pub struct Chip {
    pub number: u32,
    pub part: &'static Part,
    pub cells: Vec<u16>,
    pub device: Device,
    pub wp_high: bool,
}

impl Chip {
    /// A blank, fresh chip with WP# high.
    pub fn blank(number: u32) -> Chip {
        let part = Part::get(number).unwrap();
        Chip {
            number,
            part,
            cells: vec![part.blank(); part.cells as usize],
            device: FRESH,
            wp_high: true,
        }
    }

    pub fn cycle(&mut self, elapsed: u32, action: Action) -> Reply {
        let cycle_ = Cycle {
            elapsed,
            wp_high: self.wp_high,
            action,
        };
        let reply = cycle(self.number, &mut self.cells, self.device, cycle_);
        self.device = reply.device;
        reply
    }

    pub fn read(&mut self, elapsed: u32, address: u32) -> u16 {
        let reply = self.cycle(elapsed, Action::Read { address });
        assert_eq!(reply.answer, 0);
        reply.value
    }

    pub fn write(&mut self, address: u32, data: u16) {
        self.write_after(0, address, data);
    }

    pub fn write_after(&mut self, elapsed: u32, address: u32, data: u16) {
        let reply = self.cycle(elapsed, Action::Write { address, data });
        assert_eq!((reply.answer, reply.value), (0, 0));
    }

    pub fn idle(&mut self, elapsed: u32) {
        let reply = self.cycle(elapsed, Action::Idle);
        assert_eq!((reply.answer, reply.value), (0, 0));
    }

    pub fn cut(&mut self, elapsed: u32, scar: u16) {
        let reply = self.cycle(elapsed, Action::Cut { scar });
        assert_eq!((reply.answer, reply.value), (0, 0));
        assert_eq!(self.device, FRESH);
    }

    /// AAH at U1 and 55H at U2.
    pub fn unlock(&mut self) {
        self.write(self.part.unlock.u1, 0xAA);
        self.write(self.part.unlock.u2, 0x55);
    }

    /// The unlock and a third write at U1.
    pub fn command(&mut self, code: u16) {
        self.unlock();
        self.write(self.part.unlock.u1, code);
    }

    /// The four writes of a program.
    pub fn program(&mut self, address: u32, data: u16) {
        self.command(0xA0);
        self.write(address, data);
    }

    /// The five writes before an erase's last, and the last.
    pub fn erase(&mut self, address: u32, code: u16) {
        self.command(0x80);
        self.unlock();
        self.write(address, code);
    }

    pub fn busy(&self) -> bool {
        self.device.running.left > 0
    }

    pub fn suspended(&self) -> bool {
        self.device.suspended.left > 0
    }
}
