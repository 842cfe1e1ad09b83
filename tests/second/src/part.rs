//! "The parts": the table of document 01 and what follows from one row of it.

use std::ops::Range;

/// The maker ID, the same for every part.
pub const MAKER: u16 = 0xBF;

/// What one operation does; the numbers are document 01's command numbers.
#[derive(Clone, Copy, Debug, PartialEq, Eq)]
pub enum Kind {
    Program,
    Sector,
    Block,
    Chip,
}

impl Kind {
    pub const ALL: [Kind; 4] = [Kind::Program, Kind::Sector, Kind::Block, Kind::Chip];

    pub fn from_number(number: u32) -> Option<Kind> {
        Kind::ALL.get(number as usize).copied()
    }

    pub fn number(self) -> u32 {
        self as u32
    }
}

/// The two unlock addresses, and the address bits that are compared with them.
#[derive(Clone, Copy, Debug, PartialEq, Eq)]
pub struct Unlock {
    pub u1: u32,
    pub u2: u32,
    pub mask: u32,
}

const SHORT: Unlock = Unlock {
    u1: 0x555,
    u2: 0x2AA,
    mask: 0x7FF,
};

const LONG: Unlock = Unlock {
    u1: 0x5555,
    u2: 0x2AAA,
    mask: 0x7FFF,
};

/// Which block WP# low protects.
#[derive(Clone, Copy, Debug, PartialEq, Eq)]
enum Pin {
    None,
    Lowest,
    Highest,
}

/// One row of the table, with the unlock addresses, codes and pin of its part.
#[derive(Debug)]
pub struct Part {
    pub width: u32,
    pub cells: u32,
    /// Cells of a block, 0 for a part without blocks.
    pub block: u32,
    pub device: u16,
    pub program_time: u32,
    pub erase_time: u32,
    pub chip_time: u32,
    pub unlock: Unlock,
    pub sector_code: u16,
    pub block_code: u16,
    /// Can its sector and block erases be suspended? Then bit 2 alternates.
    pub suspends: bool,
    pin: Pin,
}

/// Parts 1 to 3: eight bits, no blocks, no pin.
const fn sf(cells: u32, device: u16) -> Part {
    Part {
        width: 8,
        cells,
        block: 0,
        device,
        program_time: 14,
        erase_time: 18_000,
        chip_time: 70_000,
        unlock: LONG,
        sector_code: 0x30,
        block_code: 0x50,
        suspends: false,
        pin: Pin::None,
    }
}

/// Parts 4 to 6: sixteen bits, no pin.
const fn vf(cells: u32, device: u16) -> Part {
    Part {
        width: 16,
        block: 32_768,
        ..sf(cells, device)
    }
}

/// Parts 7 and 8: slower, with the pin and with suspend.
const fn wf(device: u16, pin: Pin) -> Part {
    Part {
        program_time: 28,
        erase_time: 36_000,
        chip_time: 140_000,
        suspends: true,
        pin,
        ..vf(1_048_576, device)
    }
}

/// Parts 9 and 10: short unlock addresses, the two codes the other way round, and
/// with suspend.
const fn vf640(device: u16, pin: Pin) -> Part {
    Part {
        program_time: 7,
        erase_time: 18_000,
        chip_time: 40_000,
        unlock: SHORT,
        sector_code: 0x50,
        block_code: 0x30,
        suspends: true,
        pin,
        ..vf(4_194_304, device)
    }
}

static PARTS: [Part; 11] = [
    Part {
        block: 4_096,
        unlock: SHORT,
        pin: Pin::Lowest,
        ..vf(8_192, 0xFFF0)
    },
    sf(131_072, 0xB5),
    sf(262_144, 0xB6),
    sf(524_288, 0xB7),
    vf(131_072, 0x2789),
    vf(262_144, 0x2780),
    vf(524_288, 0x2781),
    wf(0x274B, Pin::Lowest),
    wf(0x274A, Pin::Highest),
    vf640(0x236D, Pin::Lowest),
    vf640(0x236C, Pin::Highest),
];

impl Part {
    /// The part of this number, none above 10.
    pub fn get(number: u32) -> Option<&'static Part> {
        PARTS.get(number as usize)
    }

    /// Cells of a sector.
    pub fn sector(&self) -> u32 {
        if self.width == 8 {
            4_096
        } else {
            2_048
        }
    }

    pub fn has_blocks(&self) -> bool {
        self.block != 0
    }

    /// The largest value of a cell, which is also the erased cell's.
    pub fn blank(&self) -> u16 {
        if self.width == 8 {
            0xFF
        } else {
            0xFFFF
        }
    }

    /// The value of a lent cell, or the part of a word that this part uses.
    pub fn value(&self, word: u16) -> u16 {
        word & self.blank()
    }

    /// The table time of an operation.
    pub fn time(&self, kind: Kind) -> u32 {
        match kind {
            Kind::Program => self.program_time,
            Kind::Sector | Kind::Block => self.erase_time,
            Kind::Chip => self.chip_time,
        }
    }

    /// Does the part have this operation at all?
    pub fn knows(&self, kind: Kind) -> bool {
        kind != Kind::Block || self.has_blocks()
    }

    /// Can this operation be suspended while it runs?
    pub fn can_suspend(&self, kind: Kind) -> bool {
        self.suspends && matches!(kind, Kind::Sector | Kind::Block)
    }

    /// The cells that an operation at this address changes.
    pub fn range(&self, kind: Kind, address: u32) -> Range<u32> {
        let around = |size: u32| {
            let start = address / size * size;
            start..start + size
        };
        match kind {
            Kind::Program => address..address + 1,
            Kind::Sector => around(self.sector()),
            Kind::Block => around(self.block),
            Kind::Chip => 0..self.cells,
        }
    }

    /// The block that WP# low protects, none on a part without the pin.
    pub fn protected_block(&self) -> Option<Range<u32>> {
        match self.pin {
            Pin::None => None,
            Pin::Lowest => Some(0..self.block),
            Pin::Highest => Some(self.cells - self.block..self.cells),
        }
    }

    /// Is this operation ignored at this level of WP#? A sector lies wholly in
    /// the protected block or wholly outside it, so its address decides.
    pub fn protects(&self, kind: Kind, address: u32, wp_high: bool) -> bool {
        match self.protected_block() {
            Some(block) if !wp_high => kind == Kind::Chip || block.contains(&address),
            _ => false,
        }
    }

    /// Is this the first unlock address, in the bits that are compared?
    pub fn is_u1(&self, address: u32) -> bool {
        address & self.unlock.mask == self.unlock.u1
    }

    /// Is this the second unlock address, in the bits that are compared?
    pub fn is_u2(&self, address: u32) -> bool {
        address & self.unlock.mask == self.unlock.u2
    }

    /// The erase that this sixth write asks for, if it asks for one.
    pub fn erase(&self, address: u32, data: u16) -> Option<Kind> {
        let code = data & 0xFF;
        if code == self.sector_code {
            Some(Kind::Sector)
        } else if code == self.block_code && self.has_blocks() {
            Some(Kind::Block)
        } else if code == 0x10 && self.is_u1(address) {
            Some(Kind::Chip)
        } else {
            None
        }
    }

    /// N: the table time in polling intervals, rounded up.
    pub fn polls(&self, kind: Kind, p: u32) -> u32 {
        self.time(kind).div_ceil(p)
    }
}

/// A part figure by its column, from Width, 0, to Chip, 6: answer and figure.
pub fn figure(part: u32, figure: u32) -> (u32, u32) {
    let Some(part) = Part::get(part) else {
        return (1, 0);
    };
    match figure {
        0 => (0, part.width),
        1 => (0, part.cells),
        2 => (0, part.block),
        3 => (0, u32::from(part.device)),
        4 => (0, part.program_time),
        5 => (0, part.erase_time),
        6 => (0, part.chip_time),
        _ => (15, 0),
    }
}
