//! What the program `station` does with files: cells and an image go in; the
//! bill, the cells afterwards and the map come out.

use crate::job::{self, Bill, Job};
use crate::part::Part;

/// Sectors on a line of the map.
const ON_A_LINE: usize = 64;

/// A call of `station load`, its files as values.
#[derive(Clone, Debug)]
pub struct Asked {
    pub part: u32,
    pub first: u32,
    pub p: u32,
    pub wp_high: bool,
    /// Fill the image up with blank to whole sectors.
    pub pad: bool,
    /// None for a blank part.
    pub cells: Option<Vec<u16>>,
    pub image: Vec<u16>,
}

/// What comes of it. The map is empty where it is refused.
#[derive(Debug)]
pub struct Loaded {
    pub bill: Bill,
    pub cells: Vec<u16>,
    pub map: String,
}

/// The bits of a cell; of no part as of most.
pub fn width(part: u32) -> u32 {
    Part::get(part).map_or(16, |part| part.width)
}

/// Values as a file has them: little-endian words, or bytes.
pub fn bytes(values: &[u16], width: u32) -> Vec<u8> {
    values
        .iter()
        .flat_map(|value| value.to_le_bytes().into_iter().take(width as usize / 8))
        .collect()
}

/// What a sector gets, by its cells as they are read and its image values.
fn mark(cells: &[u16], wanted: &[u16]) -> char {
    let pairs = || cells.iter().zip(wanted);
    if pairs().any(|(cell, value)| value & !cell != 0) {
        '#'
    } else if pairs().any(|(cell, value)| cell != value) {
        'o'
    } else {
        '.'
    }
}

/// The map of a job that is taken: a mark for each sector of the range, on
/// lines that begin with the address of their first sector.
fn map(part: &Part, job: &Job, cells: &[u16]) -> String {
    let size = part.sector() as usize;
    let first = job.first as usize;
    let mut signs = vec![' '; cells.len() / size];
    let sectors = cells[first..].chunks(size).zip(job.image.chunks(size));
    for (sign, (cells, wanted)) in signs[first / size..].iter_mut().zip(sectors) {
        *sign = mark(cells, wanted);
    }
    let lines = (0..).step_by(ON_A_LINE).zip(signs.chunks(ON_A_LINE));
    lines
        .map(|(from, signs)| (from, signs.iter().collect::<String>()))
        .filter(|(_, signs)| !signs.trim().is_empty())
        .map(|(from, signs)| format!("{:06X}H  {}\n", from * size, signs.trim_end()))
        .collect()
}

/// The job on a copy of the cells.
pub fn load(asked: &Asked) -> Loaded {
    let part = Part::get(asked.part);
    let (count, blank, size) = part.map_or((0, 0xFFFF, 1), |part| {
        (part.cells as usize, part.blank(), part.sector() as usize)
    });
    let before = asked.cells.clone().unwrap_or(vec![blank; count]);
    let mut image = asked.image.clone();
    if asked.pad {
        image.resize(image.len().next_multiple_of(size), blank);
    }
    let job = Job {
        part: asked.part,
        first: asked.first,
        image: &image,
        wp_high: asked.wp_high,
        p: asked.p,
    };
    let mut cells = before.clone();
    let bill = job::load(&job, &mut cells);
    let map = match part {
        Some(part) if bill.answer == 0 => map(part, &job, &before),
        _ => String::new(),
    };
    Loaded { bill, cells, map }
}
