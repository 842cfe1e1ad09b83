//! Calls of the program `station` on files, from seeds.

use crate::load::Asked;
use crate::part::Part;
use crate::random::Random;

/// The names of the parts, by their numbers.
const NAMES: [&str; 11] = [
    "bench", "SF010A", "SF020A", "SF040", "VF200A", "VF400A", "VF800A", "WF1601", "WF1602",
    "VF6401B", "VF6402B",
];

/// How often each part comes: the larger ones take longer.
const WEIGHTS: [(u64, u32); 11] = [
    (9, 0),
    (4, 1),
    (2, 2),
    (2, 3),
    (4, 4),
    (2, 5),
    (2, 6),
    (2, 7),
    (2, 8),
    (1, 9),
    (1, 10),
];

/// The most sectors of an image here, but for an image past the cells.
const MOST_SECTORS: u64 = 9;

/// What a part may hold: sectors that are blank, one number, or noise.
fn held(random: &mut Random, part: &Part) -> Vec<u16> {
    let size = part.sector() as usize;
    let mut cells = Vec::with_capacity(part.cells as usize);
    while cells.len() < part.cells as usize {
        let kind = random.below(4);
        let value = random.word() as u16;
        cells.extend((0..size).map(|index| match kind {
            0 => part.blank(),
            1 => part.value(value),
            _ => part.value(value.wrapping_mul(index as u16 | 1)),
        }));
    }
    cells
}

/// An image sector for a sector that holds this: the same, fewer bits set in
/// some values, a bit more set in one, blank, or anything.
fn wanted(random: &mut Random, part: &Part, held: &[u16]) -> Vec<u16> {
    let mut values = held.to_vec();
    match random.below(6) {
        0 => {}
        1 | 2 => {
            for _ in 0..random.between(1, 40) {
                let at = random.below(values.len() as u64) as usize;
                values[at] &= random.word() as u16;
            }
        }
        3 => {
            let at = random.below(values.len() as u64) as usize;
            values[at] |= 1 << random.below(part.width.into());
        }
        4 => values.fill(part.blank()),
        _ => {
            for value in &mut values {
                *value = part.value(random.word() as u16);
            }
        }
    }
    values
}

/// A call that is taken: an image for some sectors of what a part holds.
fn sound(random: &mut Random) -> (Asked, &'static Part) {
    let number = random.weigh(&WEIGHTS);
    let part = Part::get(number).expect("a known part");
    let size = u64::from(part.sector());
    let sectors = u64::from(part.cells) / size;
    let count = random.below(sectors.min(MOST_SECTORS) + 1);
    let first = match random.below(4) {
        0 => 0,
        1 => sectors - count,
        _ => random.below(sectors - count + 1),
    } * size;
    let cells = random.percent(80).then(|| held(random, part));
    let blank = vec![part.blank(); part.cells as usize];
    let before = cells.as_ref().unwrap_or(&blank);
    let range = &before[first as usize..(first + count * size) as usize];
    let image = range
        .chunks(size as usize)
        .flat_map(|sector| wanted(random, part, sector))
        .collect();
    let asked = Asked {
        part: number,
        first: first as u32,
        p: random.pick(&[1, 7, 10, 14, 100, 999, 1_000]),
        wp_high: random.percent(70),
        pad: random.percent(30),
        cells,
        image,
    };
    (asked, part)
}

/// The call of a seed: in some cases with a fault, which the last part of the
/// call may still make good.
pub fn asked(seed: u64) -> Asked {
    let mut random = Random::new(seed);
    let (mut asked, part) = sound(&mut random);
    let size = u64::from(part.sector());
    match random.below(16) {
        0 => asked.part = random.pick(&[11, 12, 255, 4_294_967_295]),
        1 => {
            let cells = asked.cells.get_or_insert(Vec::new());
            cells.truncate(random.below(cells.len() as u64 + 1) as usize);
        }
        2 => asked.cells.get_or_insert(Vec::new()).push(1),
        3 => asked.p = random.pick(&[0, 1_001, 65_536, 4_294_967_295]),
        4 => asked.first += random.between(1, size - 1) as u32,
        5 | 6 => {
            let fewer = random.below(asked.image.len() as u64 + 1) as usize;
            asked.image.truncate(fewer);
        }
        7 => asked.first = random.pick(&[part.cells, 0xFFFF_F000]),
        8 => {
            let longer = asked.image.len() + part.cells as usize;
            asked.image.resize(longer, 0);
        }
        _ => {}
    }
    asked
}

/// A number in one of the ways that it may be written.
fn spelled(random: &mut Random, number: u32) -> String {
    match random.below(4) {
        0 => format!("0x{number:x}"),
        1 => format!("{number:X}H"),
        2 => format!("0{number:x}h"),
        _ => number.to_string(),
    }
}

/// A part's name or number in one of the ways that it may be written.
fn named(random: &mut Random, part: u32) -> String {
    let Some(name) = NAMES.get(part as usize) else {
        return spelled(random, part);
    };
    match random.below(5) {
        0 => spelled(random, part),
        1 => name.to_lowercase(),
        2 => format!("SST39{name}"),
        3 => format!("sst39{}", name.to_lowercase()),
        _ => name.to_string(),
    }
}

/// The words of a call, in any order; options left out where what they say is
/// so without them.
pub fn words(asked: &Asked, seed: u64) -> Vec<String> {
    let mut random = Random::new(!seed);
    let mut options = vec![
        vec!["--part".to_string(), named(&mut random, asked.part)],
        vec!["--image".to_string(), "image.bin".to_string()],
        vec!["--out".to_string(), "after.bin".to_string()],
        vec!["--map".to_string()],
    ];
    if asked.cells.is_some() {
        options.push(vec!["--cells".to_string(), "cells.bin".to_string()]);
    }
    if asked.first != 0 || random.percent(50) {
        options.push(vec![
            "--first".to_string(),
            spelled(&mut random, asked.first),
        ]);
    }
    if asked.p != 10 || random.percent(50) {
        options.push(vec!["--p".to_string(), spelled(&mut random, asked.p)]);
    }
    if !asked.wp_high || random.percent(30) {
        let level = if asked.wp_high { "high" } else { "low" };
        options.push(vec!["--wp".to_string(), level.to_string()]);
    }
    if asked.pad {
        options.push(vec!["--pad".to_string()]);
    }
    let mut words = vec!["load".to_string()];
    while !options.is_empty() {
        let at = random.below(options.len() as u64) as usize;
        words.extend(options.swap_remove(at));
    }
    words
}
