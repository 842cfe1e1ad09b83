//! Job files: sound ones and damaged ones, and `bill` on them.

use super::Maker;
use crate::bill::LONGEST;
use crate::random::Random;
use crate::station::{op, FILE};

/// Bytes given in one line.
const ROW: usize = 12;

/// A job file as it is described in commands: a pattern and patches.
struct Description {
    length: u64,
    a: u64,
    b: u64,
    /// Offsets and the bytes there.
    patches: Vec<(u64, Vec<u8>)>,
}

pub fn make(maker: &mut Maker, cases: u64) {
    for case in 0..cases {
        maker.send(&[op::MARK, case]);
        let description = describe(&mut maker.random);
        maker.send(&[op::FILE, description.length, description.a, description.b]);
        for (offset, bytes) in &description.patches {
            for (row, chunk) in (0..).zip(bytes.chunks(ROW)) {
                let at = offset + row * ROW as u64;
                let mut command = vec![op::BYTES, at, chunk.len() as u64];
                command.extend(chunk.iter().map(|byte| u64::from(*byte)));
                maker.send(&command);
            }
        }
        // The longest file is a matter of `bill`, not of reading a job file.
        if description.length <= LONGEST as u64 {
            maker.send(&[op::PARSE]);
        }
        let printed = maker.send(&[op::BILL]);
        if printed.len() > 2 {
            maker.send(&[op::HASH, 0, 8_192]);
        }
    }
}

/// The raw bytes of one file, for the program `bill` itself.
pub fn job_file(seed: u64) -> Vec<u8> {
    let description = describe(&mut Random::new(seed));
    let mut bytes: Vec<u8> = (0..description.length)
        .map(|index| (description.a + description.b * index) as u8)
        .collect();
    for (offset, patch) in &description.patches {
        let at = *offset as usize;
        bytes[at..at + patch.len()].copy_from_slice(patch);
    }
    bytes
}

/// The raw bytes of marked case 10.
pub fn marked_file() -> Vec<u8> {
    let mut bytes = vec![0xFF; 4_096];
    bytes[10..12].copy_from_slice(&[0x34, 0x12]);
    bytes.extend(trailer(0, 1, 0, 10, 4_096));
    bytes
}

/// A trailer from its numbers.
fn trailer(part: u64, level: u64, first: u64, p: u64, distance: u64) -> Vec<u8> {
    let mut bytes = Vec::new();
    bytes.extend((part as u16).to_le_bytes());
    bytes.extend([level as u8, 0]);
    bytes.extend((first as u32).to_le_bytes());
    bytes.extend((p as u16).to_le_bytes());
    bytes.extend([0, 0]);
    bytes.extend((distance as u32).to_le_bytes());
    bytes
}

/// A file: sound, with a job that may be refused, or damaged.
fn describe(random: &mut Random) -> Description {
    if random.percent(8) {
        return short_file(random);
    }
    let sectors = random.weigh(&[(2, 0), (8, 1), (3, 2), (1, 3), (1, 4)]);
    let mut distance = sectors * 4_096;
    let mut first = 2_048 * random.between(0, 4 - sectors);
    let mut p = match random.below(4) {
        0 => random.pick(&[1, 10, 14, 15, 1_000]),
        _ => random.between(1, 1_000),
    };
    let (mut part, mut level) = (0, 1);
    if first >= 4_096 || sectors == 0 {
        level = random.bit();
    }
    // Jobs that are refused, by one fault or by several.
    if random.percent(60) {
        for _ in 0..random.between(1, 2) {
            match random.below(9) {
                0 => part = random.pick(&[11, 255, 256, 65_535]),
                1 => part = random.between(1, 10),
                2 => p = random.pick(&[0, 1_001, 65_535]),
                3 => first += random.pick(&[1, 1_024, 2_047]),
                4 => distance += random.pick(&[2, 100, 2_048]),
                5 | 6 => first = random.pick(&[8_192, 8_192 + 2_048, 0xFFFF_F800, 6_144]),
                7 => (first, level) = (2_048 * random.below(3), 0),
                _ => level = 0,
            }
        }
    }
    let remarks = match random.below(4) {
        0 => 0,
        1 => random.below(8),
        _ => random.below(200),
    };
    let mut length = remarks + distance + 16;
    match random.below(20) {
        0 => length = LONGEST as u64,
        1 => length = LONGEST as u64 + random.between(1, 4),
        _ => {}
    }
    let length = length.clamp(distance + 16, FILE as u64);
    let mut trailer = trailer(part, level, first, p, distance);
    if random.percent(20) {
        damage(random, &mut trailer, length - 16);
    }
    let mut patches = image_patches(random, length - 16 - distance, distance);
    patches.push((length - 16, trailer));
    // Mostly blank cells, so that few are programmed; sometimes a pattern.
    let (a, b) = random.weigh(&[(8, (255, 0)), (1, (7, 13)), (1, (0, 0))]);
    Description {
        length,
        a,
        b,
        patches,
    }
}

/// Some values of the image, at its edges and elsewhere, and a remark.
fn image_patches(random: &mut Random, start: u64, distance: u64) -> Vec<(u64, Vec<u8>)> {
    let mut patches = Vec::new();
    if start > 16 && random.percent(50) {
        patches.push((0, (0..14).map(|_| random.below(256) as u8).collect()));
    }
    if distance < 2 {
        return patches;
    }
    for _ in 0..random.between(1, 5) {
        let values = distance / 2;
        let any = random.below(values);
        let at = random.pick(&[0, values - 1, any, any, any]);
        let value = random.word() as u16;
        patches.push((start + 2 * at, value.to_le_bytes().to_vec()));
    }
    patches
}

/// Damages a trailer: a zero, the level, or the distance.
fn damage(random: &mut Random, trailer: &mut [u8], before: u64) {
    match random.below(5) {
        0 => trailer[random.pick(&[3, 10, 11])] = random.between(1, 255) as u8,
        1 => trailer[2] = random.pick(&[2, 128, 255]),
        2 => trailer[12] |= 1,
        3 => {
            let even = before / 2 * 2;
            let distance = random.pick(&[even + 2, before + 1, before + 2, 0xFFFF_FFFE]) as u32;
            trailer[12..16].copy_from_slice(&distance.to_le_bytes());
        }
        _ => trailer[15] = random.between(1, 255) as u8,
    }
}

/// A file of 0 to 18 bytes; from 16 on it may be sound with count 0.
fn short_file(random: &mut Random) -> Description {
    let length = random.between(0, 18);
    let whole = trailer(0, 1, 0, 10, 0);
    let kept = (length as usize).min(whole.len());
    let patches = if kept > 0 {
        vec![(length - kept as u64, whole[whole.len() - kept..].to_vec())]
    } else {
        Vec::new()
    };
    Description {
        length,
        a: 0,
        b: 0,
        patches,
    }
}
