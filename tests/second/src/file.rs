//! "Job file": the bytes that carry a job.

/// The bytes of the trailer at a job file's end.
pub const TRAILER: usize = 16;

/// A job as a file gives it.
#[derive(Clone, Debug, PartialEq, Eq)]
pub struct JobFile {
    pub part: u32,
    pub wp_high: bool,
    pub first: u32,
    pub p: u32,
    pub image: Vec<u16>,
}

/// A little-endian number of these bytes.
fn number(bytes: &[u8]) -> u32 {
    bytes
        .iter()
        .rev()
        .fold(0, |high, byte| high << 8 | u32::from(*byte))
}

/// Reads a job file, none if it is malformed (refusal 13). It knows no longest
/// file: that limit is the program `bill`'s.
pub fn parse(bytes: &[u8]) -> Option<JobFile> {
    let before = bytes.len().checked_sub(TRAILER)?;
    let trailer = &bytes[before..];
    let zeros = trailer[3] == 0 && trailer[10] == 0 && trailer[11] == 0;
    let level = trailer[2];
    let distance = number(&trailer[12..16]) as usize;
    if !zeros || level > 1 || !distance.is_multiple_of(2) || distance > before {
        return None;
    }
    let image = bytes[before - distance..before]
        .chunks_exact(2)
        .map(|pair| u16::from_le_bytes([pair[0], pair[1]]))
        .collect();
    Some(JobFile {
        part: number(&trailer[0..2]),
        wp_high: level == 1,
        first: number(&trailer[4..8]),
        p: number(&trailer[8..10]),
        image,
    })
}
