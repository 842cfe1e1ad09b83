//! The program `bill`: a job file's bill on a blank bench part.

use crate::file;
use crate::job::{self, Bill, Job};

/// The longest file that `bill` takes.
pub const LONGEST: usize = 20_480;

/// Cells of the bench part, which `bill` lends whatever part the file names.
pub const BENCH_CELLS: usize = 8_192;

/// The bill of a job file on these blank bench cells.
pub fn bill(bytes: &[u8], cells: &mut [u16]) -> Bill {
    let file = match file::parse(bytes) {
        Some(file) if bytes.len() <= LONGEST => file,
        _ => {
            return Bill {
                answer: 13,
                ..Bill::default()
            }
        }
    };
    let job = Job {
        part: file.part,
        first: file.first,
        image: &file.image,
        wp_high: file.wp_high,
        p: file.p,
    };
    job::load(&job, cells)
}

/// What `bill` prints for a file.
pub fn print(bytes: &[u8]) -> String {
    text(&bill(bytes, &mut [0xFFFF; BENCH_CELLS]))
}

/// A bill as it is printed: nine lines, or the answer line of a refusal.
pub fn text(bill: &Bill) -> String {
    let answer = format!("answer {}\n", bill.answer);
    if bill.answer != 0 {
        return answer;
    }
    let lines = [
        ("saved", bill.saved),
        ("spent", bill.spent),
        ("erases", bill.erases),
        ("programs", bill.programs),
        ("polls", bill.polls),
        ("scans", bill.scans),
        ("confirms", bill.confirms),
        ("sum", u64::from(bill.sum)),
    ];
    let mut text: String = lines
        .iter()
        .map(|(name, number)| format!("{name} {number}\n"))
        .collect();
    text.push_str(&answer);
    text
}
