//! What `bench/run` times: a job and a row of bus cycles on part 8, over words
//! that every program of the comparison makes alike.

use crate::cycle::{cycle, Action, Cycle, Device};
use crate::job::{load, Job};
use crate::part::Part;

const PART: u32 = 8;
const P: u32 = 10;

/// Words from a seed on: x becomes (x * 1,103,515,245 + 12,345) modulo 2^31,
/// and a word is its bits 12 to 27.
fn words(count: usize, seed: u32) -> Vec<u16> {
    let mut x = seed;
    let mut next = || {
        x = x.wrapping_mul(1_103_515_245).wrapping_add(12_345) & 0x7FFF_FFFF;
        (x >> 12) as u16
    };
    (0..count).map(|_| next()).collect()
}

/// The cells of the part and an image as long, both at random.
fn buffers() -> (Vec<u16>, Vec<u16>) {
    let cells = Part::get(PART).map_or(0, |part| part.cells as usize);
    (words(cells, 1), words(cells, 2))
}

/// Loads the first `count` words of the image, and prints what was counted.
pub fn job(count: usize) -> String {
    let (mut cells, image) = buffers();
    let job = Job {
        part: PART,
        first: 0,
        image: &image[..count.min(image.len())],
        wp_high: true,
        p: P,
    };
    let bill = load(&job, &mut cells);
    format!(
        "answer {}\nerases {}\nprograms {}\npolls {}\nscans {}\nconfirms {}\nsum {}\n",
        bill.answer, bill.erases, bill.programs, bill.polls, bill.scans, bill.confirms, bill.sum
    )
}

/// The chip alone, blank: every one of the first `count` words is programmed by
/// its four writes and read four times, 10 µs apart.
pub fn cycles(count: usize) -> String {
    let (mut cells, image) = buffers();
    cells.fill(0xFFFF);
    let mut device = Device::default();
    let (mut sent, mut sum) = (0u64, 0u64);
    for (address, &data) in (0..).zip(&image[..count.min(image.len())]) {
        let write = |address, data| (0, Action::Write { address, data });
        let read = (P, Action::Read { address });
        let unlock = [
            write(0x5555, 0xAA),
            write(0x2AAA, 0x55),
            write(0x5555, 0xA0),
        ];
        let rest = [write(address, data), read, read, read, read];
        for (elapsed, action) in unlock.into_iter().chain(rest) {
            let wp_high = true;
            let reply = cycle(
                PART,
                &mut cells,
                device,
                Cycle {
                    elapsed,
                    wp_high,
                    action,
                },
            );
            device = reply.device;
            sent += 1;
            sum += u64::from(reply.value) + u64::from(reply.answer);
        }
    }
    format!("cycles {sent}\nsum {sum}\n")
}
