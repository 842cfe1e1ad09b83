//! The job and its second call.

use second::cycle::{Action, Cycle};
use second::job::{load, send_first, Bill, Job};
use second::part::{Kind, Part};
use second::random::Random;

/// A job with WP# high.
fn job(part: u32, first: u32, image: &[u16], p: u32) -> Job<'_> {
    Job {
        part,
        first,
        image,
        wp_high: true,
        p,
    }
}

/// The answer of a job, which must change nothing if it is refused; the second
/// call refuses the same.
fn answer(job: &Job, lent: usize) -> u32 {
    let mut cells = vec![0xFF; lent];
    let bill = load(job, &mut cells);
    if bill.answer != 0 {
        let nothing = Bill {
            answer: bill.answer,
            ..Bill::default()
        };
        assert_eq!(bill, nothing);
        assert!(cells.iter().all(|cell| *cell == 0xFF));
    }
    let mut cells = vec![0xFF; lent];
    let prefix = send_first(job, &mut cells, 3);
    assert_eq!(prefix.answer, bill.answer);
    if prefix.answer != 0 {
        assert_eq!((prefix.sent, prefix.last), (0, None));
    }
    bill.answer
}

#[test]
fn refusals_come_in_their_order() {
    let high = vec![256; 4_096];
    let odd = &high[..4_095];
    let far = 131_072 - 2_048;
    assert_eq!(answer(&job(11, far, odd, 0), 3), 1);
    assert_eq!(answer(&job(1, far, odd, 0), 131_071), 2);
    assert_eq!(answer(&job(1, far, odd, 0), 131_072), 10);
    assert_eq!(answer(&job(1, far, odd, 1_001), 131_072), 10);
    assert_eq!(answer(&job(1, 131_072, odd, 1_000), 131_072), 6);
    assert_eq!(answer(&job(1, far, &high, 1_000), 131_072), 6);
    assert_eq!(answer(&job(1, 131_072, &high, 1_000), 131_072), 7);
    assert_eq!(answer(&job(1, 0xFFFF_F000, &high, 1_000), 131_072), 7);
    assert_eq!(answer(&job(1, 131_072 - 4_096, &high, 1_000), 131_072), 8);
    let low = vec![255; 4_096];
    assert_eq!(answer(&job(1, 131_072 - 4_096, &low, 1_000), 131_072), 0);
    // 8 is never met on sixteen bits; 9 comes last.
    let protected = Job {
        wp_high: false,
        ..job(0, 2_048, &high, 10)
    };
    assert_eq!(answer(&protected, 8_192), 9);
    let beside = Job {
        first: 4_096,
        ..protected
    };
    assert_eq!(answer(&beside, 8_192), 0);
    assert_eq!(answer(&Job { p: 0, ..protected }, 8_192), 10);
}

#[test]
fn protection_at_the_top() {
    let image = vec![0xFFFF; 2_048];
    let top = |first| Job {
        wp_high: false,
        ..job(8, first, &image, 10)
    };
    assert_eq!(answer(&top(1_015_808 - 2_048), 1_048_576), 0);
    assert_eq!(answer(&top(1_015_808), 1_048_576), 9);
    assert_eq!(answer(&top(1_046_528), 1_048_576), 9);
}

#[test]
fn count_0_is_accepted_where_its_first_is() {
    let none = |first| Job {
        wp_high: false,
        ..job(0, first, &[], 10)
    };
    let mut cells = vec![0; 8_192];
    assert_eq!(load(&none(0), &mut cells), Bill::default());
    assert_eq!(load(&none(8_192), &mut cells), Bill::default());
    assert_eq!(answer(&none(1), 8_192), 6);
    assert_eq!(answer(&none(10_240), 8_192), 7);
    assert_eq!(send_first(&none(0), &mut cells, 9).sent, 0);
}

#[test]
fn nothing_to_do_saves_everything() {
    let mut cells = vec![0; 4_194_304];
    let image = cells.clone();
    let bill = load(&job(9, 0, &image, 1_000), &mut cells);
    // 2,048 sectors at 18 polls and every cell at one, and 1 µs more for each.
    assert_eq!(bill.saved, 2_048 * 18_001 + 4_194_304 * 1_001);
    assert_eq!((bill.spent, bill.scans), (0, 2 * 4_194_304));
}

/// Cells and image of some sectors, near each other.
fn random_job(random: &mut Random, part: &Part) -> (Vec<u16>, Vec<u16>, u32) {
    let sector = part.sector() as usize;
    let mut cells = vec![part.blank(); part.cells as usize];
    let first = sector * random.below(3) as usize;
    let sectors = 2;
    let length = (sectors * sector) as u64;
    let places: Vec<usize> = (0..6).map(|_| random.below(length) as usize).collect();
    for at in &places {
        cells[first + at] = random.word() as u16;
    }
    let mut image: Vec<u16> = cells[first..first + sectors * sector]
        .iter()
        .map(|cell| part.value(*cell))
        .collect();
    for _ in 0..random.between(1, 4) {
        let at = random.pick(&places);
        let value = random.word() as u16;
        image[at] = part.value(if random.percent(60) {
            image[at] & value
        } else {
            value
        });
    }
    (cells, image, first as u32)
}

#[test]
fn the_bill_is_its_formulas() {
    let mut random = Random::new(1);
    let mut erased_jobs = 0;
    for round in 0..60 {
        let number = [0, 1, 4][round % 3];
        let part = Part::get(number).unwrap();
        let (before, image, first) = random_job(&mut random, part);
        let p = random.between(1, 1_000) as u32;
        let mut cells = before.clone();
        let bill = load(&job(number, first, &image, p), &mut cells);

        // By the rules, without any cycle.
        let start = first as usize;
        let sector = part.sector() as usize;
        let (mut erases, mut programs, mut unerased) = (0, 0, 0);
        for (old, new) in before[start..].chunks(sector).zip(image.chunks(sector)) {
            let pairs = || old.iter().map(|cell| part.value(*cell)).zip(new);
            if pairs().any(|(old, new)| !old & new != 0) {
                erases += 1;
                programs += new.iter().filter(|value| **value != part.blank()).count();
            } else {
                unerased += sector;
                programs += pairs().filter(|(old, new)| old != *new).count();
            }
        }
        let n = |kind| u64::from(part.polls(kind, p));
        let programs = programs as u64;
        let polls = erases * n(Kind::Sector) + programs * n(Kind::Program);
        let confirms = erases + programs;
        let spent = polls * u64::from(p) + confirms;
        let each = |kind| n(kind) * u64::from(p) + 1;
        let all = 2 * each(Kind::Sector) + image.len() as u64 * each(Kind::Program);
        let sum = image
            .iter()
            .fold(0u16, |sum, value| sum.wrapping_add(*value));
        let wanted = Bill {
            saved: all - spent,
            spent,
            erases,
            programs,
            polls,
            scans: (image.len() + unerased) as u64,
            confirms,
            sum,
            answer: 0,
        };
        assert_eq!(bill, wanted);
        erased_jobs += erases;
        let after = &cells[start..start + image.len()];
        assert!(after
            .iter()
            .map(|cell| part.value(*cell))
            .eq(image.iter().copied()));
        assert_eq!(cells[..start], before[..start]);
        let end = start + image.len();
        assert_eq!(cells[end..], before[end..]);
    }
    assert!(erased_jobs > 20);
}

#[test]
fn a_second_call_with_all_is_the_job() {
    let mut random = Random::new(2);
    let part = Part::get(0).unwrap();
    for _ in 0..20 {
        let (before, image, first) = random_job(&mut random, part);
        let job = job(0, first, &image, 100);
        let (mut by_job, mut by_all, mut by_k) = (before.clone(), before.clone(), before);
        let bill = load(&job, &mut by_job);
        let all = send_first(&job, &mut by_all, u64::MAX);
        assert_eq!(by_job, by_all);
        assert_eq!(send_first(&job, &mut by_k, all.sent), all);
        let counts = all.counts;
        assert_eq!(counts.time, bill.spent);
        assert_eq!(
            (counts.erases, counts.programs),
            (bill.erases, bill.programs)
        );
        assert_eq!((counts.polls, counts.scans), (bill.polls, bill.scans));
        assert_eq!(counts.confirms, bill.confirms);
        let writes = 6 * bill.erases + 4 * bill.programs;
        assert_eq!(all.sent, writes + bill.polls + bill.scans + bill.confirms);
    }
}

#[test]
fn second_calls_of_case_10_cycle_by_cycle() {
    let mut image = vec![0xFFFF; 2_048];
    image[5] = 0x1234;
    let job = job(0, 0, &image, 10);
    let call = |k| {
        let mut cells = vec![0xFFFF; 8_192];
        let prefix = send_first(&job, &mut cells, k);
        (prefix, cells[5])
    };
    let read = |elapsed, address| {
        Some(Cycle {
            elapsed,
            wp_high: true,
            action: Action::Read { address },
        })
    };
    let write = |address, data| {
        Some(Cycle {
            elapsed: 0,
            wp_high: true,
            action: Action::Write { address, data },
        })
    };
    assert_eq!((call(0).0.sent, call(0).0.last), (0, None));
    // The scan, then the second pass up to the sixth cell.
    assert_eq!(call(2_048).0.last, read(0, 2_047));
    let (sixth, _) = call(2_054);
    assert_eq!((sixth.last, sixth.reply), (read(0, 5), 0xFFFF));
    assert_eq!(call(2_055).0.last, write(0x555, 0xAA));
    assert_eq!(call(2_057).0.counts.programs, 0);
    let (started, cell) = call(2_058);
    assert_eq!((started.last, started.reply), (write(5, 0x1234), 0));
    assert_eq!((started.counts.programs, cell), (1, 0xFFFF));
    // Two polls at 10 µs: busy, then done, and the confirming read 1 µs later.
    let (first, cell) = call(2_059);
    assert_eq!((first.last, first.reply), (read(10, 5), 0x00C0));
    assert_eq!(
        (first.counts.polls, first.counts.time, cell),
        (1, 10, 0xFFFF)
    );
    let (second, cell) = call(2_060);
    assert_eq!(
        (second.last, second.reply, cell),
        (read(10, 5), 0x1234, 0x1234)
    );
    let (confirm, _) = call(2_061);
    assert_eq!((confirm.last, confirm.reply), (read(1, 5), 0x1234));
    assert_eq!((confirm.counts.confirms, confirm.counts.scans), (1, 2_054));
    assert_eq!((second.counts.time, confirm.counts.time), (20, 21));
    assert_eq!(call(2_062).0.last, read(0, 6));
    let (all, _) = call(u64::MAX);
    assert_eq!((all.sent, all.last), (4_103, read(0, 2_047)));
    assert_eq!(all.counts.time, 21);
}

#[test]
fn an_erased_sector_programs_also_what_was_right() {
    let mut cells = vec![0xFFFF; 8_192];
    cells[0] = 0x0001;
    cells[1] = 0x0002;
    let mut image = vec![0xFFFF; 2_048];
    image[0] = 0x0001;
    image[1] = 0x0003;
    let bill = load(&job(0, 0, &image, 1_000), &mut cells);
    assert_eq!((bill.erases, bill.programs, bill.scans), (1, 2, 2_048));
}

#[test]
fn eight_bit_cells_above_255_are_judged_by_value() {
    let mut cells = vec![0xFF; 131_072];
    cells[0] = 0x1242;
    cells[1] = 0x12FF;
    cells[4_096] = 0x12FF;
    let mut image = vec![0xFF; 4_096];
    image[0] = 0x42;
    image[1] = 0xF0;
    let bill = load(&job(1, 0, &image, 10), &mut cells);
    assert_eq!((bill.erases, bill.programs), (0, 1));
    assert_eq!(cells[..2], [0x1242, 0xF0]);
    assert_eq!(cells[4_096], 0x12FF);
    assert_eq!(
        bill.sum,
        (0x42 + 0xF0u16).wrapping_add((4_094 * 255u32) as u16)
    );
}
