//! The command line: `bill`, and recorded cases.

use std::fs;
use std::io::{self, Read, Write};
use std::path::Path;
use std::process::ExitCode;

use second::bill;
use second::events::Counts;
use second::load;
use second::make::{self, Recorded};
use second::speed;
use second::station::{replay, LARGE};

const USAGE: &str = "\
bill                                  act as the program bill on standard input
write DIR                             write all recorded files
count                                 print the event counts of the recorded files
soak KIND SEED COUNT [--expected]     print COUNT cases of a kind, or what they print
run                                   run the cases of standard input
job SEED                              print the raw bytes of a job file
load SEED DIR                         write a call of the program station, its files, and what has to come of it
speed job COUNT                       load COUNT random words on part 8, to be timed
speed cycles COUNT                    program COUNT random words on part 8 by bare bus cycles, to be timed
";

/// Raw job files for the program `bill`, by their seeds from 0.
const JOB_FILES: u64 = 40;

fn main() -> ExitCode {
    let arguments: Vec<String> = std::env::args().skip(1).collect();
    let words: Vec<&str> = arguments.iter().map(String::as_str).collect();
    let result = match words[..] {
        ["bill"] => run_bill(),
        ["write", directory] => write_all(Path::new(directory)),
        ["count"] => count_all(),
        ["soak", kind, seed, count] => soak(kind, seed, count, false),
        ["soak", kind, seed, count, "--expected"] => soak(kind, seed, count, true),
        ["run"] => run_cases(),
        ["job", seed] => print_job(seed),
        ["load", seed, directory] => write_load(seed, Path::new(directory)),
        ["speed", what, count] => run_speed(what, count),
        _ => Err(format!("usage:\n{USAGE}kinds: {}", make::kinds().join(" "))),
    };
    match result {
        Ok(()) => ExitCode::SUCCESS,
        Err(message) => {
            eprintln!("{message}");
            ExitCode::FAILURE
        }
    }
}

fn text<E: ToString>(error: E) -> String {
    error.to_string()
}

fn print(bytes: &[u8]) -> Result<(), String> {
    io::stdout().write_all(bytes).map_err(text)
}

fn read_all() -> Result<Vec<u8>, String> {
    let mut bytes = Vec::new();
    io::stdin().read_to_end(&mut bytes).map_err(text)?;
    Ok(bytes)
}

fn run_bill() -> Result<(), String> {
    let mut bytes = Vec::new();
    // One byte more than `bill` takes tells that a file is too long.
    io::stdin()
        .take(bill::LONGEST as u64 + 1)
        .read_to_end(&mut bytes)
        .map_err(text)?;
    print(bill::print(&bytes).as_bytes())
}

/// Makes one of the recorded files.
fn recorded(name: &str, seed: u64, cases: u64) -> Result<Recorded, String> {
    make::make(name, seed, cases).ok_or(format!("no kind {name}"))
}

fn write_all(directory: &Path) -> Result<(), String> {
    fs::create_dir_all(directory.join("bill")).map_err(text)?;
    let write = |name: String, bytes: &[u8]| fs::write(directory.join(name), bytes).map_err(text);
    for (name, seed, cases) in make::RECORDED {
        let recorded = recorded(name, *seed, *cases)?;
        write(format!("{name}.in"), recorded.input.as_bytes())?;
        write(format!("{name}.out"), recorded.expected.as_bytes())?;
    }
    let write_job = |name: &str, bytes: &[u8]| {
        write(format!("bill/{name}.job"), bytes)?;
        write(format!("bill/{name}.out"), bill::print(bytes).as_bytes())
    };
    for seed in 0..JOB_FILES {
        write_job(&format!("{seed:02}"), &make::job_file(seed))?;
    }
    write_job("marked", &make::marked_file())
}

fn count_all() -> Result<(), String> {
    let mut counts = Counts::default();
    for (name, seed, cases) in make::RECORDED {
        counts.merge(&recorded(name, *seed, *cases)?.counts);
    }
    for (name, number) in counts.list() {
        println!("{number:>8}  {name}");
    }
    Ok(())
}

fn soak(kind: &str, seed: &str, count: &str, expected: bool) -> Result<(), String> {
    let seed = seed.parse().map_err(text)?;
    let count = count.parse().map_err(text)?;
    let recorded = recorded(kind, seed, count)?;
    print(if expected {
        recorded.expected.as_bytes()
    } else {
        recorded.input.as_bytes()
    })
}

fn run_cases() -> Result<(), String> {
    let input = String::from_utf8(read_all()?).map_err(text)?;
    print(replay(&input, LARGE)?.as_bytes())
}

fn print_job(seed: &str) -> Result<(), String> {
    print(&make::job_file(seed.parse().map_err(text)?))
}

/// Writes a call of `station load`: its words, cells and image; and the bill,
/// the map and the cells afterwards, the last two where it is taken.
fn write_load(seed: &str, directory: &Path) -> Result<(), String> {
    let seed = seed.parse().map_err(text)?;
    let asked = make::asked(seed);
    fs::create_dir_all(directory).map_err(text)?;
    let write = |name: &str, bytes: &[u8]| fs::write(directory.join(name), bytes).map_err(text);
    let width = load::width(asked.part);
    write("words", make::words(&asked, seed).join("\n").as_bytes())?;
    write("image.bin", &load::bytes(&asked.image, width))?;
    if let Some(cells) = &asked.cells {
        write("cells.bin", &load::bytes(cells, width))?;
    }
    let loaded = load::load(&asked);
    write("bill", bill::text(&loaded.bill).as_bytes())?;
    if loaded.bill.answer == 0 {
        write("map", loaded.map.as_bytes())?;
        write("wanted.bin", &load::bytes(&loaded.cells, width))?;
    }
    Ok(())
}

fn run_speed(what: &str, count: &str) -> Result<(), String> {
    let count = count.parse().map_err(text)?;
    let printed = match what {
        "job" => speed::job(count),
        "cycles" => speed::cycles(count),
        _ => return Err(format!("no speed of {what}: job or cycles")),
    };
    print(printed.as_bytes())
}
