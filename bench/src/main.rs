//! Holds the monitor's library against the plain implementation: first the answers, then the times.

mod compare;
mod ffi;
mod inputs;
mod random;
mod sketches;
mod timing;

use bench::plain::watch;
use compare::{Counts, Difference, CALLS};
use inputs::KINDS;
use random::Random;
use std::env;
use std::fs;
use std::io;
use std::path::Path;
use std::process::ExitCode;
use std::time::Instant;
use timing::{Row, Timed};

const INPUTS: usize = 40_000;
const SEED: u64 = 20_261;
/// So many inputs of full size, whose labels alone are compared: to append all their states would take long.
const FULL_SIZE: usize = 40;
/// The refusals that these calls can give.
const REFUSALS: [u8; 10] = [0, 1, 2, 3, 4, 5, 7, 9, 10, 11];

fn main() -> ExitCode {
    let mut arguments = env::args().skip(1).map(|argument| argument.parse::<u64>());
    let (Ok(count), Ok(seed)) = (arguments.next().unwrap_or(Ok(INPUTS as u64)), arguments.next().unwrap_or(Ok(SEED)))
    else {
        eprintln!("usage: bench [INPUTS [SEED]]");
        return ExitCode::from(2);
    };
    match examples() {
        Ok(count) => println!("examples: {count}, both sides as written by hand"),
        Err(told) => return failed(&told),
    }
    if let Err(told) = compared(count, seed) {
        return failed(&told);
    }
    let timed = Timed::new();
    if let Err(told) = compared_large(&timed, seed) {
        return failed(&told);
    }
    println!();
    println!("{}", machine());
    print_times("what", &timed.table());
    println!();
    print_times("label 256 states whole, dated", &timing::by_operator());
    ExitCode::SUCCESS
}

fn print_times(title: &str, rows: &[Row]) {
    println!("{:<60} {:>12} {:>12} {:>7}", title, "ours", "plain", "ratio");
    for row in rows {
        println!("{:<60} {:>12.2} {:>12.2} {:>7.2}", row.what, row.ours, row.plain, row.ours / row.plain);
    }
}

fn failed(told: &str) -> ExitCode {
    println!("{told}");
    ExitCode::FAILURE
}

/// Both sides over the logs whose outputs were written by hand; answers how many.
fn examples() -> Result<usize, String> {
    let folder = Path::new(env!("CARGO_MANIFEST_DIR")).join("../examples");
    let unread = |error: io::Error| format!("{}: {error}", folder.display());
    let mut counts = Counts::default();
    let mut logs = 0;
    for entry in fs::read_dir(&folder).map_err(unread)? {
        let path = entry.map_err(unread)?.path();
        if path.extension().is_some_and(|extension| extension == "log") {
            let input = fs::read(&path).map_err(unread)?;
            let wanted = fs::read(path.with_extension("out")).map_err(unread)?;
            if watch(&input) != wanted {
                return Err(format!("{}: the plain side departs from what is written", path.display()));
            }
            counts.compare(&input).map_err(|difference| told(&input, &difference))?;
            logs += 1;
        }
    }
    Ok(logs)
}

fn compared(count: u64, seed: u64) -> Result<(), String> {
    println!("inputs: {count}, seed {seed}");
    let start = Instant::now();
    let mut random = Random::new(seed);
    let mut counts = Counts::default();
    let mut by_kind = [[0; 16]; KINDS.len()];
    for _ in 0..count {
        let input = inputs::input(&mut random);
        counts.compare(&input.bytes).map_err(|difference| told(&input.bytes, &difference))?;
        by_kind[input.kind][usize::from(counts.watched)] += 1;
    }
    println!("no difference, in {:.1} seconds", start.elapsed().as_secs_f64());
    println!();
    print_counts("inputs by kind and refusal of watch", &KINDS, &by_kind);
    println!();
    print_counts("calls by refusal", &CALLS, &counts.by_call);
    Ok(())
}

fn compared_large(timed: &Timed, seed: u64) -> Result<(), String> {
    let mut random = Random::new(seed);
    let mut counts = Counts::default();
    for input in timed.inputs() {
        counts.compare(input).map_err(|difference| told(input, &difference))?;
    }
    for _ in 0..FULL_SIZE {
        let input = inputs::full_size(&mut random);
        counts.compare_labels(&input).map_err(|difference| told(&input, &difference))?;
    }
    println!();
    println!("no difference over the {} timed inputs, nor in labels of {FULL_SIZE} of full size", timed.inputs().len());
    Ok(())
}

fn print_counts(title: &str, names: &[&str], counts: &[[usize; 16]]) {
    print!("{title:<36}");
    for refusal in REFUSALS {
        print!(" {:>7}", if refusal == 0 { "none".to_string() } else { refusal.to_string() });
    }
    println!();
    for (name, row) in names.iter().zip(counts) {
        print!("{name:<36}");
        for refusal in REFUSALS {
            print!(" {:>7}", row[usize::from(refusal)]);
        }
        println!();
    }
}

fn told(input: &[u8], difference: &Difference) -> String {
    let Difference { call, ours, plain } = difference;
    format!("DIFFERENCE at {call}\nours:  {ours}\nplain: {plain}\ninput: {}", input.escape_ascii())
}

fn machine() -> String {
    let info = fs::read_to_string("/proc/cpuinfo").unwrap_or_default();
    let model = info.lines().find_map(|line| line.strip_prefix("model name")?.split(": ").nth(1));
    let cores = std::thread::available_parallelism().map_or(0, usize::from);
    let model = model.unwrap_or("a processor of unknown model");
    format!("{model}, {cores} cores, {}; times in microseconds", env!("BENCH_RUSTC"))
}
