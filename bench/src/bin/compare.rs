//! Compares the Rust engine with the archive on random inputs and ends with what was seen, or with the first difference.
//! compare [--seed N] [--comparisons N] [--workers N] [--base N]
use parvusek_bench::compare::report::Tally;
use parvusek_bench::compare::worker::{Found, compare};
use parvusek_bench::compare::{calls::Calls, lengths, lent, worker};
use std::os::unix::process::ExitStatusExt;
use std::process::{Command, ExitCode};
use std::sync::atomic::{AtomicU64, Ordering};
use std::time::{Instant, SystemTime};
use std::{env, fs, thread};

struct Settings {
    seed: u64,
    comparisons: u64,
    workers: u64,
    base: Option<u64>,
}

fn settings() -> Result<Settings, String> {
    let now = SystemTime::now().duration_since(SystemTime::UNIX_EPOCH).map_or(1, |time| time.as_nanos() as u64);
    let mut settings = Settings { seed: now % 1_000_000_000, comparisons: 10_000_000, workers: 2, base: None };
    let mut words = env::args().skip(1);
    while let Some(word) = words.next() {
        let number = words.next().and_then(|text| text.parse().ok()).ok_or(format!("{word} needs a number"))?;
        match word.as_str() {
            "--seed" => settings.seed = number,
            "--comparisons" => settings.comparisons = number,
            "--workers" => settings.workers = number.max(1),
            "--base" => settings.base = Some(number),
            _ => {
                return Err(format!(
                    "{word} is not known: --seed, --comparisons, --workers, --base, each with a number"
                ));
            }
        }
    }
    Ok(settings)
}

fn main() -> ExitCode {
    if let Some(place) = env::var_os("COMPARE_TRESPASS") {
        lent::trespass(place == "front");
        return ExitCode::SUCCESS;
    }
    match settings().and_then(|settings| compare_all(&settings)) {
        Ok(()) => ExitCode::SUCCESS,
        Err(why) => {
            println!("compare: FAILED: {why}");
            ExitCode::FAILURE
        }
    }
}

fn compare_all(settings: &Settings) -> Result<(), String> {
    println!("compare: seed {}, {} workers", settings.seed, settings.workers);
    guards_stand()?;
    lent::empty_lendings()?;
    every_length(settings)?;
    let start = Instant::now();
    let tally = match settings.base {
        Some(base) => {
            let mut calls = Calls::default();
            worker::compare_base(&mut calls, settings.seed, base).map_err(|found| describe(settings, *found))?;
            calls.tally
        }
        None => by_all_workers(settings).map_err(|found| describe(settings, *found))?,
    };
    print!("{tally}");
    println!("compare: {} calls compared in {:.1} s, no difference", tally.calls(), start.elapsed().as_secs_f64());
    let impossible = tally.impossible();
    if !impossible.is_empty() {
        return Err(format!("both engines gave what no basis can lead to: {}", impossible.join(", ")));
    }
    let missing = tally.missing();
    if settings.comparisons >= 100_000 && settings.base.is_none() && !missing.is_empty() {
        return Err(format!("the inputs never led to: {}", missing.join(", ")));
    }
    Ok(())
}

fn every_length(settings: &Settings) -> Result<(), String> {
    let tally = lengths::compare_lengths(settings.seed).map_err(|found| describe(settings, *found))?;
    println!(
        "compare: runs and files of every length from 0 to {} that begin like either form, {} calls, no difference",
        lengths::LAST_LENGTH,
        tally.calls()
    );
    Ok(())
}

/// Each worker takes every n-th base; the calls of all are counted together.
fn by_all_workers(settings: &Settings) -> Result<Tally, Box<Found>> {
    let done = AtomicU64::new(0);
    let share = settings.comparisons.div_ceil(settings.workers);
    let mut whole = Tally::default();
    let tallies: Vec<_> = thread::scope(|scope| {
        let start = |first| {
            let done = &done;
            scope.spawn(move || {
                compare(settings.seed, first, settings.workers, |tally| {
                    if first == 0 && tally.calls() - done.load(Ordering::Relaxed) > 1_000_000 {
                        done.store(tally.calls(), Ordering::Relaxed);
                        eprintln!("compare: {} of {share} calls of the first worker", tally.calls());
                    }
                    tally.calls() >= share
                })
            })
        };
        let workers: Vec<_> = (0..settings.workers).map(start).collect();
        workers.into_iter().map(|worker| worker.join().expect("a worker panicked")).collect()
    });
    for tally in tallies {
        whole.add(&tally?);
    }
    Ok(whole)
}

fn describe(settings: &Settings, found: Found) -> String {
    let (seed, base, kind) = (settings.seed, found.base, found.kind);
    let (run, history) = (kept("run", &found.run), kept("history", &found.history));
    format!("a difference on base {base} ({kind}) of seed {seed}; {run}, {history}\n{}", found.difference)
}

/// Keeps what was lent in a file, and says where.
fn kept(what: &str, bytes: &[u8]) -> String {
    let path = env::temp_dir().join(format!("parvusek-difference-{}.{what}", std::process::id()));
    match fs::write(&path, bytes) {
        Ok(()) => format!("its {what} is in {}", path.display()),
        Err(why) => format!("its {what} could not be kept: {why}"),
    }
}

/// A read beyond a lent buffer must end a program, or the guards show nothing.
fn guards_stand() -> Result<(), String> {
    const SEGMENTATION_FAULT: i32 = 11;
    let this = env::current_exe().map_err(|why| why.to_string())?;
    for place in ["front", "back"] {
        let status = Command::new(&this).env("COMPARE_TRESPASS", place).status().map_err(|why| why.to_string())?;
        if status.signal() != Some(SEGMENTATION_FAULT) {
            return Err(format!("a byte read beyond the {place} of a lent buffer was not noticed"));
        }
    }
    println!("compare: a byte read beyond either end of a lent buffer ends the program, as it should");
    Ok(())
}
