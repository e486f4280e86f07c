//! Compares the pages of the proved library and of this package, over generated sheets and over
//! all marks and slots of small rings.
//!
//! KNELLNETTLE_SEED=NUMBER repeats a run whose seed was taken from the clock, and
//! KNELLNETTLE_SHEETS=NUMBER sets how many sheets each seed gives.

use compare::damage;
use compare::generate::{hear, longest, marks_numbered, one_after_another, slots_numbered, to_bytes};
use compare::proved;
use compare::random::Random;
use compare::reader::{Mark, Sheet};
use std::fmt;
use std::process::ExitCode;
use std::sync::atomic::{AtomicUsize, Ordering};
use std::sync::Mutex;
use std::time::{Instant, SystemTime, UNIX_EPOCH};

const FIXED_SEED: u64 = 20_261_115;
const SHEETS_PER_SEED: u64 = 110_000;

/// Generated sheets are handed to the threads in parts of this size.
const PART: u64 = 2_000;

/// So many sheets are handed to the proved library together.
const TOGETHER: usize = 64;

/// The stack of a C program's main thread, for the proved library's sake.
const STACK_BYTES: usize = 8 << 20;

/// The least number of times that each kind of page must be met for a run to count.
const LEAST: usize = 500;

/// A part of the work, the same whichever thread does it.
#[derive(Clone, Copy, Debug)]
enum Job {
    /// Sheets at random by their numbers.
    Generated { seed: u64, from: u64, to: u64 },
    /// Every choice of marks over so many slots, with a bus that agrees. With `digits` 2 a seat has
    /// its mark in a slot or none, with 3 also a dark one.
    EveryMark { n: usize, slots: usize, digits: u64 },
    /// Every choice of send and receive marks with every choice of what the recorder heard.
    EverySlot { n: usize, slots: usize },
    /// The longest good sheet and one with many records for every ring, whole, cut short and with a byte more.
    Large,
}

/// What the pages were, so that a run which compares only refusals, say, does not pass.
#[derive(Clone, Debug, Default)]
struct Tally {
    sheets: usize,
    refused: [usize; 11],
    causes: [usize; 5],
    bus_differs: usize,
    bus_agrees: usize,
    faults_outside: usize,
    faults_within: usize,
}

impl Tally {
    fn count(&mut self, page: &[u8]) {
        let page = std::str::from_utf8(page).expect("a page is ASCII");
        self.sheets += 1;
        if let Some(refusal) = page.strip_prefix("refused ") {
            let number = refusal.split(' ').next().and_then(|number| number.parse::<usize>().ok());
            self.refused[number.expect("a refusal has a number")] += 1;
            return;
        }
        for (times, cause) in self.causes.iter_mut().zip([" a\n", " b\n", " c\n", " d\n", " e\n"]) {
            *times += usize::from(page.contains(cause));
        }
        self.bus_differs += usize::from(page.contains("bus differs "));
        self.bus_agrees += usize::from(page.contains("bus agrees\n"));
        self.faults_outside += usize::from(page.contains("faults outside "));
        self.faults_within += usize::from(page.contains("faults within\n"));
    }

    fn add(&mut self, other: &Tally) {
        self.sheets += other.sheets;
        self.refused.iter_mut().zip(other.refused).for_each(|(sum, more)| *sum += more);
        self.causes.iter_mut().zip(other.causes).for_each(|(sum, more)| *sum += more);
        self.bus_differs += other.bus_differs;
        self.bus_agrees += other.bus_agrees;
        self.faults_outside += other.faults_outside;
        self.faults_within += other.faults_within;
    }

    /// Whether every kind of page that a sheet can have was met often enough.
    fn is_wide(&self) -> bool {
        let verdicts = [self.bus_differs, self.bus_agrees, self.faults_outside, self.faults_within];
        let kinds = self.refused[1..=7].iter().chain(&self.causes).chain(&verdicts);
        kinds.into_iter().all(|&times| times >= LEAST)
    }
}

impl fmt::Display for Tally {
    fn fmt(&self, f: &mut fmt::Formatter) -> fmt::Result {
        writeln!(f, "  refused 1 to 7: {:?}; with a record of cause a to e: {:?}", &self.refused[1..=7], self.causes)?;
        write!(f, "  bus agrees {}, differs {}; ", self.bus_agrees, self.bus_differs)?;
        write!(f, "faults within {}, outside {}", self.faults_within, self.faults_outside)
    }
}

/// Sheets that wait to be compared together, each with what it is called.
#[derive(Default)]
struct Sides {
    sheets: Vec<Vec<u8>>,
    names: Vec<String>,
    tally: Tally,
}

impl Sides {
    /// Compares a sheet, now or with later ones.
    fn compare(&mut self, name: impl FnOnce() -> String, sheet: Vec<u8>) -> Result<(), String> {
        self.sheets.push(sheet);
        self.names.push(name());
        if self.sheets.len() < TOGETHER {
            Ok(())
        } else {
            self.compare_waiting()
        }
    }

    /// Compares both pages of every sheet that waits. An error tells of the first difference.
    fn compare_waiting(&mut self) -> Result<(), String> {
        let mut ours = Vec::new();
        let mut first = Ok(());
        proved::print_all(&self.sheets, |number, theirs| {
            compare::print(&self.sheets[number], &mut ours);
            self.tally.count(&ours);
            if theirs != Some(&ours) && first.is_ok() {
                let theirs = theirs.map_or("none".to_string(), |page| page.escape_ascii().to_string());
                let how = format!("the pages differ\n  proved: {theirs}\n  compare: {}", ours.escape_ascii());
                first = Err(told(&self.names[number], &self.sheets[number], &how));
            }
        });
        self.sheets.clear();
        self.names.clear();
        first
    }
}

/// Sees that the proved library answers by the length of the page buffer and writes nothing past it.
fn compare_short_buffers(sheet: &[u8]) -> Result<(), String> {
    let mut ours = Vec::new();
    compare::print(sheet, &mut ours);
    let length = ours.len();
    let mut lent = vec![0x55; length + 16];
    if proved::print(sheet, &mut lent[..length]) != Some(&ours) {
        return Err(format!("a buffer of just the page's {length} bytes gives another page"));
    }
    for short in [length - 1, length / 2, 0] {
        if proved::print(sheet, &mut lent[..short]).is_some() {
            return Err(format!("a buffer of {short} bytes gives a page of {length}"));
        }
    }
    match lent[length..].iter().all(|&byte| byte == 0x55) {
        true => Ok(()),
        false => Err("bytes past the lent buffer have changed".to_string()),
    }
}

impl Job {
    fn run(self) -> Result<Tally, String> {
        let mut sides = Sides::default();
        match self {
            Job::Generated { seed, from, to } => {
                for number in from..to {
                    let name = || format!("seed {seed}, sheet {number}");
                    let sheet = damage::sheet(&mut Random::for_sheet(seed, number));
                    if number % 32 == 0 {
                        compare_short_buffers(&sheet).map_err(|how| told(&name(), &sheet, &how))?;
                    }
                    sides.compare(name, sheet)?;
                }
            }
            Job::EveryMark { n, slots, digits } => {
                for number in 0..digits.pow((n * slots) as u32) {
                    let mut sheet = small(n, marks_numbered(n, slots, digits, number), vec![None; slots]);
                    hear(&mut sheet);
                    sides.compare(|| format!("{self:?}, marks {number}"), to_bytes(&sheet))?;
                }
            }
            Job::EverySlot { n, slots } => {
                for marks in 0..2u64.pow((n * slots) as u32) {
                    for heard in 0..3u64.pow(slots as u32) {
                        let sheet = small(n, marks_numbered(n, slots, 2, marks), slots_numbered(slots, heard));
                        sides.compare(|| format!("{self:?}, marks {marks}, slots {heard}"), to_bytes(&sheet))?;
                    }
                }
            }
            Job::Large => {
                let many_records = (2..=32).map(one_after_another);
                for (number, sheet) in many_records.chain([longest()]).map(|sheet| to_bytes(&sheet)).enumerate() {
                    let cut = sheet[..sheet.len() - 1].to_vec();
                    let more = [&sheet[..], b"\n"].concat();
                    for sheet in [sheet, cut, more] {
                        sides.compare(|| format!("large sheet {number}"), sheet)?;
                    }
                }
            }
        }
        sides.compare_waiting()?;
        Ok(sides.tally)
    }
}

fn small(n: usize, marks: Vec<Mark>, slots: Vec<Option<bool>>) -> Sheet {
    Sheet { modules: (1..=n as u16).map(|seat| 100 * seat).collect(), marks, slots }
}

/// A difference, with all that is needed to see it again.
fn told(which: &str, sheet: &[u8], how: &str) -> String {
    format!("{which}: {how}\n  sheet ({} bytes): {}", sheet.len(), sheet.escape_ascii())
}

/// The sheets of one seed, in parts.
fn generated(seed: u64, sheets: u64) -> Vec<Job> {
    let part = |from| Job::Generated { seed, from, to: sheets.min(from + PART) };
    (0..sheets).step_by(PART as usize).map(part).collect()
}

/// Large sheets, and all marks and slots of small rings.
fn directed() -> Vec<Job> {
    let mut jobs = vec![Job::Large];
    for (n, digits, most_slots) in [(2, 3, 4), (3, 3, 3), (2, 2, 7), (3, 2, 5), (4, 2, 3)] {
        jobs.extend((0..=most_slots).map(|slots| Job::EveryMark { n, slots, digits }));
    }
    for (n, most_slots) in [(2, 4), (3, 3)] {
        jobs.extend((0..=most_slots).map(|slots| Job::EverySlot { n, slots }));
    }
    jobs
}

/// Does all jobs on as many threads as there are processors, up to the first difference.
fn run_all(jobs: &[Job]) -> Result<Tally, Vec<String>> {
    let next = AtomicUsize::new(0);
    let results: Mutex<(Tally, Vec<String>)> = Mutex::default();
    let work = || {
        while let Some(job) = jobs.get(next.fetch_add(1, Ordering::Relaxed)) {
            let result = job.run();
            let mut results = results.lock().expect("no thread has failed");
            match result {
                Ok(tally) => results.0.add(&tally),
                Err(difference) => {
                    results.1.push(difference);
                    next.fetch_max(jobs.len(), Ordering::Relaxed);
                }
            }
        }
    };
    std::thread::scope(|scope| {
        for _ in 0..std::thread::available_parallelism().map_or(1, |threads| threads.get()) {
            let builder = std::thread::Builder::new().stack_size(STACK_BYTES);
            builder.spawn_scoped(scope, work).expect("a thread starts");
        }
    });
    let (tally, differences) = results.into_inner().expect("no thread has failed");
    if differences.is_empty() {
        Ok(tally)
    } else {
        Err(differences)
    }
}

/// A number from the environment, or another one where it is not set.
fn setting(name: &str, otherwise: impl Fn() -> u64) -> u64 {
    match std::env::var(name) {
        Ok(value) => value.parse().unwrap_or_else(|_| panic!("{name} is not a number: {value}")),
        Err(_) => otherwise(),
    }
}

fn clock() -> u64 {
    SystemTime::now().duration_since(UNIX_EPOCH).map_or(0, |since| since.as_nanos() as u64)
}

fn main() -> ExitCode {
    let sheets = setting("KNELLNETTLE_SHEETS", || SHEETS_PER_SEED);
    let clock_seed = setting("KNELLNETTLE_SEED", clock);
    let parts = [
        (format!("fixed seed {FIXED_SEED}"), generated(FIXED_SEED, sheets)),
        (format!("clock seed {clock_seed}"), generated(clock_seed, sheets)),
        ("large sheets, and all marks and slots of small rings".to_string(), directed()),
    ];
    for (name, jobs) in parts {
        println!("{name}:");
        let start = Instant::now();
        match run_all(&jobs) {
            Ok(tally) => {
                println!("  {} sheets, every page the same, {:.1} s", tally.sheets, start.elapsed().as_secs_f64());
                println!("{tally}");
                if name.contains("seed") && sheets >= SHEETS_PER_SEED && !tally.is_wide() {
                    println!("  but some kind of page was met fewer than {LEAST} times");
                    return ExitCode::FAILURE;
                }
            }
            Err(differences) => {
                println!("{}", differences.join("\n"));
                return ExitCode::FAILURE;
            }
        }
    }
    ExitCode::SUCCESS
}
