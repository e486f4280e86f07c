//! The benchmark: the longest good sheet, run by the proved library and by this package.

use compare::generate::{longest, to_bytes};
use compare::proved::{self, EMULATED, PAGE_BYTES};
use std::hint::black_box;
use std::process::ExitCode;
use std::time::{Duration, Instant};

const USAGE: &str = "usage: bench                   time both sides and print their ratio
       bench proved RUNS       run only the proved library, so that a profiler can count
       bench compare RUNS      run only the Rust implementation of this package";

/// Both sides take turns, so that what slows the machine for a while slows both.
const ROUNDS: usize = 31;

/// One round of one side lasts about so long.
const ROUND: Duration = Duration::from_millis(100);

#[derive(Clone, Copy)]
enum Side {
    Proved,
    Compare,
}

/// The sheet and both page buffers. They are made once and not cleared between runs, on either side.
struct Bench {
    sheet: Vec<u8>,
    proved_page: Vec<u8>,
    compare_page: Vec<u8>,
}

impl Bench {
    fn new() -> Bench {
        let compare_page = Vec::with_capacity(PAGE_BYTES);
        Bench { sheet: to_bytes(&longest()), proved_page: vec![0; PAGE_BYTES], compare_page }
    }

    /// Runs the sheet so many times on one side.
    fn run(&mut self, side: Side, runs: u32) {
        for _ in 0..runs {
            let sheet = black_box(&self.sheet[..]);
            match side {
                Side::Proved => drop(black_box(proved::print(sheet, &mut self.proved_page))),
                Side::Compare => {
                    compare::print(sheet, &mut self.compare_page);
                    black_box(&self.compare_page);
                }
            }
        }
    }

    /// Nanoseconds per run over one round.
    fn time(&mut self, side: Side, runs: u32) -> f64 {
        let start = Instant::now();
        self.run(side, runs);
        start.elapsed().as_nanos() as f64 / f64::from(runs)
    }

    /// How many runs fill a round.
    fn runs_per_round(&mut self, side: Side) -> u32 {
        let nanoseconds = self.time(side, 3);
        (ROUND.as_nanos() as f64 / nanoseconds).ceil() as u32
    }

    fn pages_agree(&mut self) -> bool {
        compare::print(&self.sheet, &mut self.compare_page);
        proved::print(&self.sheet, &mut self.proved_page) == Some(&self.compare_page)
    }

    /// Times both sides and prints what came of it.
    fn compare_sides(&mut self) {
        let proved_runs = self.runs_per_round(Side::Proved);
        let compare_runs = self.runs_per_round(Side::Compare);
        let mut proved = Vec::new();
        let mut compare = Vec::new();
        for _ in 0..ROUNDS {
            proved.push(self.time(Side::Proved, proved_runs));
            compare.push(self.time(Side::Compare, compare_runs));
        }
        println!(
            "sheet: 32 modules, 256 marks, 4096 slots, {} bytes; page: {} bytes",
            self.sheet.len(),
            self.compare_page.len()
        );
        println!("page buffers: lent once, not cleared between runs, on both sides");
        println!("{ROUNDS} rounds of each side in turn, {proved_runs} and {compare_runs} runs a round");
        if EMULATED {
            println!(
                "this machine is not x86-64: the proved library runs in an emulator here, and its times say nothing"
            );
        }
        println!("                  median       least   (nanoseconds per run)");
        let (proved_median, proved_least) = middle_and_least(proved);
        let (compare_median, compare_least) = middle_and_least(compare);
        println!("proved       {proved_median:>11.0} {proved_least:>11.0}");
        println!("compare      {compare_median:>11.0} {compare_least:>11.0}");
        println!(
            "ratio proved / compare: {:.2} (of the least: {:.2})",
            proved_median / compare_median,
            proved_least / compare_least
        );
    }
}

fn middle_and_least(mut times: Vec<f64>) -> (f64, f64) {
    times.sort_by(f64::total_cmp);
    (times[times.len() / 2], times[0])
}

fn main() -> ExitCode {
    let words: Vec<String> = std::env::args().skip(1).collect();
    let words: Vec<&str> = words.iter().map(String::as_str).collect();
    let one_side = match words[..] {
        [] => None,
        ["proved", runs] => Some((Side::Proved, runs.parse())),
        ["compare", runs] => Some((Side::Compare, runs.parse())),
        _ => Some((Side::Proved, "".parse())),
    };
    let mut bench = Bench::new();
    match one_side {
        Some((side, Ok(runs))) => bench.run(side, runs),
        Some((_, Err(_))) => {
            eprintln!("{USAGE}");
            return ExitCode::from(2);
        }
        None if !bench.pages_agree() => {
            eprintln!("bench: the two sides print different pages; run the tests first");
            return ExitCode::FAILURE;
        }
        None => bench.compare_sides(),
    }
    ExitCode::SUCCESS
}
