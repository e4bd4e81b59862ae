//! Times the static library and an outside program in turn, on the same logs. tools/bench builds it and runs it.
//!
//! usage: bench LEVEL COUNT ROUNDS MODES SEEDS, as 1 20000 15 long,mixed,wide 1,2,3
//!
//! The outside program follows document 01 with the requests [1] to [LEVEL] of document 02. What is timed is a whole
//! log, from fresh tables, in four ways:
//!
//!   ours, search at each call     message_manager_call for each record
//!   ours, checked once            message_manager_replay
//!   outside, search at each call  replay_on_at with Check::Fast
//!   outside, checked once         replay_on_at with Check::Off
//!
//! Ours goes through the C interface, for each record or for each log, and its run checked once does search the tables
//! before the first record; the outside program's never does. The outside program allocates its answers, once for a
//! log; ours writes them into a buffer that is there. Else both do the same: they decode each record, test the lengths
//! of the tables at each call and write every answer record.

use outside::gen::{generate_at, Mode};
use outside::log::{decode_at, replay_on_at, Item, ANSWER_SIZE, RECORD_SIZE};
use outside::{Check, Image, Rules};
use std::hint::black_box;
use std::time::Instant;

extern "C" {
    fn message_manager_call(
        queues: *mut u8, queues_size: usize, pool: *mut u8, pool_size: usize, tasks: *mut u8, tasks_size: usize,
        record: *const u8, record_size: usize, answer: *mut u8, answer_size: usize,
    ) -> u32;
    fn message_manager_replay(
        queues: *mut u8, queues_size: usize, pool: *mut u8, pool_size: usize, tasks: *mut u8, tasks_size: usize,
        log: *const u8, log_size: usize, answers: *mut u8, answers_size: usize,
    ) -> u32;
}

// ---- Four ways to replay a log

/// From tables to the tables after the log; the answers hold 16 bytes for each record.
type Replay = fn(rules: Rules, tables: &mut Image, log: &[u8], answers: &mut Vec<u8>);

const WAYS: [(&str, Replay); 4] = [
    ("ours, search at each call", our_calls),
    ("outside, search at each call", |rules, tables, log, answers| *answers = replay_on_at(rules, Check::Fast, tables, log).0),
    ("ours, checked once", our_replay),
    ("outside, checked once", |rules, tables, log, answers| *answers = replay_on_at(rules, Check::Off, tables, log).0),
];

fn our_calls(_rules: Rules, tables: &mut Image, log: &[u8], answers: &mut Vec<u8>) {
    let Image { queues, pool, tasks } = tables;
    for (record, answer) in log.chunks(RECORD_SIZE).zip(answers.chunks_mut(ANSWER_SIZE)) {
        unsafe {
            message_manager_call(
                queues.as_mut_ptr(), queues.len(), pool.as_mut_ptr(), pool.len(), tasks.as_mut_ptr(), tasks.len(),
                record.as_ptr(), record.len(), answer.as_mut_ptr(), answer.len(),
            );
        }
    }
}

fn our_replay(_rules: Rules, tables: &mut Image, log: &[u8], answers: &mut Vec<u8>) {
    let Image { queues, pool, tasks } = tables;
    unsafe {
        message_manager_replay(
            queues.as_mut_ptr(), queues.len(), pool.as_mut_ptr(), pool.len(), tasks.as_mut_ptr(), tasks.len(),
            log.as_ptr(), log.len(), answers.as_mut_ptr(), answers.len(),
        );
    }
}

// ---- The logs of a mode

struct Logs {
    rules: Rules,
    logs: Vec<Vec<u8>>,
    records: usize,
    calls: usize,
}

impl Logs {
    fn new(rules: Rules, mode: &str, seeds: &[u64], count: usize) -> Logs {
        let known = Mode::from_name(mode).unwrap_or_else(|| fail(&format!("no mode {mode}")));
        let logs: Vec<Vec<u8>> = seeds.iter().map(|seed| generate_at(rules, *seed, count, known)).collect();
        let records = || logs.iter().flat_map(|log| log.chunks(RECORD_SIZE));
        let calls = records().filter(|record| matches!(decode_at(rules, record), Item::Call { .. })).count();
        Logs { rules, records: records().count(), calls, logs }
    }

    /// All four ways give the answers and the tables of the outside program's reference.
    fn check(&self, mode: &str) {
        for (log, number) in self.logs.iter().zip(1..) {
            let mut tables = Image::fresh_at(self.rules);
            let (wanted, _) = replay_on_at(self.rules, Check::Clear, &mut tables, log);
            for (way, replay) in WAYS {
                let (mut after, mut answers) = (Image::fresh_at(self.rules), vec![0; wanted.len()]);
                replay(self.rules, &mut after, log, &mut answers);
                if answers != wanted || after != tables {
                    fail(&format!("{mode}, log {number}: {way}: answers or tables differ from the reference"));
                }
            }
        }
    }

    /// One run over all the logs: ns per record.
    fn time(&self, replay: Replay, answers: &mut Vec<u8>) -> f64 {
        let mut spent = 0;
        for log in &self.logs {
            answers.resize(log.len().div_ceil(RECORD_SIZE) * ANSWER_SIZE, 0);
            let mut tables = black_box(Image::fresh_at(self.rules));
            let start = Instant::now();
            replay(self.rules, &mut tables, black_box(log), answers);
            black_box((&tables, &answers));
            spent += start.elapsed().as_nanos();
        }
        spent as f64 / self.records as f64
    }

    /// For each way, the times of all the rounds, smallest first.
    fn times(&self, rounds: usize) -> [Vec<f64>; 4] {
        let mut times: [Vec<f64>; 4] = Default::default();
        let mut answers: [Vec<u8>; 4] = Default::default();
        for _ in 0..rounds {
            for (way, (_, replay)) in WAYS.iter().enumerate() {
                times[way].push(self.time(*replay, &mut answers[way]));
            }
        }
        times.iter_mut().for_each(|of_way| of_way.sort_by(f64::total_cmp));
        times
    }
}

// ---- The table

fn print_heading() {
    println!("{:28}{:>25}  {:>25}", "", "search at each call", "checked once");
    println!("{:<28}{1:>9}{2:>9}{3:>7}  {1:>9}{2:>9}{3:>7}", "mode, well formed", "ours", "outside", "ratio");
}

fn print_line(left: &str, figure: &str, [ours, outside, ours_once, outside_once]: [f64; 4]) {
    println!(
        "{left:<20}{figure:<8}{ours:>9.1}{outside:>9.1}{:>7.2}  {ours_once:>9.1}{outside_once:>9.1}{:>7.2}",
        ours / outside,
        ours_once / outside_once
    );
}

fn fail(text: &str) -> ! {
    eprintln!("{text}");
    std::process::exit(1)
}

fn numbers(text: &str) -> Vec<u64> {
    text.split(',').map(|n| n.parse().unwrap_or_else(|_| fail(&format!("not a number: {n}")))).collect()
}

fn main() {
    let words: Vec<String> = std::env::args().skip(1).collect();
    let [level, count, rounds, modes, seeds] = &words[..] else { fail("usage: bench LEVEL COUNT ROUNDS MODES SEEDS") };
    let rules = Rules::level(numbers(level)[0] as u8);
    let (count, rounds, seeds) = (numbers(count)[0] as usize, numbers(rounds)[0].max(1) as usize, numbers(seeds));
    println!("ns per call record; {} logs of {count} records for each mode, {rounds} rounds\n", seeds.len());
    print_heading();
    for mode in modes.split(',') {
        let logs = Logs::new(rules, mode, &seeds, count);
        logs.check(mode);
        let times = logs.times(rounds);
        let well_formed = 100.0 * logs.calls as f64 / logs.records as f64;
        print_line(&format!("{mode}, {well_formed:.0} %"), "best", [0, 1, 2, 3].map(|way| times[way][0]));
        print_line("", "median", [0, 1, 2, 3].map(|way| times[way][rounds / 2]));
    }
}
