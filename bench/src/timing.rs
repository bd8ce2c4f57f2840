//! Medians of interleaved rounds, as rows of tables. A round has as many calls as the clock needs to measure them.
//! Times are the thread's processor time, or that of a process, so that other work on the machine counts little.

use std::hint::black_box;

const LEAST_ROUNDS: usize = 15;

/// A round takes at least this many microseconds.
const ROUND: f64 = 200.0;

/// An input's medians, in microseconds.
struct Row {
    call: String,
    input: String,
    ours: f64,
    rust: f64,
}

/// The rows of one run.
pub struct Times {
    /// The least time of a row, in microseconds.
    least: f64,
    rows: Vec<Row>,
}

impl Times {
    pub fn new(milliseconds: u64) -> Times {
        Times {
            least: 1e3 * milliseconds as f64,
            rows: Vec::new(),
        }
    }

    /// Times both sides in turn.
    pub fn add<A, B>(
        &mut self,
        call: &str,
        input: &str,
        mut ours: impl FnMut() -> A,
        mut rust: impl FnMut() -> B,
    ) {
        let calls = calls(&mut ours).max(calls(&mut rust));
        let start = microseconds();
        let (mut our_times, mut rust_times) = (Vec::new(), Vec::new());
        while our_times.len() < LEAST_ROUNDS || microseconds() - start < self.least {
            our_times.push(time(calls, &mut ours));
            rust_times.push(time(calls, &mut rust));
        }
        self.measured(call, input, our_times, rust_times);
    }

    /// A row of times that were taken in turn; it is told while the run goes on.
    pub fn measured(&mut self, call: &str, input: &str, ours: Vec<f64>, rust: Vec<f64>) {
        let row = Row {
            call: call.into(),
            input: input.into(),
            ours: median(ours),
            rust: median(rust),
        };
        eprintln!("{} {:.2} |", row.start(), row.ratio());
        self.rows.push(row);
    }
}

impl Row {
    fn ratio(&self) -> f64 {
        self.ours / self.rust
    }

    /// All but what comes of ratios.
    fn start(&self) -> String {
        let (ours, rust) = (digits(self.ours), digits(self.rust));
        format!("| {} | {} | {ours} | {rust} |", self.call, self.input)
    }
}

/// Each row, as the run whose ratio is the middle one has it.
pub fn row_table(runs: &[Times]) {
    println!("| call | input | ours, us | Rust, us | ratio | least and largest |");
    println!("|---|---|---:|---:|---:|---|");
    for row in by_ratio(runs) {
        let middle = middle(&row);
        let [least, largest] = [row[0], row[row.len() - 1]].map(Row::ratio);
        let (start, ratio) = (middle.start(), middle.ratio());
        println!("{start} {ratio:.2} | {least:.2} {largest:.2} |");
    }
}

/// Each call with its inputs, the median and the largest of its rows' ratios.
pub fn call_table(runs: &[Times]) {
    println!("| call | inputs | median ratio | largest ratio | largest in any run |");
    println!("|---|---:|---:|---:|---:|");
    let largest = |ratios: &[f64]| ratios.iter().copied().fold(0.0, f64::max);
    let rows = by_ratio(runs);
    for (at, row) in rows.iter().enumerate() {
        let call = &row[0].call;
        if rows[..at].iter().any(|row| row[0].call == *call) {
            continue;
        }
        let of_call = || rows.iter().filter(|row| row[0].call == *call);
        let middles: Vec<f64> = of_call().map(|row| middle(row).ratio()).collect();
        let all: Vec<f64> = of_call().flatten().map(|row| row.ratio()).collect();
        let (inputs, largest, any) = (middles.len(), largest(&middles), largest(&all));
        println!(
            "| {call} | {inputs} | {:.2} | {largest:.2} | {any:.2} |",
            median(middles)
        );
    }
}

/// Each row in all runs, from the least ratio to the largest; every run has the same rows.
fn by_ratio(runs: &[Times]) -> Vec<Vec<&Row>> {
    let row = |at: usize| {
        let mut rows: Vec<&Row> = runs.iter().map(|run| &run.rows[at]).collect();
        rows.sort_by(|row, other| row.ratio().total_cmp(&other.ratio()));
        rows
    };
    (0..runs[0].rows.len()).map(row).collect()
}

fn middle<'a>(rows: &[&'a Row]) -> &'a Row {
    rows[rows.len() / 2]
}

/// Microseconds for the table.
fn digits(time: f64) -> String {
    match time {
        ..10.0 => format!("{time:.3}"),
        _ => format!("{time:.1}"),
    }
}

fn median(mut times: Vec<f64>) -> f64 {
    times.sort_by(f64::total_cmp);
    times[times.len() / 2]
}

/// The calls that a round needs; the first call, which may find its memory cold, does not count.
fn calls<T>(call: &mut impl FnMut() -> T) -> usize {
    black_box(call());
    let mut calls = 1;
    loop {
        let round = calls as f64 * time(calls, call);
        if round >= ROUND {
            return calls;
        }
        calls = (2 * calls).max((calls as f64 * ROUND / round.max(1.0)) as usize);
    }
}

/// The time of each of this many calls. A result is dropped before the next call, the last after the time is taken.
fn time<T>(calls: usize, call: &mut impl FnMut() -> T) -> f64 {
    let start = microseconds();
    for _ in 1..calls {
        black_box(call());
    }
    let last = black_box(call());
    let time = microseconds() - start;
    drop(last);
    time / calls as f64
}

/// `struct timespec` of 64-bit Linux.
#[repr(C)]
struct Timespec {
    seconds: i64,
    nanoseconds: i64,
}

/// Linux's number of the calling thread's processor time.
const THREAD_TIME: i32 = 3;

/// `struct rusage` of 64-bit Linux: times in seconds and microseconds, and what is not asked for here.
#[repr(C)]
#[derive(Default)]
struct Usage {
    user: [i64; 2],
    system: [i64; 2],
    rest: [i64; 14],
}

/// Linux's number of the processes that have ended and were waited for.
const CHILDREN: i32 = -1;

extern "C" {
    fn clock_gettime(clock: i32, time: *mut Timespec) -> i32;
    fn getrusage(who: i32, usage: *mut Usage) -> i32;
}

/// The processor time of all processes that were started here and have ended.
pub fn processes() -> f64 {
    let mut usage = Usage::default();
    // SAFETY: the pointer is to a live value of the C type; the call only writes it.
    let status = unsafe { getrusage(CHILDREN, &mut usage) };
    assert_eq!(status, 0, "Linux has this count");
    let [seconds, microseconds] = [0, 1].map(|k| (usage.user[k] + usage.system[k]) as f64);
    1e6 * seconds + microseconds
}

fn microseconds() -> f64 {
    let mut time = Timespec {
        seconds: 0,
        nanoseconds: 0,
    };
    // SAFETY: the pointer is to a live value of the C type; the call only writes it.
    let status = unsafe { clock_gettime(THREAD_TIME, &mut time) };
    assert_eq!(status, 0, "Linux has this clock");
    time.seconds as f64 * 1e6 + time.nanoseconds as f64 / 1e3
}
