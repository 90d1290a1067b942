//! Times the library and the independent version on the same schedules, in one process.

mod files;

use files::{FILES, File};
use independent::{ROOM, Step, WORDS, Words};
use std::hint::black_box;
use std::process::ExitCode;
use std::time::{Duration, Instant};

const USAGE: &str = "bench [--times N]
  times both sides on every file, N times each (default 1001), and prints medians
bench --only library|independent [--file K] [--what run|words|test] [--times N]
  does one side's work on one file N times and prints nothing, to be counted by a tool:
  whole runs, the steps on lent words, or the test of well-formedness before each step
bench --show K
  prints the schedule of file K, from 1";

/// A schedule, a budget and an output: the answer, its line, and the bytes written.
type Run = fn(&[u8], usize, &mut [u8]) -> (u32, usize, usize);

/// One side of the comparison.
struct Side {
    run: Run,
    step: fn(&mut Words, Step) -> u32,
    well_formed: fn(&Words) -> bool,
}

const LIBRARY: Side = Side {
    run: linked::run,
    step: linked::step,
    well_formed: linked::well_formed,
};

const INDEPENDENT: Side = Side {
    run: independent::run,
    step: independent::step_words,
    well_formed: independent::well_formed,
};

/// A schedule made ready for all that is timed.
struct Work {
    schedule: Vec<u8>,
    steps: Vec<Step>,
    /// The fresh table that the schedule's header asks for.
    fresh: Words,
    /// The table after all steps.
    last: Words,
    output: Vec<u8>,
}

impl Work {
    fn new(file: &File) -> Work {
        let schedule = file.schedule();
        let lines = schedule.iter().filter(|&&byte| byte == b'\n').count();
        let (header, steps) = read(&schedule);
        let mut fresh = [0; WORDS];
        independent::fresh_words(&mut fresh, header[0], header[1], header[2]);
        let mut last = fresh;
        for &step in &steps {
            independent::step_words(&mut last, step);
        }
        Work {
            schedule,
            steps,
            fresh,
            last,
            output: vec![0; ROOM * lines],
        }
    }

    /// The whole run: how many bytes were written.
    fn run(&mut self, side: &Side) -> usize {
        let schedule = black_box(&self.schedule[..]);
        let (answer, _, bytes) = (side.run)(schedule, usize::MAX, black_box(&mut self.output));
        assert_eq!(answer, 0);
        bytes
    }

    /// Every step on lent words: how many were done.
    fn words(&mut self, side: &Side) -> usize {
        let mut words = self.fresh;
        let done = |&&step: &&Step| (side.step)(black_box(&mut words), step) == 0;
        self.steps.iter().filter(done).count()
    }

    /// The test of well-formedness as often as there are steps.
    fn test(&mut self, side: &Side) -> usize {
        let good = |_: &&Step| (side.well_formed)(black_box(&self.last));
        self.steps.iter().filter(good).count()
    }
}

/// The three numbers of a header, and the steps behind it, of a schedule known to be good.
fn read(schedule: &[u8]) -> ([u32; 3], Vec<Step>) {
    let text = std::str::from_utf8(schedule).unwrap();
    let mut lines = text.lines().map(|line| {
        let (name, numbers) = line.split_once('\t').unwrap();
        let numbers = numbers.split('\t').map(|number| number.parse().unwrap());
        (name, numbers.collect::<Vec<u32>>())
    });
    let (_, header) = lines.next().unwrap();
    let steps = lines.map(|(name, numbers)| match (name, &numbers[..]) {
        ("ask", &[p]) => Step::Ask(p),
        ("carry", &[from, to]) => Step::Carry { from, to },
        ("enter", &[p]) => Step::Enter(p),
        ("leave", &[p]) => Step::Leave(p),
        ("mark", &[p]) => Step::Mark(p),
        _ => unreachable!("a line that the generator doesn't write"),
    });
    (header.try_into().unwrap(), steps.collect())
}

/// One of the three things that are timed.
type Timed = fn(&mut Work, &Side) -> usize;

fn timed(what: &str) -> Option<Timed> {
    match what {
        "run" => Some(Work::run),
        "words" => Some(Work::words),
        "test" => Some(Work::test),
        _ => None,
    }
}

fn time(work: &mut Work, side: &Side, timed: Timed) -> Duration {
    let started = Instant::now();
    black_box(timed(work, side));
    started.elapsed()
}

/// The medians of the library and of the independent version, timed in turns.
fn medians(work: &mut Work, timed: Timed, times: usize) -> (Duration, Duration) {
    let (mut one, mut other) = (Vec::new(), Vec::new());
    for turn in 0..times.max(1) {
        // Neither side is always the one that finds the cache warm.
        if turn % 2 == 0 {
            one.push(time(work, &LIBRARY, timed));
            other.push(time(work, &INDEPENDENT, timed));
        } else {
            other.push(time(work, &INDEPENDENT, timed));
            one.push(time(work, &LIBRARY, timed));
        }
    }
    (median(one), median(other))
}

fn median(mut times: Vec<Duration>) -> Duration {
    times.sort();
    times[times.len() / 2]
}

/// Times both sides on every file, and prints nanoseconds for each unit of work.
fn compare(title: &str, timed: Timed, times: usize, units: fn(&Work) -> usize) {
    println!("\n{title}");
    println!(
        "{:34} {:>10} {:>12} {:>6}",
        "", "library", "independent", "ratio"
    );
    for file in &FILES {
        let mut work = Work::new(file);
        let (one, other) = medians(&mut work, timed, times);
        let each = |time: Duration| time.as_secs_f64() * 1e9 / units(&work) as f64;
        let (one, other) = (each(one), each(other));
        let ratio = one / other;
        println!("{:34} {one:10.0} {other:12.0} {ratio:6.2}", file.name);
    }
}

fn describe() {
    println!(
        "{:34} {:>10} {:>12} {:>6}",
        "The files", "bytes", "steps", "done"
    );
    for file in &FILES {
        let mut work = Work::new(file);
        let done = work.words(&INDEPENDENT);
        let (bytes, steps) = (work.schedule.len(), work.steps.len());
        println!("{:34} {bytes:10} {steps:12} {done:6}", file.name);
    }
}

fn both_sides(times: usize) {
    describe();
    // A pass over lent words takes longer than a run, and has no need of so many.
    let fewer = times.div_ceil(5);
    let steps: fn(&Work) -> usize = |work| work.steps.len();
    compare(
        "Whole runs, nanoseconds for each run",
        Work::run,
        times,
        |_| 1,
    );
    compare(
        "Steps on lent words, nanoseconds for each step",
        Work::words,
        fewer,
        steps,
    );
    compare(
        "The test of well-formedness alone, nanoseconds for each",
        Work::test,
        fewer,
        steps,
    );
}

#[derive(Default)]
struct Options {
    only: Option<String>,
    file: Option<usize>,
    what: Option<String>,
    times: Option<usize>,
    show: Option<usize>,
}

fn options() -> Option<Options> {
    let mut options = Options::default();
    let mut words = std::env::args().skip(1);
    while let Some(word) = words.next() {
        let value = words.next()?;
        match word.as_str() {
            "--only" => options.only = Some(value),
            "--file" => options.file = Some(value.parse().ok()?),
            "--what" => options.what = Some(value),
            "--times" => options.times = Some(value.parse().ok()?),
            "--show" => options.show = Some(value.parse().ok()?),
            _ => return None,
        }
    }
    Some(options)
}

fn file(number: usize) -> Option<&'static File> {
    FILES.get(number.checked_sub(1)?)
}

fn one_side(options: &Options, only: &str) -> Option<()> {
    let side = match only {
        "library" => LIBRARY,
        "independent" => INDEPENDENT,
        _ => return None,
    };
    let timed = timed(options.what.as_deref().unwrap_or("run"))?;
    let mut work = Work::new(file(options.file.unwrap_or(1))?);
    for _ in 0..options.times.unwrap_or(1) {
        black_box(timed(&mut work, &side));
    }
    Some(())
}

fn work(options: &Options) -> Option<()> {
    if let Some(number) = options.show {
        print!("{}", String::from_utf8_lossy(&file(number)?.schedule()));
    } else if let Some(only) = &options.only {
        one_side(options, only)?;
    } else {
        both_sides(options.times.unwrap_or(1001));
    }
    Some(())
}

fn main() -> ExitCode {
    if options().and_then(|options| work(&options)).is_some() {
        return ExitCode::SUCCESS;
    }
    eprintln!("{USAGE}");
    ExitCode::from(2)
}
