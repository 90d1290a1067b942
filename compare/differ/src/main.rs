//! The differential test: the library and the independent version on the same inputs.

mod check;
mod schedules;
mod tables;

use check::{Outputs, Tally};
use material::Dice;
use std::num::NonZeroUsize;
use std::process::ExitCode;
use std::thread;
use std::time::Instant;

const USAGE: &str = "differ [--seed N] [--rounds N]
  --seed    where the dice start (default 1)
  --rounds  how long to go on (default 100); 1 is a quick look";

/// One case of a family.
type Case = fn(&mut Dice, &mut Outputs, &mut Tally) -> Result<(), String>;

struct Family {
    name: &'static str,
    /// The cases for each round.
    cases: u64,
    case: Case,
}

const FAMILIES: [Family; 13] = [
    Family {
        name: "random schedules",
        cases: 100,
        case: schedules::random,
    },
    Family {
        name: "schedules with progress",
        cases: 100,
        case: schedules::progress,
    },
    Family {
        name: "hostile schedules",
        cases: 100,
        case: schedules::hostile,
    },
    Family {
        name: "damaged schedules",
        cases: 1000,
        case: schedules::damaged,
    },
    Family {
        name: "schedules of odd fields",
        cases: 1000,
        case: schedules::made_of_fields,
    },
    Family {
        name: "noise",
        cases: 500,
        case: schedules::noise,
    },
    Family {
        name: "fresh tables",
        cases: 1,
        case: |dice, _, tally| tables::fresh(dice, tally),
    },
    Family {
        name: "walks on words",
        cases: 50,
        case: |dice, _, tally| tables::walks(dice, tally),
    },
    Family {
        name: "each word damaged",
        cases: 1,
        case: |dice, _, tally| tables::damaged(dice, tally),
    },
    Family {
        name: "words damaged together",
        cases: 10,
        case: |dice, _, tally| tables::damaged_together(dice, tally),
    },
    Family {
        name: "made-up tables",
        cases: 100,
        case: |dice, _, tally| tables::made_up(dice, tally),
    },
    Family {
        name: "random words",
        cases: 200,
        case: |dice, _, tally| tables::random_words(dice, tally),
    },
    Family {
        name: "stamps compared",
        cases: 1000,
        case: |dice, _, tally| tables::stamps(dice, tally),
    },
];

struct Options {
    seed: u64,
    rounds: u64,
}

fn options() -> Option<Options> {
    let mut options = Options {
        seed: 1,
        rounds: 100,
    };
    let mut words = std::env::args().skip(1);
    while let Some(word) = words.next() {
        let number = words.next()?.parse().ok()?;
        match word.as_str() {
            "--seed" => options.seed = number,
            "--rounds" => options.rounds = number,
            _ => return None,
        }
    }
    Some(options)
}

fn main() -> ExitCode {
    let Some(options) = options() else {
        eprintln!("{USAGE}");
        return ExitCode::from(2);
    };
    let started = Instant::now();
    let mut total = Tally::default();
    println!("Seed {}, {} rounds.", options.seed, options.rounds);
    println!(
        "{:24} {:>9} {:>9} {:>10} {:>9}",
        "", "cases", "runs", "steps", "tables"
    );
    for (number, family) in (1..).zip(&FAMILIES) {
        match family_cases(number, family, &options) {
            Ok(tally) => total.add(&tally),
            Err(difference) => {
                println!("A difference in {difference}");
                return ExitCode::FAILURE;
            }
        }
    }
    report(&total);
    println!("No difference in {:.1} s.", started.elapsed().as_secs_f64());
    ExitCode::SUCCESS
}

/// All the cases of a family, dealt out to the processors.
fn family_cases(number: u64, family: &Family, options: &Options) -> Result<Tally, String> {
    let cases = family.cases * options.rounds;
    let hands = thread::available_parallelism().map_or(1, NonZeroUsize::get);
    let mut tally = Tally::default();
    thread::scope(|scope| {
        let hands: Vec<_> = (0..hands)
            .map(|hand| (hand as u64..cases).step_by(hands))
            .map(|cases| scope.spawn(|| some_cases(number, family, options, cases)))
            .collect();
        for hand in hands {
            tally.add(&hand.join().expect("a difference is no panic")?);
        }
        Ok::<(), String>(())
    })?;
    let Tally {
        runs,
        steps,
        tables,
        ..
    } = tally;
    println!(
        "{:24} {cases:9} {runs:9} {steps:10} {tables:9}",
        family.name
    );
    Ok(tally)
}

/// Some of a family's cases. Each has dice of its own, so that it can be had again.
fn some_cases(
    number: u64,
    family: &Family,
    options: &Options,
    cases: impl Iterator<Item = u64>,
) -> Result<Tally, String> {
    let mut tally = Tally::default();
    let mut outputs = Outputs::default();
    for case in cases {
        let seed = options.seed ^ (number << 56) ^ (case << 24);
        (family.case)(&mut Dice::new(seed), &mut outputs, &mut tally).map_err(|difference| {
            let Options { seed, .. } = options;
            format!("{}, seed {seed}, case {case}:\n{difference}", family.name)
        })?;
    }
    Ok(tally)
}

fn report(total: &Tally) {
    let Tally {
        runs,
        steps,
        tables,
        ..
    } = total;
    println!("{:24} {:9} {runs:9} {steps:10} {tables:9}", "in all", "");
    println!("How often each answer was given:");
    for (answer, count) in total.answers.iter().enumerate() {
        println!("{answer:4} {count:12}");
    }
    println!("Of the 8s, {} were for a count.", total.spent_counts);
    println!("Counts of a bench asked for {} times.", total.counts);
    let [before, after, same, neither] = total.orders;
    println!("Comparisons: before {before}, after {after}, same {same}, neither {neither}.");
}
