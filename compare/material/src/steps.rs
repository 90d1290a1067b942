use crate::dice::Dice;
use independent::{Step, Table};

/// How often a step is looked for that the table doesn't refuse.
const TRIES: usize = 60;

/// Any step between benches that there are, a carry more often than the others.
pub fn random_step(dice: &mut Dice, n: usize) -> Step {
    let p = dice.bench(n);
    match dice.below(20) {
        0..4 => Step::Ask(p),
        4..7 => Step::Enter(p),
        7..10 => Step::Leave(p),
        10..12 => Step::Mark(p),
        _ => Step::Carry {
            from: p,
            to: dice.bench(n),
        },
    }
}

/// A step with bench numbers that need not exist.
pub fn hostile_step(dice: &mut Dice, n: usize) -> Step {
    let (p, q) = (hostile_bench(dice, n), hostile_bench(dice, n));
    match dice.below(6) {
        0 => Step::Ask(p),
        1 => Step::Enter(p),
        2 => Step::Leave(p),
        3 => Step::Mark(p),
        4 => Step::Carry { from: p, to: p },
        _ => Step::Carry { from: p, to: q },
    }
}

fn hostile_bench(dice: &mut Dice, n: usize) -> u32 {
    let n = n as u32;
    match dice.below(12) {
        0 => n,
        1 => n + 1,
        2 => u32::MAX,
        3 => dice.word(),
        4 => dice.pick(&[7, 8, 9, 256, 65536, 1 << 31]),
        _ => dice.bench(n as usize),
    }
}

/// Does a step that the table doesn't refuse, and gives it; marks are rare.
pub fn done_step(dice: &mut Dice, table: &mut Table) -> Option<Step> {
    let n = table.benches().len();
    (0..TRIES).find_map(|_| {
        let step = random_step(dice, n);
        if matches!(step, Step::Mark(_)) && !dice.percent(10) {
            return None;
        }
        table.step(step).ok().map(|()| step)
    })
}

/// A table that steps have led to.
pub fn reached(dice: &mut Dice) -> Table {
    let n = dice.between(1, 8) as u32;
    let capacity = dice.between(1, 16) as u32;
    let start = start(dice);
    // Sizes in range are never refused.
    let mut table = Table::fresh(n, capacity, start).unwrap();
    for _ in 0..dice.between(0, 150) {
        if done_step(dice, &mut table).is_none() {
            break;
        }
    }
    table
}

/// A start clock: mostly at one of the ends.
pub(crate) fn start(dice: &mut Dice) -> u32 {
    let near = dice.below(60) as u32;
    match dice.below(5) {
        0 => 0,
        1 => near,
        2 => u32::MAX - near,
        3 => u32::MAX - near / 10,
        _ => dice.word(),
    }
}
