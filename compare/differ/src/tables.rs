//! The families of tables in lent words.

use crate::check::{Pair, Tally, compare};
use independent::{Counts, MOST, Order, Step, Table, WORDS, Words, place};
use material::{Dice, hostile_step, random_step, reached};

type Outcome = Result<(), String>;

/// Fresh tables of good and bad sizes, over words of any kind.
pub fn fresh(dice: &mut Dice, tally: &mut Tally) -> Outcome {
    const LARGE: [u32; 8] = [
        256,
        257,
        264,
        65536,
        65537,
        1 << 31,
        (1 << 31) + 1,
        u32::MAX,
    ];
    let mut pair = Pair::new(&[0; WORDS]);
    let sizes = (0..=10).flat_map(|n| (0..=18).map(move |capacity| (n, capacity)));
    let large = LARGE
        .iter()
        .flat_map(|&size| [(size, 4), (2, size), (size, size)]);
    for (n, capacity) in sizes.chain(large) {
        for start in [0, 1, 5, u32::MAX - 1, u32::MAX, dice.word()] {
            pair.set(&[dice.pick(&[0, 1, u32::MAX]); WORDS]);
            let answer = pair.fresh(n, capacity, start, tally)?;
            let good = (1..=8).contains(&n) && (1..=16).contains(&capacity);
            if (answer == 0) != good || pair.well_formed(tally)? != good {
                return Err(format!("fresh {n} {capacity} {start}: answer {answer}"));
            }
            all_steps(&mut pair, dice, tally)?;
        }
    }
    Ok(())
}

/// Walks of steps on lent words, beside a table that isn't laid out in words.
pub fn walks(dice: &mut Dice, tally: &mut Tally) -> Outcome {
    let mut words = [0; WORDS];
    reached(dice).write_words(&mut words);
    if dice.percent(50) {
        fill_in_counts(&mut words, dice);
    }
    let mut table = Table::from_words(&words).ok_or("a reached table can't be read")?;
    let mut pair = Pair::new(&words);
    let n = table.benches().len();
    for _ in 0..200 {
        let step = match dice.below(10) {
            0 => hostile_step(dice, n),
            _ => random_step(dice, n),
        };
        let answer = pair.keep_step(step, tally)?;
        let beside = table
            .step(step)
            .map_or_else(|refusal| refusal as u32, |()| 0);
        table.write_words(&mut words);
        if beside != answer || words != *pair.words() {
            return Err(format!("{step:?}: {answer} on words, {beside} beside"));
        }
        pair.counts(dice.bench(MOST + 1), tally)?;
    }
    if !pair.well_formed(tally)? {
        return Err("a step has led out of the well-formed tables".to_string());
    }
    Ok(())
}

/// Each word of a reached table damaged in turn.
pub fn damaged(dice: &mut Dice, tally: &mut Tally) -> Outcome {
    let mut words = [0; WORDS];
    reached(dice).write_words(&mut words);
    let mut pair = Pair::new(&words);
    for place in 0..WORDS {
        let old = words[place];
        let damages = [
            0,
            1,
            2,
            3,
            words[place::N],
            9,
            old.wrapping_add(1),
            old.wrapping_sub(1),
            u32::MAX,
            dice.word(),
        ];
        // Most words are counts that messages bring, where one word is as bad as another.
        let damages = if place < place::brought(0, 0, 0) {
            &damages[..]
        } else {
            &[dice.pick(&damages)]
        };
        for &word in damages {
            pair.damage(place, word);
            judge(&mut pair, dice, tally)?;
        }
        pair.damage(place, old);
    }
    Ok(())
}

/// Two or three words damaged together, most of them near what is in use.
pub fn damaged_together(dice: &mut Dice, tally: &mut Tally) -> Outcome {
    let mut words = [0; WORDS];
    reached(dice).write_words(&mut words);
    let mut pair = Pair::new(&words);
    for _ in 0..500 {
        let mut old = Vec::new();
        for _ in 0..dice.between(2, 3) {
            let place = any_place(dice, words[place::N] as usize);
            let word = match dice.below(4) {
                0 => dice.word(),
                1 => words[place]
                    .wrapping_add(dice.between(0, 2) as u32)
                    .wrapping_sub(1),
                2 => words[dice.below(WORDS)],
                _ => dice.below(18) as u32,
            };
            old.push((place, pair.damage(place, word)));
        }
        judge(&mut pair, dice, tally)?;
        for (place, word) in old.into_iter().rev() {
            pair.damage(place, word);
        }
    }
    Ok(())
}

fn any_place(dice: &mut Dice, n: usize) -> usize {
    let (p, q) = (dice.below(n), dice.below(n));
    match dice.below(11) {
        0 => dice.below(WORDS),
        1 => dice.below(2),
        2 => place::clock(p),
        3 => place::phase(p),
        4 => place::entry(p, q),
        5 => place::heard(p, q),
        6 => place::length(p, q),
        7 => place::slot(p, q, dice.below(3)),
        8 => place::counts(p) + dice.below(MOST),
        9 => place::brought(p, q, dice.below(3)) + dice.below(MOST),
        _ => place::slot(p, q, dice.below(3)) + 1,
    }
}

/// Well-formed tables that no steps need lead to: every reading made up.
pub fn made_up(dice: &mut Dice, tally: &mut Tally) -> Outcome {
    let mut words = [0; WORDS];
    fill_in(&mut words, dice);
    let mut pair = Pair::new(&words);
    if !pair.well_formed(tally)? {
        return Err("a table made up to be well formed isn't".to_string());
    }
    let Some(table) = Table::from_words(&words) else {
        return Err("a well-formed table can't be read".to_string());
    };
    let mut written = [u32::MAX; WORDS];
    table.write_words(&mut written);
    if written != words {
        return Err("a table read and written again differs".to_string());
    }
    all_steps(&mut pair, dice, tally)
}

fn fill_in(words: &mut Words, dice: &mut Dice) {
    let (n, capacity) = (dice.between(1, 8), dice.between(1, 16));
    words[place::N] = n as u32;
    words[place::CAPACITY] = capacity as u32;
    // Either small, so that there are ties, or near the end.
    let stamps: &[u32] = match dice.below(3) {
        0 => &[1, 2, 3],
        1 => &[u32::MAX, u32::MAX - 1, u32::MAX - 2, u32::MAX - 3],
        _ => &[1, 2, 3, 4, 5, 6, 1 << 31, u32::MAX],
    };
    // How many of the others are heard from, and how much is in the channels.
    let (heard, full) = (dice.pick(&[30, 90, 100]), dice.pick(&[0, 5, 30, 100]));
    for p in 0..n {
        words[place::clock(p)] = if dice.percent(30) {
            0
        } else {
            dice.pick(stamps)
        };
        words[place::phase(p)] = dice.pick(&[0, 1, 1, 2]);
        if words[place::phase(p)] != 0 {
            words[place::entry(p, p)] = dice.pick(stamps);
        }
        for q in (0..n).filter(|&q| q != p) {
            if dice.percent(30) {
                words[place::entry(p, q)] = dice.pick(stamps);
            }
            if dice.percent(heard) {
                words[place::heard(p, q)] = dice.pick(stamps);
            }
            let count = if dice.percent(full) {
                capacity
            } else {
                dice.below(capacity + 1)
            };
            words[place::length(p, q)] = count as u32;
            for slot in 0..count {
                let slot = place::slot(p, q, slot);
                words[slot] = dice.below(3) as u32;
                words[slot + 1] = dice.pick(stamps);
            }
        }
    }
    fill_in_counts(words, dice);
}

/// Makes up all counts, of benches and of messages: small ones, ones near the end, or both.
fn fill_in_counts(words: &mut Words, dice: &mut Dice) {
    let n = words[place::N] as usize;
    let (near, end) = (dice.pick(&[2, 4, 40]), dice.pick(&[0, 20, 80]));
    let mut rows: Vec<usize> = (0..n).map(place::counts).collect();
    for (p, q) in (0..n * n).map(|pair| (pair / n, pair % n)) {
        let length = words[place::length(p, q)] as usize;
        rows.extend((0..length).map(|slot| place::brought(p, q, slot)));
    }
    for row in rows {
        for count in &mut words[row..][..n] {
            *count = dice.below(near) as u32;
            if dice.percent(end) {
                *count = u32::MAX - *count;
            }
        }
    }
}

/// Words of any kind.
pub fn random_words(dice: &mut Dice, tally: &mut Tally) -> Outcome {
    let mut words = [0; WORDS];
    let small = dice.percent(70);
    let some = dice.pick(&[1, 5, 50, 100]);
    for word in &mut words {
        if dice.percent(some) {
            *word = if small {
                dice.below(3) as u32
            } else {
                dice.word()
            };
        }
    }
    if dice.percent(80) {
        words[place::N] = dice.between(1, 8) as u32;
        words[place::CAPACITY] = dice.between(1, 16) as u32;
    }
    judge(&mut Pair::new(&words), dice, tally)
}

/// The test of well-formedness, and the five steps on any benches.
fn judge(pair: &mut Pair, dice: &mut Dice, tally: &mut Tally) -> Outcome {
    let good = pair.well_formed(tally)?;
    let n = pair.words()[place::N].clamp(1, 8) as usize;
    let (p, q) = (dice.bench(n), dice.bench(n + 1));
    if (pair.counts(dice.bench(MOST + 1), tally)? == 1) == good {
        return Err(format!("counts: well formed is {good}"));
    }
    for step in [
        Step::Ask(p),
        Step::Carry { from: p, to: q },
        Step::Enter(p),
        Step::Leave(p),
        Step::Mark(q),
    ] {
        let answer = pair.try_step(step, tally)?;
        if (answer == 1) == good {
            return Err(format!(
                "{step:?}: well formed is {good}, the answer {answer}"
            ));
        }
    }
    Ok(())
}

/// Every step on every bench and every pair, and a few on benches that aren't there.
fn all_steps(pair: &mut Pair, dice: &mut Dice, tally: &mut Tally) -> Outcome {
    let n = pair.words()[place::N];
    for p in 0..n.clamp(1, 8) + 1 {
        for step in [Step::Ask(p), Step::Enter(p), Step::Leave(p), Step::Mark(p)] {
            pair.try_step(step, tally)?;
        }
        for q in 0..n.clamp(1, 8) + 1 {
            pair.try_step(Step::Carry { from: p, to: q }, tally)?;
        }
    }
    for p in 0..=MOST as u32 {
        pair.counts(p, tally)?;
    }
    pair.counts(dice.pick(&[9, 256, 1 << 31, u32::MAX]), tally)?;
    for _ in 0..4 {
        pair.try_step(hostile_step(dice, n.clamp(1, 8) as usize), tally)?;
    }
    Ok(())
}

/// Stamps compared both ways: with any other, with an equal one, and with one that is nowhere larger.
pub fn stamps(dice: &mut Dice, tally: &mut Tally) -> Outcome {
    let any = [dice.word(), dice.word(), dice.word()];
    let counts = dice.pick(&[[0, 0, 1], [0, 1 << 31, u32::MAX], any]);
    let a: Counts = std::array::from_fn(|_| dice.pick(&counts));
    let unlike: Counts = std::array::from_fn(|_| dice.pick(&counts));
    let lowered = a.map(|count| if dice.percent(20) { count / 2 } else { count });
    for b in [unlike, a, lowered] {
        let (there, back) = (compare(&a, &b, tally)?, compare(&b, &a, tally)?);
        let opposite = matches!((there, back), (0, 1) | (1, 0) | (2, 2) | (3, 3));
        if !opposite || (there == 2) != (a == b) {
            return Err(format!("{a:?} and {b:?}: {there}, and back {back}"));
        }
    }
    let asked = if lowered == a {
        Order::Same
    } else {
        Order::After
    };
    let order = compare(&a, &lowered, tally)?;
    if order != asked as u32 {
        return Err(format!("{a:?} and {lowered:?}: {order}"));
    }
    Ok(())
}
