//! Both sides on the same input, and what they have done.

use independent::{Counts, MOST, Step, WORDS, Words, place};
use std::fmt::Write;

/// What has been compared so far.
#[derive(Default)]
pub struct Tally {
    pub runs: u64,
    pub steps: u64,
    pub tables: u64,
    /// How many runs, steps and fresh tables gave each answer.
    pub answers: [u64; 13],
    /// How many steps gave 8 for a count, and not for a clock.
    pub spent_counts: u64,
    /// How often a bench's counts were asked for.
    pub counts: u64,
    /// How many comparisons gave each order.
    pub orders: [u64; 4],
}

impl Tally {
    pub fn add(&mut self, other: &Tally) {
        self.runs += other.runs;
        self.steps += other.steps;
        self.tables += other.tables;
        for (sum, more) in self.answers.iter_mut().zip(other.answers) {
            *sum += more;
        }
        self.spent_counts += other.spent_counts;
        self.counts += other.counts;
        for (sum, more) in self.orders.iter_mut().zip(other.orders) {
            *sum += more;
        }
    }

    fn saw(&mut self, answer: u32) -> Result<(), String> {
        let count = self.answers.get_mut(answer as usize);
        *count.ok_or_else(|| format!("no such answer: {answer}"))? += 1;
        Ok(())
    }
}

/// Words with others around them, so that a stray write shows.
#[derive(Clone, PartialEq)]
#[repr(C)]
pub struct Fenced {
    before: [u32; 16],
    pub words: Words,
    behind: [u32; 16],
}

impl Fenced {
    pub fn new(words: &Words) -> Box<Fenced> {
        Box::new(Fenced {
            before: [0xfeed_beef; 16],
            words: *words,
            behind: [0xfeed_beef; 16],
        })
    }
}

/// One copy of a table for each side.
pub struct Pair {
    pub library: Box<Fenced>,
    pub independent: Box<Fenced>,
    given: Box<Fenced>,
}

impl Pair {
    pub fn new(words: &Words) -> Pair {
        Pair {
            library: Fenced::new(words),
            independent: Fenced::new(words),
            given: Fenced::new(words),
        }
    }

    pub fn words(&self) -> &Words {
        &self.given.words
    }

    /// Puts the same words in on both sides.
    pub fn set(&mut self, words: &Words) {
        self.given.words = *words;
        self.library.words = *words;
        self.independent.words = *words;
    }

    /// Puts the same one word in on both sides, and gives the old one.
    pub fn damage(&mut self, place: usize, word: u32) -> u32 {
        self.library.words[place] = word;
        self.independent.words[place] = word;
        std::mem::replace(&mut self.given.words[place], word)
    }

    /// A step on both sides. Afterwards both have the words after the step.
    pub fn step(&mut self, step: Step, tally: &mut Tally) -> Result<u32, String> {
        let one = linked::step(&mut self.library.words, step);
        let other = independent::step_words(&mut self.independent.words, step);
        tally.steps += 1;
        if one != other {
            return Err(self.show(&format!("{step:?}: library {one}, independent {other}")));
        }
        self.same(&format!("{step:?} with answer {one}"))?;
        tally.saw(one)?;
        if one == 8 && self.done_without_own_count(step) {
            tally.spent_counts += 1;
        }
        if one != 0 && self.library != self.given {
            return Err(self.show(&format!("{step:?} with answer {one} has changed the table")));
        }
        Ok(one)
    }

    /// Whether a refused step would be done if its bench's own count were 0.
    fn done_without_own_count(&self, step: Step) -> bool {
        let mut words = self.given.words;
        let p = step.bench() as usize;
        words[place::counts(p) + p] = 0;
        independent::step_words(&mut words, step) == 0
    }

    /// A step on both sides that is then taken back.
    pub fn try_step(&mut self, step: Step, tally: &mut Tally) -> Result<u32, String> {
        let answer = self.step(step, tally)?;
        if answer == 0 {
            self.library.words = self.given.words;
            self.independent.words = self.given.words;
        }
        Ok(answer)
    }

    /// A step on both sides that is kept.
    pub fn keep_step(&mut self, step: Step, tally: &mut Tally) -> Result<u32, String> {
        let answer = self.step(step, tally)?;
        self.given.words = self.library.words;
        Ok(answer)
    }

    pub fn well_formed(&mut self, tally: &mut Tally) -> Result<bool, String> {
        let one = linked::well_formed(&self.library.words);
        let other = independent::well_formed(&self.independent.words);
        tally.tables += 1;
        if one != other {
            return Err(self.show(&format!("well formed: library {one}, independent {other}")));
        }
        self.same("the test of well-formedness")?;
        Ok(one)
    }

    /// A bench's counts on both sides: the answer.
    pub fn counts(&self, p: u32, tally: &mut Tally) -> Result<u32, String> {
        const AROUND: u32 = 0xfeed_beef;
        let (mut one_row, mut other_row) = ([AROUND; 3 * MOST], [AROUND; 3 * MOST]);
        let one = linked::counts(&self.library.words, p, inside(&mut one_row));
        let other =
            independent::counts_in_words(&self.independent.words, p, inside(&mut other_row));
        tally.counts += 1;
        let what = format!("counts of {p}");
        if (one, one_row) != (other, other_row) {
            return Err(self.show(&format!(
                "{what}: library {one} {one_row:x?}, independent {other} {other_row:x?}"
            )));
        }
        self.same(&what)?;
        if self.library != self.given {
            return Err(self.show(&format!("{what} has changed the table")));
        }
        let mut asked = [AROUND; 3 * MOST];
        if one == 0 {
            let row = &self.given.words[place::counts(p as usize)..][..MOST];
            inside(&mut asked).copy_from_slice(row);
        }
        if one_row != asked {
            return Err(self.show(&format!("{what} with answer {one}: {one_row:x?}")));
        }
        Ok(one)
    }

    pub fn fresh(
        &mut self,
        n: u32,
        capacity: u32,
        start: u32,
        tally: &mut Tally,
    ) -> Result<u32, String> {
        let one = linked::fresh(&mut self.library.words, n, capacity, start);
        let other = independent::fresh_words(&mut self.independent.words, n, capacity, start);
        let what = format!("fresh {n} {capacity} {start}");
        if one != other {
            return Err(self.show(&format!("{what}: library {one}, independent {other}")));
        }
        self.same(&what)?;
        tally.saw(one)?;
        self.given.words = self.library.words;
        Ok(one)
    }

    /// Both sides have left the same, and nothing around it.
    fn same(&self, what: &str) -> Result<(), String> {
        if self.library == self.independent {
            return Ok(());
        }
        let places = (0..WORDS)
            .filter(|&place| self.library.words[place] != self.independent.words[place])
            .take(20);
        let mut text = format!("{what}: the words differ");
        for place in places {
            let (one, other) = (self.library.words[place], self.independent.words[place]);
            let _ = write!(text, "\n  word {place}: library {one}, independent {other}");
        }
        Err(self.show(&text))
    }

    /// A difference, with the words given that aren't zero.
    fn show(&self, what: &str) -> String {
        let mut text = format!("{what}\nThe words given, but for zeros:");
        for (place, word) in self
            .given
            .words
            .iter()
            .enumerate()
            .filter(|(_, w)| **w != 0)
        {
            let _ = write!(text, " {place}:{word}");
        }
        text
    }
}

/// The middle third.
fn inside(row: &mut [u32; 3 * MOST]) -> &mut Counts {
    row[MOST..].first_chunk_mut().expect("a row's eight words")
}

/// Two stamps on both sides: the order's number.
pub fn compare(a: &Counts, b: &Counts, tally: &mut Tally) -> Result<u32, String> {
    let one = linked::compare(a, b);
    let other = independent::compare(a, b) as u32;
    if one != other {
        return Err(format!(
            "{a:?} and {b:?}: library {one}, independent {other}"
        ));
    }
    tally.orders[one as usize] += 1;
    Ok(one)
}

/// The bytes on either side of an output.
const FENCE: usize = 64;

/// One output for each side, kept from run to run.
#[derive(Default)]
pub struct Outputs {
    library: Vec<u8>,
    independent: Vec<u8>,
}

impl Outputs {
    /// A run on both sides: the answer.
    pub fn run(
        &mut self,
        schedule: &[u8],
        budget: usize,
        room: usize,
        tally: &mut Tally,
    ) -> Result<u32, String> {
        // A pattern that changes from run to run, so that no run leans on the one before.
        let pattern = 0x80 | (tally.runs % 128) as u8;
        for output in [&mut self.library, &mut self.independent] {
            output.clear();
            output.resize(room + 2 * FENCE, pattern);
        }
        let inside = FENCE..FENCE + room;
        let one = linked::run(schedule, budget, &mut self.library[inside.clone()]);
        let other = independent::run(schedule, budget, &mut self.independent[inside.clone()]);
        tally.runs += 1;
        let outcome = self.judge(one, other, inside, pattern, tally);
        outcome.map_err(|what| {
            format!(
                "{what}\nbudget {budget}, room {room}, a schedule of {} bytes:\n{}",
                schedule.len(),
                schedule.escape_ascii()
            )
        })
    }

    fn judge(
        &self,
        one: (u32, usize, usize),
        other: (u32, usize, usize),
        inside: std::ops::Range<usize>,
        pattern: u8,
        tally: &mut Tally,
    ) -> Result<u32, String> {
        if one != other {
            return Err(format!(
                "answer, line and bytes: library {one:?}, independent {other:?}"
            ));
        }
        let (answer, line, bytes) = one;
        let place = self
            .library
            .iter()
            .zip(&self.independent)
            .position(|(a, b)| a != b);
        if let Some(place) = place {
            return Err(format!(
                "the outputs differ at byte {}:\nlibrary:\n{}\nindependent:\n{}",
                place as isize - FENCE as isize,
                self.library[inside.clone()].escape_ascii(),
                self.independent[inside].escape_ascii()
            ));
        }
        let listing = self.library.get(inside.start..inside.start + bytes);
        let listing = listing.ok_or("more bytes than there is room")?;
        let around = [
            &self.library[..inside.start],
            &self.library[inside.start + bytes..],
        ];
        if around.concat().iter().any(|&byte| byte != pattern) {
            return Err("bytes around the listing were written".to_string());
        }
        if (line != 0) != matches!(answer, 9 | 10) || (bytes == 0) != (answer != 0) {
            return Err(format!("no such outcome of a run: {one:?}"));
        }
        tally.saw(answer)?;
        count_listing(listing, tally)?;
        Ok(answer)
    }
}

/// Counts the answers in a listing, and checks the two counts of its last line.
fn count_listing(listing: &[u8], tally: &mut Tally) -> Result<(), String> {
    let (mut steps, mut refused) = (0, 0);
    for line in listing.split_inclusive(|&byte| byte == b'\n') {
        if line.starts_with(b"end") {
            let last = format!("end\t{steps}\t{refused}\n");
            if line != last.as_bytes() {
                return Err("the last line counts wrongly".to_string());
            }
            tally.steps += steps;
            continue;
        }
        let answer = line.split(|&byte| byte == b'\t').nth(1);
        let Some(&[digit @ b'0'..=b'8']) = answer else {
            return Err("a line of the listing without an answer".to_string());
        };
        let answer = u32::from(digit - b'0');
        steps += 1;
        refused += u64::from(answer != 0);
        tally.saw(answer)?;
    }
    Ok(())
}
