use crate::dice::Dice;
use crate::steps::{done_step, hostile_step, random_step, start};
use independent::{Step, Table};

/// No line of a step is longer: `carry`, two numbers of ten digits, two tabs, LF.
pub const LONGEST_STEP: usize = 28;

/// The shortest line that fills a schedule up, and the longest.
const FILL: std::ops::RangeInclusive<usize> = 6..=15;

pub fn step_text(step: Step) -> String {
    match step {
        Step::Ask(p) => format!("ask\t{p}\n"),
        Step::Carry { from, to } => format!("carry\t{from}\t{to}\n"),
        Step::Enter(p) => format!("enter\t{p}\n"),
        Step::Leave(p) => format!("leave\t{p}\n"),
        Step::Mark(p) => format!("mark\t{p}\n"),
    }
}

/// A schedule in the making, with the table that its steps lead to.
pub struct Draft {
    pub text: Vec<u8>,
    pub table: Table,
    n: usize,
}

impl Draft {
    /// A header alone, of good sizes.
    pub fn new(n: u32, capacity: u32, start: u32) -> Draft {
        Draft {
            text: format!("table\t{n}\t{capacity}\t{start}\n").into_bytes(),
            table: Table::fresh(n, capacity, start).expect("good sizes"),
            n: n as usize,
        }
    }

    pub fn any(dice: &mut Dice) -> Draft {
        let (n, capacity) = (dice.between(1, 8), dice.between(1, 16));
        // Narrow channels get full, wide ones seldom do.
        let capacity = if dice.percent(40) {
            1 + capacity / 6
        } else {
            capacity
        };
        Draft::new(n as u32, capacity as u32, start(dice))
    }

    /// Adds a step, also one that is refused.
    pub fn push(&mut self, step: Step) {
        let _ = self.table.step(step);
        self.push_text(step);
    }

    fn push_text(&mut self, step: Step) {
        self.text.extend(step_text(step).bytes());
    }

    pub fn push_random(&mut self, dice: &mut Dice) {
        self.push(random_step(dice, self.n));
    }

    pub fn push_hostile(&mut self, dice: &mut Dice) {
        self.push(hostile_step(dice, self.n));
    }

    /// Adds a step that is done; where there is none left, any.
    pub fn push_done(&mut self, dice: &mut Dice) {
        match done_step(dice, &mut self.table) {
            Some(step) => self.push_text(step),
            None => self.push_random(dice),
        }
    }

    /// Adds lines until the text is about as long as asked.
    pub fn fill(&mut self, length: usize, mut push: impl FnMut(&mut Draft)) {
        while self.text.len() + LONGEST_STEP + FILL.end() <= length {
            push(self);
        }
    }

    /// Adds lines until the text is exactly as long as asked, if any line fits at all.
    pub fn fill_up(&mut self, length: usize) {
        while self.text.len() + FILL.start() <= length {
            let left = length - self.text.len();
            // What is left for the next line is nothing, or enough for one.
            let line = if left <= *FILL.end() {
                left
            } else {
                left.min(21) - FILL.start()
            };
            let digits = line - "ask\t\n".len();
            self.push(Step::Ask(10_u32.pow(digits as u32 - 1)));
        }
    }
}
