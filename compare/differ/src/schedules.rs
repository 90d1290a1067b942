//! The families of schedules.

use crate::check::{Outputs, Tally};
use independent::{LONGEST, ROOM};
use material::{Dice, Draft, LONGEST_STEP};

type Outcome = Result<(), String>;

/// Steps as they come.
pub fn random(dice: &mut Dice, outputs: &mut Outputs, tally: &mut Tally) -> Outcome {
    let mut draft = Draft::any(dice);
    let length = length(dice);
    draft.fill(length, |draft| draft.push_random(dice));
    draft.fill_up(length);
    compare(&draft.text, dice, outputs, tally)
}

/// Mostly steps that are done.
pub fn progress(dice: &mut Dice, outputs: &mut Outputs, tally: &mut Tally) -> Outcome {
    let mut draft = Draft::any(dice);
    let length = length(dice);
    draft.fill(length, |draft| {
        if dice.percent(93) {
            draft.push_done(dice);
        } else {
            draft.push_random(dice);
        }
    });
    compare(&draft.text, dice, outputs, tally)
}

/// Mostly steps that are refused.
pub fn hostile(dice: &mut Dice, outputs: &mut Outputs, tally: &mut Tally) -> Outcome {
    let mut draft = Draft::any(dice);
    let length = length(dice);
    let done = dice.below(30);
    draft.fill(length, |draft| {
        if dice.percent(done) {
            draft.push_done(dice);
        } else {
            draft.push_hostile(dice);
        }
    });
    compare(&draft.text, dice, outputs, tally)
}

/// Good schedules with a few bytes, fields or lines spoilt.
pub fn damaged(dice: &mut Dice, outputs: &mut Outputs, tally: &mut Tally) -> Outcome {
    let mut draft = Draft::any(dice);
    let length = dice.pick(&[0, 60, 100, 200, 400]);
    draft.fill(length, |draft| match dice.below(3) {
        0 => draft.push_hostile(dice),
        _ => draft.push_done(dice),
    });
    let mut text = draft.text;
    for _ in 0..dice.pick(&[1, 1, 1, 2, 3]) {
        spoil(&mut text, dice);
    }
    compare(&text, dice, outputs, tally)
}

/// Schedules made of likely and unlikely fields.
pub fn made_of_fields(dice: &mut Dice, outputs: &mut Outputs, tally: &mut Tally) -> Outcome {
    const NAMES: [&str; 10] = [
        "ask", "carry", "enter", "leave", "mark", "table", "as", "asks", "Mark", "",
    ];
    let mut text = Vec::new();
    if dice.percent(90) {
        header_of_fields(&mut text, dice);
    }
    for _ in 0..dice.below(8) {
        let likely = dice.percent(90);
        let name = if likely {
            dice.below(5)
        } else {
            dice.below(NAMES.len())
        };
        text.extend(NAMES[name].bytes());
        let fields = if name == 1 { 2 } else { 1 };
        let fields = if dice.percent(95) {
            fields
        } else {
            dice.below(4)
        };
        for _ in 0..fields {
            text.push(b'\t');
            let field = if dice.percent(92) {
                dice.pick(&GOOD)
            } else {
                dice.pick(&BAD)
            };
            text.extend(field.bytes());
        }
        text.extend(
            if dice.percent(97) {
                "\n"
            } else {
                dice.pick(&ENDS)
            }
            .bytes(),
        );
    }
    compare(&text, dice, outputs, tally)
}

const GOOD: [&str; 12] = [
    "0",
    "1",
    "2",
    "3",
    "4",
    "7",
    "8",
    "9",
    "10",
    "100",
    "4294967294",
    "4294967295",
];

const BAD: [&str; 24] = [
    "",
    "00",
    "01",
    "+1",
    "-1",
    "-0",
    " 1",
    "1 ",
    "1.",
    "0x1",
    "1e0",
    "4294967296",
    "4294967305",
    "4294967300",
    "5000000000",
    "9999999999",
    "10000000000",
    "18446744073709551616",
    "18446744073709551617",
    "340282366920938463463374607431768211457",
    "000000000000000000001",
    "\u{661}",
    "\0",
    "/",
];

const ENDS: [&str; 8] = ["\r\n", "", "\n\n", "\t\n", " \n", "\r", "\u{b}", "\0\n"];

fn header_of_fields(text: &mut Vec<u8>, dice: &mut Dice) {
    text.extend(b"table");
    let fields = if dice.percent(96) { 3 } else { dice.below(5) };
    for field in 0..fields {
        text.push(b'\t');
        let field = match (field, dice.below(20)) {
            (_, 0) => dice.pick(&BAD),
            (0, 1) => dice.pick(&["0", "8", "9", "4294967295"]),
            (1, 1) => dice.pick(&["0", "16", "17", "4294967295"]),
            (0 | 1, _) => dice.pick(&["1", "2", "3", "8"]),
            _ => dice.pick(&GOOD),
        };
        text.extend(field.bytes());
    }
    text.extend(
        if dice.percent(97) {
            "\n"
        } else {
            dice.pick(&ENDS)
        }
        .bytes(),
    );
}

/// Bytes without any form.
pub fn noise(dice: &mut Dice, outputs: &mut Outputs, tally: &mut Tally) -> Outcome {
    let length = if dice.percent(90) {
        dice.below(60)
    } else {
        length(dice)
    };
    let text: Vec<u8> = if dice.percent(50) {
        (0..length).map(|_| dice.word() as u8).collect()
    } else {
        (0..length)
            .map(|_| dice.pick(b"table \t\n0123ask"))
            .collect()
    };
    compare(&text, dice, outputs, tally)
}

/// Mostly short; else near the longest schedule or over it.
fn length(dice: &mut Dice) -> usize {
    match dice.below(40) {
        0 => dice.between(LONGEST - 3, LONGEST + 3),
        1 => dice.pick(&[LONGEST, LONGEST + 1]),
        2 => LONGEST + LONGEST_STEP + 15,
        3 => dice.below(LONGEST),
        4..12 => dice.below(3000),
        _ => dice.below(500),
    }
}

fn spoil(text: &mut Vec<u8>, dice: &mut Dice) {
    let at = dice.below(text.len() + 1);
    let byte = match dice.below(3) {
        0 => dice.word() as u8,
        1 => dice.pick(b"\t\n\r 0019-+akmtb"),
        _ => b'0' + dice.below(10) as u8,
    };
    match dice.below(10) {
        0 | 1 => text.insert(at, byte),
        2 | 3 if at < text.len() => text[at] = byte,
        4 | 5 if at < text.len() => drop(text.remove(at)),
        6 if at < text.len() => text[at] ^= 1 << dice.below(8),
        7 => text.truncate(at.max(text.len().saturating_sub(3))),
        8 => replace_at(text, b'\n', dice.pick(&ENDS), dice),
        _ => add_line(text, dice),
    }
}

/// Puts something else in the place of one of the bytes that are equal to this one.
fn replace_at(text: &mut Vec<u8>, byte: u8, with: &str, dice: &mut Dice) {
    let places: Vec<usize> = (0..text.len()).filter(|&at| text[at] == byte).collect();
    if !places.is_empty() {
        let at = dice.pick(&places);
        text.splice(at..=at, with.bytes());
    }
}

/// Puts in a line that doesn't belong.
fn add_line(text: &mut Vec<u8>, dice: &mut Dice) {
    const LINES: [&str; 12] = [
        "\n",
        "\r\n",
        "table\t2\t4\t0\n",
        "ask\t0\t0\n",
        "carry\t0\n",
        "carry\t0\t1\t2\n",
        "ask 0\n",
        "ask\t\n",
        "ask\t0\t\n",
        "\task\t0\n",
        "end\t0\t0\n",
        "ask\t00\n",
    ];
    let starts = (0..=text.len()).filter(|&at| at == 0 || text[at - 1] == b'\n');
    let at = dice.pick(&starts.collect::<Vec<usize>>());
    text.splice(at..at, dice.pick(&LINES).bytes());
}

/// Runs a schedule with a few budgets and rooms.
fn compare(text: &[u8], dice: &mut Dice, outputs: &mut Outputs, tally: &mut Tally) -> Outcome {
    let lines = text.iter().filter(|&&byte| byte == b'\n').count();
    let asked = ROOM * lines;
    let answer = outputs.run(text, usize::MAX, asked, tally)?;
    let budget = match dice.below(6) {
        0 => 0,
        1 => 1,
        2 => lines,
        3 => lines.saturating_sub(dice.below(3)),
        4 => dice.below(lines + 2),
        _ => dice.roll() as usize,
    };
    let room = match dice.below(6) {
        0 => asked.saturating_sub(1),
        1 => 0,
        2 => dice.below(asked + 1),
        3 => asked,
        _ => asked + dice.below(100),
    };
    outputs.run(text, budget, room, tally)?;
    if answer == 0 && outputs.run(text, budget, asked - 1, tally)? != 11 {
        return Err(format!(
            "no refusal with too little room: {}",
            text.escape_ascii()
        ));
    }
    Ok(())
}
