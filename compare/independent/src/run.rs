//! A run: a schedule of steps as text in, a listing out.

use crate::refusal::Refusal;
use crate::table::{Step, Table};

/// The most bytes of a schedule.
pub const LONGEST: usize = 12_288;

/// The bytes of output that each line of a schedule asks for.
pub const ROOM: usize = 32;

/// A refused run, with the number of the line that is to blame or 0.
type Refused = (Refusal, usize);

/// Runs a schedule for at most `budget` steps: the answer, its line, and the bytes written.
pub fn run(schedule: &[u8], budget: usize, out: &mut [u8]) -> (u32, usize, usize) {
    match read(schedule, out.len()) {
        Ok((table, steps)) => (0, 0, list(table, &steps, budget, out)),
        Err((refusal, line)) => (refusal as u32, line, 0),
    }
}

/// Everything that a run can be refused for is found here, before the first step.
fn read(schedule: &[u8], room: usize) -> Result<(Table, Vec<Step>), Refused> {
    if schedule.len() > LONGEST {
        return Err((Refusal::TooLong, 0));
    }
    let mut lines = schedule.split_inclusive(|&byte| byte == b'\n');
    let header = lines.next().and_then(read_header);
    let (n, capacity, start) = header.ok_or((Refusal::BadLine, 1))?;
    let table = Table::fresh(n, capacity, start).map_err(|refusal| (refusal, 1))?;
    let steps = lines
        .zip(2..)
        .map(|(line, number)| read_step(line).ok_or((Refusal::BadLine, number)))
        .collect::<Result<Vec<Step>, Refused>>()?;
    if room < ROOM * (1 + steps.len()) {
        return Err((Refusal::NoRoom, 0));
    }
    Ok((table, steps))
}

fn read_header(line: &[u8]) -> Option<(u32, u32, u32)> {
    let mut fields = fields(line)?;
    if fields.next()? != b"table" {
        return None;
    }
    let n = number(fields.next()?)?;
    let capacity = number(fields.next()?)?;
    let start = number(fields.next()?)?;
    fields.next().is_none().then_some((n, capacity, start))
}

fn read_step(line: &[u8]) -> Option<Step> {
    let mut fields = fields(line)?;
    let name = fields.next()?;
    let first = number(fields.next()?)?;
    let step = match name {
        b"ask" => Step::Ask(first),
        b"enter" => Step::Enter(first),
        b"leave" => Step::Leave(first),
        b"mark" => Step::Mark(first),
        b"carry" => Step::Carry {
            from: first,
            to: number(fields.next()?)?,
        },
        _ => return None,
    };
    fields.next().is_none().then_some(step)
}

/// The fields of a line, which has to end in LF.
fn fields(line: &[u8]) -> Option<impl Iterator<Item = &[u8]>> {
    let line = line.strip_suffix(b"\n")?;
    Some(line.split(|&byte| byte == b'\t'))
}

/// A decimal number without sign or needless zero.
fn number(field: &[u8]) -> Option<u32> {
    match field {
        [] | [b'0', _, ..] => None,
        digits => digits.iter().try_fold(0, add_digit),
    }
}

fn add_digit(sum: u32, digit: &u8) -> Option<u32> {
    if !digit.is_ascii_digit() {
        return None;
    }
    sum.checked_mul(10)?.checked_add(u32::from(digit - b'0'))
}

/// Takes the steps and writes the listing; gives its length.
fn list(mut table: Table, steps: &[Step], budget: usize, out: &mut [u8]) -> usize {
    let mut writer = Writer { out, at: 0 };
    let mut taken = 0;
    let mut refused = 0;
    for &step in steps.iter().take(budget) {
        let outcome = table.step(step);
        taken += 1;
        refused += u32::from(outcome.is_err());
        write_record(&mut writer, taken, outcome, step, &table);
    }
    writer.bytes(b"end\t");
    writer.number(taken);
    writer.byte(b'\t');
    writer.number(refused);
    writer.byte(b'\n');
    writer.at
}

fn write_record(
    writer: &mut Writer,
    number: u32,
    outcome: Result<(), Refusal>,
    step: Step,
    table: &Table,
) {
    writer.number(number);
    writer.byte(b'\t');
    writer.number(Refusal::answer(outcome));
    writer.byte(b'\t');
    if outcome == Err(Refusal::NoBench) {
        writer.bytes(b"-\t-\t-\t-");
    } else {
        write_bench(writer, step.bench() as usize, table);
    }
    writer.byte(b'\t');
    writer.number_or_dash(table.holder());
    writer.byte(b'\n');
}

fn write_bench(writer: &mut Writer, p: usize, table: &Table) {
    writer.number(p as u32);
    writer.byte(b'\t');
    writer.number(table.benches()[p].clock);
    writer.byte(b'\t');
    writer.number(table.benches()[p].phase as u32);
    writer.byte(b'\t');
    writer.number_or_dash(table.place(p));
}

/// Writes one thing behind the other.
struct Writer<'a> {
    out: &'a mut [u8],
    at: usize,
}

impl Writer<'_> {
    fn byte(&mut self, byte: u8) {
        self.out[self.at] = byte;
        self.at += 1;
    }

    fn bytes(&mut self, bytes: &[u8]) {
        self.out[self.at..][..bytes.len()].copy_from_slice(bytes);
        self.at += bytes.len();
    }

    fn number(&mut self, mut number: u32) {
        let length = 1 + number.checked_ilog10().unwrap_or(0) as usize;
        for digit in self.out[self.at..][..length].iter_mut().rev() {
            *digit = b'0' + (number % 10) as u8;
            number /= 10;
        }
        self.at += length;
    }

    fn number_or_dash(&mut self, number: Option<usize>) {
        match number {
            Some(number) => self.number(number as u32),
            None => self.byte(b'-'),
        }
    }
}
