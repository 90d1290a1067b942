//! A host in Rust: two benches take turns and stamp readings, a damaged table is refused, and a
//! schedule is run.

mod rybostan;

use rybostan::{Counts, Table};

/// Marks a reading, and gives its stamp.
fn mark(table: &mut Table, bench: u32) -> Counts {
    let mut stamp = [0; 8];
    println!("mark {bench}: {}", rybostan::mark(table, bench));
    print!("counts {bench}: {},", rybostan::counts(table, bench, &mut stamp));
    for count in &stamp[..table[0] as usize] {
        print!(" {count}");
    }
    println!();
    stamp
}

/// Could the reading with the first stamp have influenced the one with the second?
fn compared(one: &Counts, other: &Counts) -> &'static str {
    match rybostan::compare(one, other) {
        rybostan::BEFORE => "before",
        rybostan::AFTER => "after",
        rybostan::SAME => "same",
        _ => "neither",
    }
}

fn main() {
    let mut table: Table = [0; rybostan::WORDS];
    println!("fresh: {}", rybostan::fresh(&mut table, 2, 4, 0));
    println!("ask 0: {}", rybostan::ask(&mut table, 0));
    println!("enter 0: {}", rybostan::enter(&mut table, 0));
    println!("carry 0 1: {}", rybostan::carry(&mut table, 0, 1));
    println!("carry 1 0: {}", rybostan::carry(&mut table, 1, 0));
    println!("enter 0: {}", rybostan::enter(&mut table, 0));

    let early = mark(&mut table, 1);
    let held = mark(&mut table, 0);
    println!("early, held: {}", compared(&early, &held));
    println!("leave 0: {}", rybostan::leave(&mut table, 0));
    println!("carry 0 1: {}", rybostan::carry(&mut table, 0, 1));
    let mut late = mark(&mut table, 1);
    println!("held, late: {}", compared(&held, &late));
    println!("late, held: {}", compared(&late, &held));
    println!("own count of 1: {}", table[rybostan::count(1, 1)]);
    println!("well formed: {}", rybostan::well_formed(&table) as u32);

    table[0] = 9;
    println!("nine benches: {}", rybostan::well_formed(&table) as u32);
    println!("mark 0: {}", rybostan::mark(&mut table, 0));
    println!("counts 0: {}", rybostan::counts(&table, 0, &mut late));

    let mut listing = [0; 128];
    let good = rybostan::run(b"table\t1\t1\t0\nask\t0\nenter\t0\n", 10, &mut listing);
    println!("run: {} {} {}", good.answer, good.line, good.bytes);
    print!("{}", String::from_utf8_lossy(&listing[..good.bytes]));
    let bad = rybostan::run(b"table\t1\t1\t0\nask\n", 10, &mut listing);
    println!("run: {} {} {}", bad.answer, bad.line, bad.bytes);
}
