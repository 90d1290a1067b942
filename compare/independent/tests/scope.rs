//! The examples of the scope document, and the counts of change request #106.

use independent::{
    Counts, Order, Phase, Refusal, Step, Table, WORDS, Words, compare, counts_in_words,
    fresh_words, place, run, step_words, well_formed,
};

const RUN: &str = "\
table 2 4 0
ask 0
ask 1
enter 0
carry 0 1
carry 1 0
enter 0
carry 1 0
enter 0
enter 1
leave 0
carry 0 1
carry 0 1
enter 1
ask 2
leave 1
";

const LISTING: &str = "\
1 0 0 1 1 1 -
2 0 1 1 1 1 -
3 6 0 1 1 1 -
4 0 1 3 1 2 -
5 0 0 3 1 1 -
6 6 0 3 1 1 -
7 0 0 4 1 1 -
8 0 0 5 2 - 0
9 6 1 3 1 2 0
10 0 0 6 0 - -
11 0 1 4 1 2 -
12 0 1 7 1 1 -
13 0 1 8 2 - 1
14 2 - - - - 1
15 0 1 9 0 - -
end 15 4
";

/// The document writes spaces for tabs.
fn tabs(text: &str) -> Vec<u8> {
    text.replace(' ', "\t").into_bytes()
}

/// A run with as much room as it asks for: its listing.
fn listing(schedule: &[u8], budget: usize) -> String {
    let lines = schedule.iter().filter(|&&byte| byte == b'\n').count();
    let mut out = vec![b'#'; 32 * lines];
    let (answer, line, bytes) = run(schedule, budget, &mut out);
    assert_eq!((answer, line), (0, 0));
    assert!(out[bytes..].iter().all(|&byte| byte == b'#'));
    out.truncate(bytes);
    String::from_utf8(out).unwrap()
}

/// A refused run: the number and the line. Nothing is written.
fn refused(schedule: &[u8], room: usize) -> (u32, usize) {
    let mut out = vec![b'#'; room];
    let (answer, line, bytes) = run(schedule, usize::MAX, &mut out);
    assert_ne!(answer, 0);
    assert_eq!(bytes, 0);
    assert!(out.iter().all(|&byte| byte == b'#'));
    (answer, line)
}

/// The answers to steps on a fresh table, in a table and on lent words alike.
fn answers(n: u32, capacity: u32, start: u32, steps: &[Step]) -> Vec<u32> {
    let mut table = Table::fresh(n, capacity, start).unwrap();
    let mut words = [7; WORDS];
    assert_eq!(fresh_words(&mut words, n, capacity, start), 0);
    steps
        .iter()
        .map(|&step| {
            let answer = Refusal::answer(table.step(step));
            assert_eq!(step_words(&mut words, step), answer);
            let mut written = [7; WORDS];
            table.write_words(&mut written);
            assert_eq!(written, words);
            answer
        })
        .collect()
}

fn carry(from: u32, to: u32) -> Step {
    Step::Carry { from, to }
}

#[test]
fn one_run_whole() {
    let tabbed = String::from_utf8(tabs(LISTING)).unwrap();
    assert_eq!(listing(&tabs(RUN), 65535), tabbed);
}

#[test]
fn sizes() {
    for (n, capacity) in [(0, 4), (9, 4), (2, 0), (2, 17), (u32::MAX, u32::MAX)] {
        assert_eq!(Table::fresh(n, capacity, 0).err(), Some(Refusal::Sizes));
        let mut words = [7; WORDS];
        assert_eq!(fresh_words(&mut words, n, capacity, 5), 9);
        assert_eq!(words, [0; WORDS]);
        assert!(!well_formed(&words));
        assert_eq!(step_words(&mut words, Step::Mark(0)), 1);
    }
    assert!(answers(8, 16, 0, &[]).is_empty());
}

#[test]
fn alone() {
    let steps = [Step::Ask(0), Step::Enter(0)];
    assert_eq!(answers(1, 4, 0, &steps), [0, 0]);
    let mut table = Table::fresh(1, 4, 0).unwrap();
    for step in steps {
        table.step(step).unwrap();
    }
    assert_eq!(table.benches()[0].clock, 2);
    assert_eq!(table.benches()[0].phase, Phase::Holding);
}

#[test]
fn full_channels() {
    let asks = [Step::Ask(0), Step::Ask(1), carry(0, 1)];
    assert_eq!(answers(2, 1, 0, &asks), [0, 0, 7]);
    let turn = [
        Step::Ask(0),
        carry(0, 1),
        carry(1, 0),
        Step::Enter(0),
        Step::Leave(0),
        Step::Ask(0),
    ];
    assert_eq!(answers(2, 1, 0, &turn), [0, 0, 0, 0, 0, 7]);
}

#[test]
fn spent_clocks() {
    let marks = [Step::Mark(0), Step::Mark(0)];
    assert_eq!(answers(2, 4, 4294967294, &marks), [0, 8]);
    let carried = [Step::Ask(0), carry(0, 1)];
    assert_eq!(answers(2, 4, 4294967293, &carried), [0, 8]);
    assert_eq!(answers(2, 4, 4294967292, &carried), [0, 0]);
    let asks = [Step::Ask(0), Step::Ask(0)];
    assert_eq!(answers(2, 4, 4294967294, &asks), [0, 4]);
}

#[test]
fn carries_of_nothing() {
    assert_eq!(answers(2, 4, 0, &[carry(2, 2)]), [2]);
    assert_eq!(answers(2, 4, 0, &[carry(0, 0)]), [3]);
    assert_eq!(answers(2, 4, 0, &[carry(0, 1)]), [5]);
}

#[test]
fn the_grid() {
    let to = [
        vec![],
        vec![Step::Ask(0)],
        vec![Step::Ask(0), Step::Enter(0)],
    ];
    for (phase, way) in to.iter().enumerate() {
        for (admits, step) in [Step::Ask(0), Step::Enter(0), Step::Leave(0)]
            .into_iter()
            .enumerate()
        {
            let steps = [&way[..], &[step]].concat();
            let answer = if admits == phase { 0 } else { 4 };
            assert_eq!(answers(1, 1, 0, &steps).last(), Some(&answer));
        }
        let steps = [&way[..], &[Step::Mark(0)]].concat();
        assert_eq!(answers(1, 1, 0, &steps).last(), Some(&0));
    }
}

#[test]
fn budgets() {
    assert_eq!(listing(&tabs(RUN), 0), "end\t0\t0\n");
    let first_three = tabs(
        "1 0 0 1 1 1 -\n\
         2 0 1 1 1 1 -\n\
         3 6 0 1 1 1 -\n\
         end 3 1\n",
    );
    assert_eq!(listing(&tabs(RUN), 3).into_bytes(), first_three);
}

#[test]
fn room() {
    let header = tabs("table 2 4 0\n");
    assert_eq!(refused(&header, 31), (11, 0));
    assert_eq!(refused(&header, 0), (11, 0));
    assert_eq!(listing(&header, 65535), "end\t0\t0\n");
    assert_eq!(refused(&tabs(RUN), 16 * 32 - 1), (11, 0));
}

#[test]
fn bad_lines() {
    for (text, answer, line) in [
        ("", 10, 1),
        ("\n", 10, 1),
        ("table 2 4 0", 10, 1),
        ("table 2 4\n", 10, 1),
        ("table 2 4 0 0\n", 10, 1),
        ("table 2 4 0 \n", 10, 1),
        (" table 2 4 0\n", 10, 1),
        ("Table 2 4 0\n", 10, 1),
        ("table 2 4 4294967296\n", 10, 1),
        ("table 9 4 4294967296\n", 10, 1),
        ("table 02 4 0\n", 10, 1),
        ("table +2 4 0\n", 10, 1),
        ("table 2 4 0\r\n", 10, 1),
        ("ask 0\n", 10, 1),
        ("table 0 4 0\n", 9, 1),
        ("table 9 4 0\n", 9, 1),
        ("table 2 0 0\n", 9, 1),
        ("table 2 17 0\n", 9, 1),
        ("table 9 4 0\nnonsense\n", 9, 1),
        ("table 9 4 0\nask 0", 9, 1),
        ("table 2 4 0\n\n", 10, 2),
        ("table 2 4 0\nask 0", 10, 2),
        ("table 2 4 0\nask 0\ncarry 0\n", 10, 3),
        ("table 2 4 0\nask 0\ncarry 0 1 1\n", 10, 3),
        ("table 2 4 0\nask\n", 10, 2),
        ("table 2 4 0\nask 0 \n", 10, 2),
        ("table 2 4 0\nask 0 0\n", 10, 2),
        ("table 2 4 0\nask 00\n", 10, 2),
        ("table 2 4 0\nask -0\n", 10, 2),
        ("table 2 4 0\ntable 2 4 0\n", 10, 2),
        ("table 2 4 0\nask 0\nx\ny\n", 10, 3),
    ] {
        assert_eq!(refused(&tabs(text), 1000), (answer, line), "{text:?}");
        assert_eq!(refused(&tabs(text), 0), (answer, line), "{text:?}");
    }
}

#[test]
fn too_long() {
    let mut schedule = tabs("table 2 4 0\n");
    while schedule.len() < 12_288 {
        let step = if (12_288 - schedule.len()).is_multiple_of(6) {
            "ask 0\n"
        } else {
            "mark 0\n"
        };
        schedule.extend(tabs(step));
    }
    assert_eq!(schedule.len(), 12_288);
    assert!(listing(&schedule, 1).starts_with("1\t0\t0\t1\t1\t1\t-\n"));
    schedule.push(b'\n');
    assert_eq!(refused(&schedule, 0), (12, 0));
    assert_eq!(refused(&[b'?'; 12_289], 0), (12, 0));
}

#[test]
fn the_senders_entry_is_dropped() {
    // Bench 2 holds and leaves, then bench 1 does; bench 0 hears of it from bench 1 first.
    let steps = [
        Step::Ask(2),
        carry(2, 0),
        carry(2, 1),
        carry(0, 2),
        carry(1, 2),
        Step::Enter(2),
        Step::Ask(1),
        carry(1, 0),
        carry(1, 2),
        Step::Leave(2),
        carry(2, 1),
        carry(2, 1),
        carry(0, 1),
        Step::Enter(1),
        Step::Leave(1),
    ];
    let mut table = Table::fresh(3, 4, 0).unwrap();
    for step in steps {
        table.step(step).unwrap();
    }
    let before = table.benches()[0].queue;
    assert!(before[2].is_some() && before[2] < before[1]);
    table.step(carry(1, 0)).unwrap();
    let after = table.benches()[0].queue;
    assert_eq!(after[1], None);
    assert_eq!(after[2], before[2]);
}

#[test]
fn words_that_are_no_table() {
    let mut words = [0; WORDS];
    fresh_words(&mut words, 2, 4, 3);
    step_words(&mut words, Step::Ask(0));
    assert!(well_formed(&words));
    // One damage for each clause: the word, and what it is changed to.
    for (place, word) in [
        (0, 0),
        (0, 1),
        (0, 9),
        (1, 0),
        (1, 17),
        (4, 1),         // the clock of no bench
        (10, 0),        // idle with an own entry
        (11, 1),        // waiting without one
        (10, 3),        // no phase
        (12, 1),        // the phase of no bench
        (20, 1),        // an entry for no bench
        (82, 1),        // hearing itself
        (84, 1),        // hearing no bench
        (146, 1),       // a channel to itself
        (147, 0),       // a message in an unused slot
        (147, 2),       // a message of stamp 0
        (147, 5),       // over capacity
        (148, 1),       // a channel to no bench
        (210, 1),       // a slot of a channel to itself
        (210 + 32, 3),  // no kind
        (211 + 32, 0),  // stamp 0
        (212 + 32, 1),  // a kind in an unused slot
        (213 + 32, 1),  // a stamp in an unused slot
        (2257, 1),      // the last slot of all
        (2258 + 2, 1),  // a count for no bench
        (2258 + 16, 1), // a count of no bench
        (2322, 1),      // counts in a channel to itself
        (2450 + 2, 1),  // counts for no bench in a message
        (2450 + 8, 1),  // counts in an unused slot
        (2578, 1),      // counts in a channel to no bench
        (WORDS - 1, 1), // the last count of all
    ] {
        let mut damaged = words;
        damaged[place] = word;
        assert!(!well_formed(&damaged), "{place} {word}");
        assert!(Table::from_words(&damaged).is_none());
        let before = damaged;
        assert_eq!(step_words(&mut damaged, Step::Mark(0)), 1);
        assert_eq!(damaged, before);
        // Before it is looked whether the bench is there.
        let mut counts = [7; 8];
        assert_eq!(counts_in_words(&damaged, 8, &mut counts), 1);
        assert_eq!(counts, [7; 8]);
    }
    for place in [2258, 2259, 2266, 2267, 2450, 2451] {
        let mut other = words;
        other[place] = u32::MAX;
        assert!(well_formed(&other), "{place}");
    }
}

/// A bench's counts, for benches 0 and 1.
fn counts(words: &Words, p: u32) -> [u32; 2] {
    let mut counts: Counts = [7; 8];
    assert_eq!(counts_in_words(words, p, &mut counts), 0);
    assert_eq!(counts[2..], [0; 6]);
    [counts[0], counts[1]]
}

#[test]
fn events_are_counted() {
    // Counts start at 0 whatever the start clock.
    let mut words = [7; WORDS];
    fresh_words(&mut words, 2, 4, 100);
    for (step, p, after) in [
        (Step::Ask(0), 0, [1, 0]),
        (Step::Mark(0), 0, [2, 0]),
        // The request was sent before the mark; its receipt and the acknowledgement are two events.
        (carry(0, 1), 1, [1, 2]),
        (Step::Mark(1), 1, [1, 3]),
        (carry(1, 0), 0, [3, 2]),
        (Step::Enter(0), 0, [4, 2]),
        (Step::Leave(0), 0, [5, 2]),
        (Step::Ask(0), 0, [6, 2]),
        (carry(0, 1), 1, [5, 4]),
    ] {
        assert_eq!(step_words(&mut words, step), 0);
        assert_eq!(counts(&words, p), after, "{step:?}");
    }
    // The second request has moved up to the release's slot, with its counts.
    assert_eq!(
        words[place::brought(0, 1, 0)..][..8],
        [6, 2, 0, 0, 0, 0, 0, 0]
    );
    assert_eq!(words[place::brought(0, 1, 1)..][..8], [0; 8]);
    let mut untouched = [7; 8];
    assert_eq!(counts_in_words(&words, 2, &mut untouched), 2);
    assert_eq!(untouched, [7; 8]);
}

#[test]
fn spent_counts() {
    let mut words = [0; WORDS];
    fresh_words(&mut words, 2, 4, 0);
    step_words(&mut words, Step::Ask(0));
    let own = place::counts(1) + 1;
    for (count, step, answer) in [
        (u32::MAX, Step::Mark(1), 8),
        (u32::MAX - 1, Step::Mark(1), 0),
        (u32::MAX - 1, carry(0, 1), 8),
        (u32::MAX - 2, carry(0, 1), 0),
    ] {
        let mut words = words;
        words[own] = count;
        let before = words;
        assert_eq!(step_words(&mut words, step), answer, "{count} {step:?}");
        assert_eq!(words == before, answer == 8);
    }
    // Of another's events any count is taken over, and nobody else's word for one's own.
    words[place::brought(0, 1, 0)] = u32::MAX;
    words[place::brought(0, 1, 0) + 1] = u32::MAX;
    assert_eq!(step_words(&mut words, carry(0, 1)), 0);
    assert_eq!(counts(&words, 1), [u32::MAX, 2]);
}

#[test]
fn orders() {
    for (a, b, there, back) in [
        ([1, 3], [5, 5], Order::Before, Order::After),
        ([1, 3], [1, 4], Order::Before, Order::After),
        ([0, 0], [0, u32::MAX], Order::Before, Order::After),
        ([1, 3], [1, 3], Order::Same, Order::Same),
        ([1, 3], [4, 2], Order::Neither, Order::Neither),
    ] {
        let [a, b] = [a, b].map(|[p, q]| [0, 0, p, 0, 0, 0, 0, q]);
        assert_eq!((compare(&a, &b), compare(&b, &a)), (there, back));
    }
}
